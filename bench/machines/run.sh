#!/bin/sh
# Times the machines of make.py under `hept exec`, and the same by hand in C, on the same lines: see README.md.
set -e
here=$(dirname "$(readlink -f "$0")")
hept=$here/../../hept
lines=${1:-1000000}
dir=$(mktemp -d)
trap 'rm -rf "$dir"' EXIT
"$hept" exec "$here/../../examples/delay.obc" f </dev/null # builds the program where it is stale
cc -O2 -o "$dir/by_hand" "$here/by_hand.c"
spent() { # the least processor time of five runs of a command from a trace into a file, in nanoseconds
    python3 "$here/../spent.py" "$@"
}
for what in counter chain wide deep copy; do
    case $what in
    copy) count=$((10 * lines)) ;;
    wide) count=$((lines / 10)) ;;
    deep) count=$((lines / 100)) ;;
    *) count=$lines ;;
    esac
    python3 "$here/make.py" "$what" >"$dir/$what.obc"
    python3 "$here/make.py" "$what-trace" "$count" >"$dir/$what.trace"
    node=$what
    [ "$what" = chain ] && node=c59
    [ "$what" = deep ] && node=d69
    a=$(spent "$dir/$what.trace" "$dir/ours" "$hept" exec "$dir/$what.obc" "$node")
    b=$(spent "$dir/$what.trace" "$dir/theirs" "$dir/by_hand" "$what")
    cmp "$dir/ours" "$dir/theirs"
    echo "$what: $count lines, hept $((a / 1000000)) ms ($((a / count)) ns a line), by hand $((b / 1000000)) ms, ratio $((100 * a / b)) / 100"
done
