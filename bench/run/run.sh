#!/bin/sh
# Times the programs of make.py under `hept run`, and the same by hand in C, on the same lines: see README.md.
set -e
here=$(dirname "$(readlink -f "$0")")
hept=$here/../../hept
lines=${1:-1000000}
dir=$(mktemp -d)
trap 'rm -rf "$dir"' EXIT
"$hept" run "$here/../../examples/p1.ept" f </dev/null # builds the program where it is stale
cc -O2 -o "$dir/by_hand" "$here/by_hand.c"
spent() { # the least processor time of five runs of a command from a trace into a file, in nanoseconds
    python3 "$here/../spent.py" "$@"
}
for what in counter states states200 nested filtered calls; do
    python3 "$here/make.py" "$what" >"$dir/$what.ept"
    python3 "$here/make.py" "$what" "$lines" >"$dir/$what.trace"
    node=$what
    [ "$what" = calls ] && node=c59
    [ "$what" = states200 ] && node=states
    a=$(spent "$dir/$what.trace" "$dir/ours" "$hept" run "$dir/$what.ept" "$node")
    b=$(spent "$dir/$what.trace" "$dir/theirs" "$dir/by_hand" "$what")
    cmp "$dir/ours" "$dir/theirs"
    echo "$what: hept $((a / 1000000)) ms, by hand $((b / 1000000)) ms, ratio $((100 * a / b)) / 100"
done
