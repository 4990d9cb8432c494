#!/bin/sh
# Runs the longest chain with the deepest cases, and nearly as many instances as may be, on a small stack: see README.md.
set -e
here=$(dirname "$(readlink -f "$0")")
hept=$here/../../hept
dir=$(mktemp -d)
trap 'rm -rf "$dir"' EXIT
"$hept" exec "$here/../../examples/delay.obc" f </dev/null # builds the program where it is stale
printf 'true\nfalse\ntrue\n' >"$dir/trace"
printf 'true\nfalse\ntrue\n' >"$dir/deep.wanted"
printf '1\n1\n2\n' >"$dir/many.wanted"
ulimit -s 512
for what in deep many; do
    node=d69
    [ "$what" = many ] && node=grid
    python3 "$here/make.py" "$what" >"$dir/$what.obc"
    "$hept" exec "$dir/$what.obc" "$node" <"$dir/trace" >"$dir/said"
    cmp "$dir/said" "$dir/$what.wanted"
    echo "$what: ran within 512 KiB of stack"
done
