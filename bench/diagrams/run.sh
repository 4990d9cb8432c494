#!/bin/sh
# Builds the same diagrams by hp_diagram and by BuDDy (Debian's libbdd-dev), and prints the ratio of their times.
# Run it by hand on a quiet machine: bench/diagrams/run.sh. It works in a copy, and leaves the repository as it is.
set -eu
here=$(cd "$(dirname "$0")" && pwd)
root=$(cd "$here/../.." && pwd)
copy=$(mktemp -d)
trap 'rm -rf "$copy"' EXIT
cc -O2 -o "$copy/buddy" "$here/buddy.c" -lbdd
mkdir -p "$copy/crates/diagram_bench/src" "$copy/crates/diagram_bench/specs" "$copy/crates/diagram_bench/proofs"
cp -r "$root/crates/hp_diagram" "$copy/crates/"
printf 'hp_diagram: indexmap lru\ndiagram_bench: hp_diagram\n' > "$copy/crates.txt"
cp "$here/program.txt" "$copy/crates/diagram_bench/src/main.rt"
touch "$copy/crates/diagram_bench/specs/Lib.antt" "$copy/crates/diagram_bench/proofs/Lib.antt"
(cd "$copy/crates/diagram_bench" && rt run > "$copy/ours.log" 2> "$copy/ours.err") || { tail -20 "$copy/ours.log" "$copy/ours.err"; exit 1; }
grep -E '^(queens|adder) ' "$copy/ours.log" > "$copy/ours"
"$copy/buddy" 8 16 5 > "$copy/theirs"
echo 'what, nodes and microseconds of hp_diagram, nodes and microseconds of BuDDy, ratio'
paste -d ' ' "$copy/ours" "$copy/theirs" | awk '{ printf "%s %s %s %s %s %.2f\n", $1, $2, $3, $5, $6, $3 / $6 }'
