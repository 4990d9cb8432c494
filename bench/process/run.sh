#!/bin/sh
# Runs the real program so that it ends with each status, over real files, standard input, output and error: see README.md.
# It builds nothing: the program is there, as `rt ci` or `./build` left it.
here=$(dirname "$(readlink -f "$0")")
top=$here/../..
hept=$top/crates/hp_main/out/hp_main
examples=$top/examples
if [ ! -x "$hept" ]; then
    echo "$hept is not there: build it with ./build or rt ci" >&2
    exit 70
fi
dir=$(mktemp -d)
trap 'rm -rf "$dir"' EXIT
wrong=0

# same NAME STATUS FOUND WANTED_SAID WANTED_DIAGNOSTICS: compares the status, `said` and `told` of a call
same() {
    printf '%s' "$4" >"$dir/said.wanted"
    printf '%s' "$5" >"$dir/told.wanted"
    if [ "$2" = "$3" ] && cmp -s "$dir/said" "$dir/said.wanted" && cmp -s "$dir/told" "$dir/told.wanted"; then
        echo "$1: status $2"
    else
        echo "$1: status $3, wanted $2, or other bytes"
        wrong=1
    fi
    : >"$dir/said"
    : >"$dir/told"
}
nl='
'
: >"$dir/said"
: >"$dir/told"

printf 'true\nfalse\ntrue\n' | "$hept" run "$examples/p1.ept" f >"$dir/said" 2>"$dir/told"
same "a trace to its end" 0 $? "false${nl}true${nl}false${nl}" ""
printf 'node f() returns (y : bool)\nlet y = y tel\n' >"$dir/circle"
"$hept" check "$dir/circle" >"$dir/said" 2>"$dir/told"
same "a program that is refused" 1 $? "" "E9 f y@2:5 y@2:5${nl}"
"$hept" run "$examples/p1.ept" >"$dir/said" 2>"$dir/told"
same "words of no form" 2 $? "" "usage: hept check run compile exec prove verify sweep past save resume${nl}"
printf 'true\nmaybe\ntrue\n' | "$hept" run "$examples/p1.ept" f >"$dir/said" 2>"$dir/told"
same "a line that is refused" 3 $? "false${nl}" "L1 2 1${nl}"
"$hept" check "$dir/none" >"$dir/said" 2>"$dir/told"
same "a file that is not there" 4 $? "" ""
"$hept" run "$examples/p1.ept" f <"$dir" >"$dir/said" 2>"$dir/told"
same "input that cannot be read" 4 $? "" ""
printf 'true\n' | "$hept" run "$examples/p1.ept" f >/dev/full 2>"$dir/told"
same "output that cannot be written" 5 $? "" ""
"$hept" check "$dir/circle" >"$dir/said" 2>/dev/full
same "diagnostics that cannot be written" 5 $? "" ""
"$hept" compile "$examples/p1.ept" "$dir" >"$dir/said" 2>"$dir/told"
same "a file that cannot be written" 5 $? "" ""
"$hept" past "$examples/granted.ept" "$dir" >"$dir/said" 2>"$dir/told"
same "a source text that cannot be written" 5 $? "" ""
"$hept" past "$examples/granted.ept" "$dir/granted" >"$dir/said" 2>"$dir/told"
same "a past that is written out" 0 $? "" ""
printf 'false true\ntrue true\nfalse true\n' | "$hept" run "$dir/granted" gate >"$dir/said" 2>"$dir/told"
same "and runs" 0 $? "false${nl}true${nl}true${nl}" ""
printf 'hept-cert 9\n' >"$dir/cert"
"$hept" verify "$examples/tasks.ept" tasks "$dir/cert" >"$dir/said" 2>"$dir/told"
same "a certificate that is refused" 7 $? "" "K1 1:11${nl}"
printf 'obc 2\n' >"$dir/machines"
"$hept" exec "$dir/machines" f >"$dir/said" 2>"$dir/told"
same "a text of machines that is refused" 8 $? "" "O1 1:5${nl}"
printf 'true\n' | "$hept" save "$examples/p1.ept" f "$dir/memory" >"$dir/said" 2>"$dir/told"
same "a run that is stopped" 0 $? "false${nl}" ""
printf 'false\n' | "$hept" resume "$examples/p1.ept" f "$dir/memory" "$dir/memory" >"$dir/said" 2>"$dir/told"
same "and resumed" 0 $? "true${nl}" ""
printf 'hept-mem 2\n' >"$dir/memory"
printf 'false\n' | "$hept" resume "$examples/p1.ept" f "$dir/memory" "$dir/memory" >"$dir/said" 2>"$dir/told"
same "a checkpoint that is refused" 9 $? "" "M1 1:10${nl}"
printf 'true\n' | "$hept" save "$examples/p1.ept" f "$dir" >"$dir/said" 2>"$dir/told"
same "a checkpoint that cannot be written" 5 $? "false${nl}" ""
exit $wrong
