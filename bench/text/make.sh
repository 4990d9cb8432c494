#!/bin/sh
# Writes a source text of exactly SIZE bytes (1,048,576 where none is given, the most that is read):
# nodes with all kinds of tokens, nested comments between them, and a comment at the end that fills the text up.
size=${1:-1048576}
exec awk -v size="$size" 'BEGIN {
    if (size < 8) { print "make.sh: at least 8 bytes" > "/dev/stderr"; exit 2 }
    written = 0
    kinds = "type speed = Slow | Fast\n\n"
    if (length(kinds) <= size - 8) { printf "%s", kinds; written = length(kinds) }
    for (n = 1; ; n++) {
        node = "node count_" n "(a : bool; step : int) returns (sum : int; full : bool)\n" \
            "(* node " n " (* of many *) counts while a holds *)\n" \
            "var last_sum : int; pace : speed; last mode : bool = false\n" \
            "let\n" \
            "  last_sum = 0 -> pre sum;\n" \
            "  pace = if sum < 5 || sum > 50 then Slow else Fast;\n" \
            "  sum = if a & not full then last_sum + step * " (n % 97) " else last_sum - " (n % 13) ";\n" \
            "  full = (sum >= " (1000 + n) ") or (sum <> " n " && a) xor last mode => false;\n" \
            "  switch a | true do mode = (step / 3) % 2 <= 1 | false do mode = last mode end\n" \
            "tel\n\n"
        if (written + length(node) > size - 8) break
        printf "%s", node
        written += length(node)
    }
    printf "(*"
    for (i = written + 2; i < size - 3; i++) printf "."
    printf "*)\n"
}'
