#!/bin/sh
# The card of a script: it is the four-motor card where the first line is K 1, those three bytes, and the sixteen-motor card
# otherwise. STQ? tells them apart: on the second it is no command.
. "$(dirname "$0")/tree"

must_print() { # SCRIPT OUTPUT, both as printf has them
    printf "$1" >"$room/script.txt"
    printf "$2" >"$room/expected"
    "$tree/bench" "$room/script.txt" >"$room/out" 2>"$room/err" || fail "'$1' ended with status $?"
    cmp -s "$room/out" "$room/expected" || fail "'$1' printed: $(cat "$room/out")"
}

must_print 'K 1\nC STQ?\n' '0\n0 L4\n'
must_print 'K 1' '0\n'
must_print 'C STQ?\n' '1 -\n'

# What is not K 1 is a first line too, and so is one that does something; K 1 comes too late after it.
for line in 'K 0' 'K 2' 'K 01' 'K 11' 'K 1 ' ' K 1' 'K  1' 'K\t1' 'K 1\r' 'K1' 'K ' 'K' 'k 1' 'X' ''; do
    must_print "$line\nK 1\nC STQ?\n" '?\n?\n1 -\n'
done
must_print 'C REM\nK 1\nC STQ?\n' '0 -\n?\n1 -\n'
must_print 'S 0 0\nK 1\nC REM\nC SCANP0\n' '0\n?\n0 -\n0 -\n'
must_print 'T 1\nK 1\nC STQ?\n' '0\n?\n1 -\n'

# A second one changes nothing: neither the card nor the table.
must_print 'K 1\nC REM\nK 1\nS 0 0\nC SCANP0\nK 1\nK 0\nC STQ?\n' '0\n0 -\n?\n0\n0 -\n?\n?\n0 R3\n'
