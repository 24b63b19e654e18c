#!/bin/sh
# A script with bytes that an editor or a transfer may have put there: one line of warning, and the output as it must be.
. "$(dirname "$0")/tree"

must_run 'a plain file'
[ "$(grep -c warning "$room/err")" = 0 ] || fail 'there is a warning of a plain file'

must_warn() { # FILE OUTPUT WARNING..
    file=$1
    printf "$2" >"$room/expected"
    shift 2
    "$tree/bench" "$file" >"$room/out" 2>"$room/err" || fail "$*: it ended with status $?"
    cmp -s "$room/out" "$room/expected" || fail "$*: it printed something else"
    [ "$(wc -l <"$room/err")" = 1 ] || fail "$*: there is not one line of warning: $(cat "$room/err")"
    for word; do grep -q "$file has.*$word" "$room/err" || fail "$word: the warning is: $(cat "$room/err")"; done
    "$tree/bench" <"$file" 2>"$room/err" | cmp -s - "$room/expected" || fail "$*: as standard input it printed something else"
    [ ! -s "$room/err" ] || fail 'there is a warning of standard input'
}

# The CR belongs to the line: no form has one.
printf 'C REM\r\nT 3\r\nC REM\n' >"$room/ends.txt"
must_warn "$room/ends.txt" '1 -\n?\n0 -\n' 'CR LF'
# The mark belongs to the first line.
printf '\357\273\277C REM\nC REM\n' >"$room/mark.txt"
must_warn "$room/mark.txt" '?\n0 -\n' 'byte order mark'
printf 'C REM\nC REM\0\nC LOC\n' >"$room/nul.txt"
must_warn "$room/nul.txt" '0 -\n1 -\n0 -\n' 'NUL'
printf '\357\273\277C REM\r\nC REM\0\r\n' >"$room/all.txt"
must_warn "$room/all.txt" '?\n1 -\n' 'byte order mark' 'CR LF' 'NUL'
# Two bytes to a letter: after its mark every line has a zero.
printf '\377\376C\0 \0R\0E\0M\0\n\0' >"$room/wide.txt"
must_warn "$room/wide.txt" '?\n?\n' 'byte order mark' 'NUL'

# A pipe that is named is read once, and so not looked at.
mkfifo "$room/pipe"
printf 'C REM\r\n' >"$room/pipe" &
"$tree/bench" "$room/pipe" 2>"$room/err" | { read -r line; [ "$line" = '1 -' ]; } || fail 'a named pipe can not be read'
