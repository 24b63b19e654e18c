#!/bin/sh
# How a run ends: reads and writes that fail, a program that a signal ends, a reader that has had enough.
. "$(dirname "$0")/tree"

# Expects a status, one line of message with a word in it, from the run whose status is given and whose messages are in err.
must_say() { # STATUS EXPECTED WORD
    [ "$1" = "$2" ] || fail "$3: $program ended with status $1, not $2"
    [ "$(wc -l <"$room/err")" = 1 ] && grep -q "^$program: .*$3" "$room/err" || fail "$3: $program said: $(cat "$room/err")"
}

# More lines than a pipe holds: a script of 100,000 lines, and a list of 10,000 moves.
yes 'C REM' | head -n 100000 >"$room/much.txt"
printf '\1\1\0\3\2\10\0\0\0\0\0\0\0\131\100\4\10\0\0\0\0\0\0\0\211\100' >"$room/much.bin"
for power in 1 2 3 4; do
    mv "$room/much.bin" "$room/part"
    for k in 0 1 2 3 4 5 6 7 8 9; do cat "$room/part"; done >"$room/much.bin"
done

for each in bench scanlist; do
    try $each
    must_run 'a built tree'
    "$tree/$each" "$input" >/dev/full 2>"$room/err"
    must_say $? 1 'No space left'
    "$tree/$each" "$input" >&- 2>"$room/err"
    must_say $? 1 'output is closed'
    "$tree/$each" <&- >"$room/out" 2>"$room/err"
    must_say $? 1 'input is closed'
    "$tree/$each" "$input" 2>&- | cmp -s - "$expected" || fail "with standard error closed $each printed something else"
    "$tree/$each" /proc/self/mem >"$room/out" 2>"$room/err"
    must_say $? 1 'Input/output error'
    "$tree/$each" <"$tree" >"$room/out" 2>"$room/err"
    must_say $? 1 'Is a directory'
    "$tree/$each" "$tree" >"$room/out" 2>"$room/err"
    must_say $? 2 'no file'

    # Who reads may stop: of all the lines one is taken.
    case $each in
    bench) much=$room/much.txt first='0 -' lines=100000 ;;
    scanlist) much=$room/much.bin first='C REM' lines=30002 ;;
    esac
    { "$tree/$each" "$much" 2>"$room/err"; echo $? >"$room/status"; } | head -n 1 >"$room/out"
    echo "$first" | cmp -s - "$room/out" || fail "head -n 1 did not get the first line of $each"
    [ ! -s "$room/err" ] || fail "with head -n 1 $each said: $(cat "$room/err")"
    [ "$(cat "$room/status")" = 141 ] || fail "with head -n 1 $each ended with status $(cat "$room/status")"
    # The same where a closed pipe ends no process, but only fails the write.
    (trap '' PIPE; "$tree/$each" "$much" 2>"$room/err") | head -n 1 >"$room/out"
    echo "$first" | cmp -s - "$room/out" || fail "head -n 1 did not get the first line of $each where SIGPIPE is ignored"
    [ ! -s "$room/err" ] || fail "with head -n 1, where SIGPIPE is ignored, $each said: $(cat "$room/err")"
    "$tree/$each" "$much" | wc -l | grep -q "^ *$lines\$" || fail "lines of $each were lost"
done

# A byte that comes by itself is one of its line, and no end.
{ printf C; sleep 0.3; printf ' REM\n'; } | "$tree/bench" >"$room/out" || fail 'bench did not take a byte that came by itself'
echo '0 -' | cmp -s - "$room/out" || fail "for a line that came in two parts bench printed: $(cat "$room/out")"

# Whoever writes a list may write all of it, also what can't matter any more: here after 10,000 moves, where no step may follow.
{ { cat "$room/much.bin"; head -c 1000000 /dev/zero; echo $? >"$room/status"; } | "$tree/scanlist" >"$room/out" 2>"$room/err"; } ||
    fail "scanlist ended a long list with status $?"
[ "$(cat "$room/status")" = 0 ] || fail 'scanlist did not take a long list to its end'
[ "$(tail -n 1 "$room/out")" = '21 260000' ] || fail "scanlist ended a long list with the line $(tail -n 1 "$room/out")"
try bench

# The output fails, the run or the program is killed, while the input goes on: it ends, and does not wait for more.
mkfifo "$room/input" "$room/output"
sleep 100 >"$room/input" &
holder=$!
: >"$room/status"
{ "$tree/bench" <"$room/input" >/dev/full 2>"$room/err"; echo $? >"$room/status"; } &
echo 'C REM' >"$room/input"
must_come "$room/status" 'the output has failed, and it goes on'
must_say "$(cat "$room/status")" 1 'No space left'

# What it prints ends when nothing of the run is left that could print more.
for signal in TERM KILL; do
    : >"$room/status"
    : >"$room/out"
    { cat >"$room/out"; echo over >"$room/status"; } <"$room/output" &
    "$tree/bench" <"$room/input" >"$room/output" 2>"$room/err" &
    running=$!
    echo 'C REM' >"$room/input"
    must_come "$room/out" 'nothing was printed'
    kill -s $signal $running
    must_come "$room/status" "the run was ended by $signal, and something of it goes on"
done

# A program that ends by a signal, in place of the one that was built.
printf '#!/bin/sh\nread -r line\necho 0 -\nkill -%s $$\n' SEGV >"$tree/target/bin/bench"
: >"$room/status"
{ "$tree/bench" <"$room/input" >"$room/out" 2>"$room/err"; echo $? >"$room/status"; } &
echo 'C REM' >"$room/input"
must_come "$room/status" 'a signal has ended the program, and it goes on'
must_say "$(cat "$room/status")" 139 'signal 11'
kill "$holder"
must_have_built 2 'all of this'
