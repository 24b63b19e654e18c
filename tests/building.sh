#!/bin/sh
# How a tree is built: once, while others wait; what is said meanwhile; and that a build which is broken off blocks nobody.
. "$(dirname "$0")/tree"

# As many crates as the stand-in tells of, and one that neither program needs.
printf '# two below it\ndigits:\ntext: digits\nlaws: text\nbench: text digits\nscanlist: text digits\n' >"$tree/crates.txt"

GO=$room/go
must_run_ten 'an unbuilt tree'
must_have_built 1 'ten runs of an unbuilt tree'
GO=''

# The two programs at once: the second waits while the first is built, and is then built too.
rm -r "$tree/target"
rm "$room/go"
: >"$calls"
GO=$room/go "$tree/bench" "$input" >"$room/out" 2>"$room/err" &
must_come "$calls" 'rt was not called'
try scanlist
: >"$room/said"
{ "$tree/scanlist" "$input" >"$room/out.0" 2>"$room/said"; echo $? >"$room/status.0"; } &
must_come "$room/said" 'the second program does not say that it waits'
: >"$room/go"
wait
[ "$(cat "$room/status.0")" = 0 ] && cmp -s "$room/out.0" "$expected" || fail "the second program has said: $(cat "$room/said")"
cat >"$room/expected" <<'END'
scanlist: another run is building in this tree; waiting for it
scanlist: proving what it is built from, 3 crates; from nothing this takes some minutes
scanlist: crate 1 of 3: digits proved
scanlist: crate 2 of 3: text proved
scanlist: crate 3 of 3: scanlist proved
END
cmp -s "$room/said" "$room/expected" || fail "the second program has said: $(cat "$room/said")"
try bench
cmp -s "$room/out" "$expected" || fail 'the first program printed something else'
printf 'run bench\nrun scanlist\n' | cmp -s - "$calls" || fail "for the two programs rt was called with: $(cat "$calls")"

# The first line is there before rt is called, and so before anything takes long.
rm -r "$tree/target"
"$tree/bench" "$input" >"$room/out" 2>"$calls.err" || fail "an unbuilt tree: it ended with status $?"
cmp -s "$room/out" "$expected" || fail 'an unbuilt tree: it printed something else'
grep -q '^bench: proving .* 3 crates.*some minutes' "$calls.said" || fail "before rt was called it had said: $(cat "$calls.said")"
cat >"$room/said" <<'END'
bench: crate 1 of 3: digits proved
bench: crate 2 of 3: text proved
bench: crate 3 of 3: bench proved
END
sed 1d "$calls.err" | cmp -s - "$room/said" || fail "without a terminal it has said: $(cat "$calls.err")"

# Of a crate that it knows to be proved rt says nothing. It counts all the same, where the one above it is told; and a line may name
# the kind of a crate too.
rm -r "$tree/target"
cp "$tree/crates.txt" "$room/crates.txt"
printf 'line:\nform: line\ndigits: form\ntext staticlib: digits\nbench: text # all of them\n' >"$tree/crates.txt"
must_run 'an unbuilt tree, with crates that rt says nothing of'
sed 's/.*crate \([0-9]* of [0-9]*\): \([a-z]*\) .*/\1 \2/; 1d' "$room/err" >"$room/said"
printf '3 of 5 digits\n4 of 5 text\n5 of 5 bench\n' | cmp -s - "$room/said" || fail "where rt says nothing of two crates it has said: $(cat "$room/err")"
cp "$room/crates.txt" "$tree/crates.txt"

# Another kit than the one that kit.txt names is told, and is no fault.
rm -r "$tree/target"
echo 'another kit' >"$room/kit"
KIT=$room/kit
must_run 'an unbuilt tree, with another kit'
KIT=$tree/kit.txt
grep -qx "bench: the kit here is another kit; this repository was proved with $(cat "$tree/kit.txt")" "$room/err" ||
    fail "with another kit it has said: $(cat "$room/err")"

# On a terminal, one line is written over and over.
if command -v script >/dev/null; then
    rm -r "$tree/target"
    TERM=vt100 script -qec "$tree/bench $input" /dev/null </dev/null >"$room/seen"
    tr '\r' '\n' <"$room/seen" | grep -q '^.*bench: crate 3 of 3' || fail "on a terminal it does not say how far it is"
    [ "$(grep -c 'bench: crate' "$room/seen")" = 1 ] || fail "on a terminal it takes more than one line"
fi

# Broken off: by Ctrl-C, which is an interrupt, by being ended, and by being killed, when it can clean up nothing. All that it
# has started ends too, and the next run builds.
for signal in INT TERM KILL; do
    rm -r "$tree/target"
    : >"$calls"
    WAIT=50 env --default-signal=INT "$tree/bench" "$input" >"$room/out" 2>"$room/err" &
    must_come "$calls" 'rt was not called'
    kill -s $signal $!
    began=$(date +%s)
    must_run "after one that $signal broke off"
    must_have_built 2 "after one that $signal broke off"
    [ $(($(date +%s) - began)) -lt 40 ] || fail "after $signal the next run waited too long"
done

# Killed, and its parent takes no notice, so that it is dead and not gone.
rm -r "$tree/target"
: >"$calls"
WAIT=50 sh -c '"$1" "$2" >"$3/out" 2>"$3/err" & echo $! >"$3/pid"; exec sleep 100' sh "$tree/bench" "$input" "$room" &
holder=$!
must_come "$calls" 'rt was not called'
kill -s KILL "$(cat "$room/pid")"
began=$(date +%s)
must_run 'after one that was killed'
must_have_built 2 'after one that was killed'
[ $(($(date +%s) - began)) -lt 40 ] || fail 'after one that was killed the next run waited too long'
kill "$holder"

# A build that fails says why, and those that have waited for it fail with it.
touch "$tree/crates.txt"
: >"$calls"
rm "$room/go"
OUTCOME=fails GO=$room/go
run_ten
must_have_built 1 'a build that fails, with nine that wait'
for k in 0 1 2 3 4 5 6 7 8 9; do
    [ "$(cat "$room/status.$k")" = 1 ] || fail "where the build fails, one of ten ended with status $(cat "$room/status.$k")"
    grep -q '^logic=not-proved' "$room/err.$k" || fail "where the build fails, one of ten does not say so: $(cat "$room/err.$k")"
    [ ! -s "$room/out.$k" ] || fail 'where the build fails, something was run'
done
# That is no failure of a later build: here another holds the tree for a while, and then it is built.
flock "$tree/crates.txt" sleep 0.5 &
sleep 0.1
OUTCOME=proves GO=''
must_run 'after a build that failed'
must_have_built 2 'after a build that failed'

# rt itself is killed: what it has started is not waited for.
touch "$tree/crates.txt"
: >"$calls"
: >"$room/status"
{ WAIT=50 "$tree/bench" "$input" >"$room/out" 2>"$room/err"; echo $? >"$room/status"; } &
must_come "$calls" 'rt was not called'
kill -s KILL "$(cat "$calls.pid")"
must_come "$room/status" 'rt was killed, and the build goes on'
[ "$(cat "$room/status")" = 1 ] && grep -q 'could not be built' "$room/err" || fail "rt was killed, and it said: $(cat "$room/err")"
must_run 'after rt was killed'
