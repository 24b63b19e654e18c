#!/bin/sh
# What counts as built, and that a built tree is only read.
. "$(dirname "$0")/tree"

# All of target/: names, sizes, times.
listing() { find "$tree/target" -exec ls -ld --time-style=full-iso {} +; }

must_run 'the first run'
must_have_built 1 'the first run'
listing >"$room/before"
must_run_ten 'a built tree'
must_have_built 1 'ten runs of a built tree'
listing | cmp -s - "$room/before" || fail 'a run of a built tree wrote to target/'

# Each of these makes one build, and then it is built again.
builds=1
must_build() { # WHAT
    builds=$((builds + 1))
    must_run "$1"
    must_have_built "$builds" "$1"
    must_run "$1, and a second run"
    must_have_built "$builds" "$1, and a second run"
}
touch "$tree/crates/line/src/lib.rt"
must_build 'a newer source'
touch "$tree/crates/line/src/lib.rt"
OUTCOME=unchanged must_build 'a newer source with the same bytes'
rm "$tree/crates/line/must-fail"/*.edit
must_build 'a folder from which something has gone'
touch "$tree/crates.txt"
must_build 'a newer crates.txt'
rm "$tree/target/bin/bench"
must_build 'no program'
rm -r "$tree/target"
must_build 'no target/'

# What rt keeps for itself is not looked at: neither that it is newer, nor that it has gone.
for each in 'touch' 'rm -r'; do
    $each "$tree/crates/bench/out" && mkdir -p "$tree/crates/line/out" && : >"$tree/crates/line/out/kept" && touch "$tree/crates/line"
    must_run "$each out/"
    must_have_built "$builds" "$each out/"
done

# The other program is built by itself, and each of them stays built while the other one is.
try scanlist
must_build 'the other program'
listing >"$room/before"
must_run_ten 'the other program, built'
listing | cmp -s - "$room/before" || fail 'a run of the other program, built, wrote to target/'
rm "$tree/target/bin/scanlist"
must_build 'no other program'
try bench
must_run 'one program, after the other was built'
must_have_built "$builds" 'one program, after the other was built'
touch "$tree/crates/line/src/lib.rt"
must_build 'a newer source'
try scanlist
must_build 'a newer source, and the other program'
try bench

# What changes while it is built is newer than the program.
touch "$tree/crates.txt"
WAIT=0.5 "$tree/bench" "$input" >"$room/out" 2>"$room/err" &
while [ "$(built_times)" = "$builds" ]; do sleep 0.1; done
touch "$tree/crates/line/src/lib.rt"
wait
builds=$((builds + 1))
must_build 'a source that changed while it was built'

# Another kit.
mkdir "$room/kit" && cp "$(dirname "$GUIDE")/KIT-ID" "$room/kit/KIT-ID"
GUIDE=$room/kit/START-HERE.md
must_build 'a newer kit'
try scanlist
must_build 'a newer kit, and the other program'

# A user who may only read. Root may always write, so nobody runs it then.
chmod -R a+rX,a-w "$tree"
as=''
[ "$(id -u)" != 0 ] || as='setpriv --reuid=65534 --regid=65534 --clear-groups'
for each in bench scanlist; do
    try $each
    $as "$tree/$each" "$input" >"$room/out" || fail "a user who may only read: $each ended with status $?"
    cmp -s "$room/out" "$expected" || fail "a user who may only read: $each printed something else"
done
must_have_built "$builds" 'a user who may only read'
chmod -R u+w "$tree" && touch "$tree/crates.txt" && chmod -R a-w "$tree"
for each in bench scanlist; do
    try $each
    $as "$tree/$each" "$input" >"$room/out" 2>"$room/err" && fail "a user who may only read ran a $each that is not built"
    grep -q "^$each: .*can.t be written" "$room/err" || fail "a user who may only read, and nothing built: $(cat "$room/err")"
done
