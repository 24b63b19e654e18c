#!/bin/sh
# examples/host.c: that it compiles without a warning and does what its comments say; example.out was written from those, the
# documents and the header's sentences.
. "$(dirname "$0")/tree"

"$tree/host/run" example >"$room/out" 2>"$room/err"
case $? in
0) ;;
3) echo 'tests/example: the example was NOT run: there is no x86-64 C compiler here'; exit 0 ;;
*) fail "it ended otherwise: $(cat "$room/out" "$room/err")" ;;
esac
cmp -s "$room/out" "$tests/example.out" || fail "it printed something else: $(diff "$tests/example.out" "$room/out")"
must_have_built 1 'one run'

"$tree/host/run" archive >"$room/out" 2>"$room/err" || fail "the archive was not told: $(cat "$room/err")"
[ "$(cat "$room/out")" = "$tree/target/host/liburqolina.a" ] && [ -f "$tree/target/host/liburqolina.a" ] || fail "the archive is not at $(cat "$room/out")"
must_have_built 1 'the archive of the run before'
