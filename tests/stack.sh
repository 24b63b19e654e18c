#!/bin/sh
# host/stack: the numbers that it is called with, that it fails just above the number that it is given, and that it sees a call
# that goes deep.
. "$(dirname "$0")/tree"

must_refuse() { # WORDS..
    "$tree/host/stack" "$@" >"$room/out" 2>"$room/err"
    [ $? = 2 ] && grep -q '^stack: usage' "$room/err" && [ ! -e "$tree/target" ] || fail "it was called with '$*', and said: $(cat "$room/out" "$room/err")"
}
for word in abc -5 0x10 1234567 '' 1.5 ' 7'; do must_refuse "$word"; done
must_refuse 512 512
must_have_built 0 'bad numbers'

# Runs it, and expects a status.
stack() { # STATUS [MOST]
    expected=$1
    shift
    "$tree/host/stack" "$@" >"$room/out" 2>"$room/err"
    status=$?
    [ $status != 3 ] || { echo 'tests/stack: the rest was NOT tried: there is no x86-64 C compiler here'; exit 0; }
    [ $status = "$expected" ] || fail "with '$*' it ended with status $status, not $expected: $(cat "$room/out" "$room/err")"
}

# The library's figures, from the line that is printed: each stands before 'and' and the model's.
figures() { sed -n 's/^stack: the deepest of [0-9]* calls[^:]*://p' "$room/out" | tr ',;' '\n\n' | sed -n 's/^ [a-z]* \([0-9]*\) and [0-9]*$/\1/p'; }

stack 0
[ "$(figures | wc -l | tr -d ' ')" = 4 ] || fail "it does not print four figures: $(cat "$room/out")"
most=$(figures | sort -n | tail -n 1)
[ "$most" -gt 0 ] && [ "$most" -le 512 ] || fail "it ended with status 0, and the deepest call takes $most bytes"
stack 0 "$most"
stack 1 $((most - 1))
grep -q '^stack: a call takes more' "$room/out" || fail "above the number it says: $(cat "$room/out")"
must_have_built 1 'three runs'

# A library of which the tick takes some 600 bytes more than it needs: the calls of the model, under the library's names.
cat >"$room/deep.c" <<'END'
#include <stddef.h>
#include <stdint.h>
#include "model.h"
uint32_t urqolina_fresh(uint8_t *t, size_t n, uint32_t c) { return model_fresh(t, n, c); }
uint32_t urqolina_command(uint8_t *t, size_t n, const uint8_t *l, size_t k, uint8_t *r, size_t m) { return model_command(t, n, l, k, r, m); }
uint32_t urqolina_reading(uint8_t *t, size_t n, uint32_t c, uint32_t k) { return model_reading(t, n, c, k); }
uint32_t urqolina_tick(uint8_t *t, size_t n, uint8_t *p, size_t m)
{
    volatile uint8_t scratch[600];
    uint32_t number = model_tick(t, n, p, m);
    for (size_t k = 0; k < sizeof scratch; k++)
        scratch[k] = (uint8_t)(number + k);
    return number;
}
END
compiler=$(command -v gcc || command -v clang || command -v cc)
[ "$(uname -m)" = x86_64 ] || compiler=$(command -v x86_64-linux-gnu-gcc)
mkdir -p "$room/deep/target/host" || exit 2
# The linker goes by what a file has, and takes an object for an archive.
"$compiler" -O2 -I"$tree/host" -c "$room/deep.c" -o "$room/deep/target/host/liburqolina.a" || fail 'a library that goes deep could not be compiled'
rm -f "$tree/target/host/liburqolina.a" "$tree/target/host/stack"
BUILT=$room/deep
stack 1
deep=$(figures | tail -n 1)
[ "$deep" -gt 600 ] && [ "$deep" -lt 800 ] || fail "of a tick with 600 bytes of scratch it says: $(cat "$room/out")"
