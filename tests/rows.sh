#!/bin/sh
# host/rows: that it takes no word, that it passes, and that it finds models that are wrong in one rule, and a fault that library and
# model have alike.
. "$(dirname "$0")/tree"

"$tree/host/rows" 7 >"$room/out" 2>"$room/err"
[ $? = 2 ] && grep -q '^rows: usage' "$room/err" && [ ! -e "$tree/target" ] || fail "it was called with '7', and said: $(cat "$room/out" "$room/err")"

# Runs it, and expects a status.
rows() { # STATUS
    "$tree/host/rows" >"$room/out" 2>"$room/err"
    status=$?
    [ $status != 3 ] || { echo 'tests/rows: the rest was NOT tried: there is no x86-64 C compiler here'; exit 0; }
    [ $status = "$1" ] || fail "it ended with status $status, not $1: $(cat "$room/out" "$room/err")"
}

rows 0
[ "$(wc -l <"$room/out")" = 1 ] && grep -q '^rows: [1-9][0-9]* rows passed' "$room/out" || fail "it passed, and said: $(cat "$room/out")"
must_have_built 1 'one run'

# A model of which one call does more, or gives another number, than the true one.
wrong_model() { # CALL PARAMETERS WORDS STATEMENTS, which may change number
    cat >"$room/wrong.c" <<END
#define model_$1 true_$1
#include "model.c"
#undef model_$1
uint32_t model_$1($2)
{
    uint32_t number = true_$1($3);
    $4
    return number;
}
END
}

must_find() { # FAULT TEXT
    MODEL=$room/wrong.c rows 1
    grep -q "^rows: the model, $2" "$room/out" && ! grep -q '^rows: the library' "$room/out" || fail "of a model with $1 it says: $(cat "$room/out")"
}
wrong_model tick 'uint8_t *t, size_t n, uint8_t *p, size_t m' 't, n, p, m' 'if (number == 6 && t[4] != 0) number = 0;'
must_find 'a busy set that a tick does not judge' 'a tick: the result is 0 .* is to be 6'
wrong_model reading 'uint8_t *t, size_t n, uint32_t c, uint32_t k' 't, n, c, k' 'if (number == 6) t[0] ^= 1;'
must_find 'a reading that writes at 6' 'a reading: byte 0 of the table'
wrong_model command 'uint8_t *t, size_t n, const uint8_t *l, size_t k, uint8_t *r, size_t m' 't, n, l, k, r, m' 'if (number == 0) r[31] = 0;'
must_find 'a byte written past the reply' 'a command: byte 31 of the reply'

# Both alike wrong: the library is the model, and its fresh table has another speed.
wrong_model fresh 'uint8_t *t, size_t n, uint32_t c' 't, n, c' 'if (number == 0) t[64 + 16] ^= 1;'
cat >"$room/library.c" <<'END'
#include "model.h"
uint32_t urqolina_fresh(uint8_t *t, size_t n, uint32_t c) { return model_fresh(t, n, c); }
uint32_t urqolina_command(uint8_t *t, size_t n, const uint8_t *l, size_t k, uint8_t *r, size_t m) { return model_command(t, n, l, k, r, m); }
uint32_t urqolina_reading(uint8_t *t, size_t n, uint32_t c, uint32_t k) { return model_reading(t, n, c, k); }
uint32_t urqolina_tick(uint8_t *t, size_t n, uint8_t *p, size_t m) { return model_tick(t, n, p, m); }
END
compiler=$(command -v gcc || command -v clang || command -v cc)
[ "$(uname -m)" = x86_64 ] || compiler=$(command -v x86_64-linux-gnu-gcc)
mkdir -p "$room/alike/target/host" || exit 2
# The linker goes by what a file has, and takes an object for an archive.
"$compiler" -O2 -I"$tree/host" -c "$room/library.c" -o "$room/alike/target/host/liburqolina.a" || fail 'a library that is the model could not be compiled'
rm -f "$tree/target/host/liburqolina.a"
BUILT=$room/alike
MODEL=$room/wrong.c rows 1
grep -q '^rows: the library, a fresh: byte 80 of the table' "$room/out" && grep -q '^rows: the model, a fresh: byte 80' "$room/out" ||
    fail "of a fault that both have it says: $(cat "$room/out" "$room/err")"
