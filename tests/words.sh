#!/bin/sh
# What ./bench and ./scanlist may be called with, and a machine without the kit.
. "$(dirname "$0")/tree"

must_refuse() { # WORDS..
    "$tree/$program" "$@" >"$room/out" 2>"$room/err" </dev/null
    [ $? = 2 ] && [ ! -s "$room/out" ] && [ "$(wc -l <"$room/err")" = 1 ] && grep -q "^$program: " "$room/err" ||
        fail "$program was called with '$*', and said: $(cat "$room/err")"
}

# A path with all that they need but rt.
mkdir "$room/few"
for tool in sh cat dirname readlink; do ln -s "$(command -v $tool)" "$room/few/$tool"; done

for each in bench scanlist; do
    try $each
    must_run 'a file'

    for word in -h --help; do
        "$tree/$each" $word >"$room/out" 2>"$room/err" || fail "$each $word ended with status $?"
        [ ! -s "$room/err" ] && grep -q "^usage: $each \\[FILE\\]" "$room/out" || fail "$each $word does not print the usage"
    done

    "$tree/$each" - <"$input" | cmp -s - "$expected" || fail "$each: - is not standard input"
    "$tree/$each" <"$input" | cmp -s - "$expected" || fail "without a word $each does not read standard input"
    ln -s "$tree/$each" "$room/bin/our-$each"
    "our-$each" "$input" | cmp -s - "$expected" || fail "$each can not be called by a link"
    ln -s "bin/our-$each" "$room/other-$each"
    sh "other-$each" "$input" | cmp -s - "$expected" || fail "$each can not be called by a link to a link, as a word of sh"

    must_refuse "$input" "$input"
    must_refuse "$room/none"
    must_refuse "$tree"
    must_refuse ''
    must_refuse --version

    PATH=$room/few "$tree/$each" "$input" >"$room/out" 2>"$room/err"
    [ $? = 2 ] || fail "without rt $each does not end with status 2"
    grep -q 'Rattle kit.*'"$(cat "$root/kit.txt")" "$room/err" || fail "without rt $each says: $(cat "$room/err")"
done
