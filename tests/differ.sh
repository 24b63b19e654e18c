#!/bin/sh
# host/differ: the numbers that it is called with, what it builds, and what each run has tried.
. "$(dirname "$0")/tree"

must_refuse() { # WORDS..
    "$tree/host/differ" "$@" >"$room/out" 2>"$room/err"
    [ $? = 2 ] && grep -q '^differ: usage' "$room/err" && [ ! -e "$tree/target" ] || fail "it was called with '$*', and said: $(cat "$room/out" "$room/err")"
}
for word in abc -5 0x10 99999999999999999999 '' 0 1.5 ' 7'; do must_refuse "$word"; done
for word in abc -1 0x10 99999999999999999999 ''; do must_refuse 5000 "$word"; done
must_refuse 1 2 3
must_have_built 0 'bad numbers'

differ() { # N SEED
    "$tree/host/differ" "$@" >"$room/out" 2>"$room/err"
    case $? in
    0) ;;
    3) echo 'tests/differ: the rest was NOT tried: there is no x86-64 C compiler here'; exit 0 ;;
    *) fail "with '$*' it ended otherwise: $(cat "$room/out" "$room/err")" ;;
    esac
}

# How many calls of a kind gave a number, from the table that is printed; the numbers stand in the line above the first kind.
given() { # KIND NUMBER
    awk -v kind="$1" -v number="$2" '
        NR == 2 { for (k = 1; k <= NF; k++) if ($k == number) at = k + 1 }
        $1 == kind { print at ? $at : "none" }' "$room/out"
}

for seed in 0 1 2 3 999999999999999999; do
    differ 5000 $seed
    for row in 'fresh 0 5' 'command 0 1 2 3 5 6 7 8 9 10 11 12 13 14' 'reading 0 5 6' 'tick 0 5 6'; do
        # shellcheck disable=SC2086
        set -- $row
        kind=$1
        shift
        for number; do [ "$(given "$kind" "$number")" -gt 0 ] || fail "seed $seed: 5,000 calls have no $number of a $kind"; done
    done
    tail -n 1 "$room/out" | grep -q '^differ: NOT every size .* before them' || fail "5,000 calls end with: $(tail -n 1 "$room/out")"
done
must_have_built 1 'five runs'

# The sweep is 10,441 calls: 2,178 sizes of a table with four calls each, two calls, 301 sizes with three, four buffers with six,
# and 800 readings. The table of size 999 is the thousandth of them.
differ 9000
tail -n 1 "$room/out" | grep -q 'NOT every size .* call 4000 of those 10441, at tables of size 999$' || fail "9,000 calls end with: $(tail -n 1 "$room/out")"
differ 15440
tail -n 1 "$room/out" | grep -q '^differ: NOT every size' || fail "15,440 calls end with: $(tail -n 1 "$room/out")"
differ 15441
tail -n 1 "$room/out" | grep -q '^differ: every size was tried' || fail "15,441 calls end with: $(tail -n 1 "$room/out")"
differ 20
tail -n 2 "$room/out" | grep -q '^differ: NOT every number' || fail "20 calls end with: $(tail -n 2 "$room/out")"

touch "$tree/crates/line/src/lib.rt"
differ 5000
must_have_built 2 'a newer source'
differ 5000
must_have_built 2 'nothing newer'
