#!/bin/sh
# examples/scan: that its list is what its writer writes, its script what ./scanlist prints for that after the added lines, and its
# output, which was worked out by hand, what ./bench prints for the script; and what its README says of other lists.
. "$(dirname "$0")/tree"

scan=$tree/examples/scan

# Runs a program, and leaves what it prints.
run() { # OUTPUT PROGRAM FILE
    "$tree/$2" "$3" >"$1" 2>"$room/err" || fail "$2 ended with status $? ($(cat "$room/err"))"
}

run "$room/printed" scanlist "$scan/list.bin"
{ printf 'K 1\nS 3 0\nS A 0\n'; cat "$room/printed"; } | cmp -s - "$scan/script.txt" || fail 'scanlist does not print script.txt after the added lines'
run "$room/out" bench "$scan/script.txt"
cmp -s "$room/out" "$scan/script.out" || fail "bench does not print script.out: $(diff "$scan/script.out" "$room/out")"

command -v python3 >/dev/null || { echo 'tests/scan: make_list.py was NOT run: there is no python3 here'; exit 0; }

# Writes a list, with the steps changed.
write() { # CHANGE, as sed has it
    sed "$1" "$scan/make_list.py" >"$room/make_list.py"
    python3 "$room/make_list.py" "$room/list.bin" || fail "make_list.py ended with status $?"
}

write ''
cmp -s "$room/list.bin" "$scan/list.bin" || fail 'make_list.py does not write list.bin'

write 's/move_to(RACK, 100, 800)/move_to(RACK, 2.5, 800)/'
run "$room/printed" scanlist "$room/list.bin"
printf 'C REM\n24 4\n' | cmp -s - "$room/printed" || fail "with a target of 2.5 scanlist prints: $(cat "$room/printed")"

write 's/dwell(2000),/move_to(11, 500, 5000), dwell(2000),/'
run "$room/printed" scanlist "$room/list.bin"
{ printf 'K 1\nS 3 0\nS A 0\nS B 0\n'; cat "$room/printed"; } >"$room/script.txt"
run "$room/out" bench "$room/script.txt"
grep -qx '0 B:+500' "$room/out" || fail "with one channel more bench prints: $(cat "$room/out")"
