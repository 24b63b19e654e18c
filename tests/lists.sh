#!/bin/sh
# host/lists: the numbers that it is called with, that it passes, and that it finds a model that is wrong, a program that is, and a
# fault that both have.
. "$(dirname "$0")/tree"

must_refuse() { # WORDS..
    "$tree/host/lists" "$@" >"$room/out" 2>"$room/err"
    [ $? = 2 ] && grep -q '^lists: usage' "$room/err" && [ ! -e "$tree/target" ] || fail "it was called with '$*', and said: $(cat "$room/out" "$room/err")"
}
for word in abc -5 0x10 99999999999999999999 '' 0 1.5 ' 7'; do must_refuse "$word"; done
for word in abc -1 0x10 99999999999999999999 ''; do must_refuse 2000 "$word"; done
must_refuse 1 2 3
must_have_built 0 'bad numbers'

# Runs it, and expects a status.
lists() { # STATUS WORDS..
    status=$1
    shift
    "$tree/host/lists" "$@" >"$room/out" 2>"$room/err"
    set -- $? "$*"
    [ "$1" = "$status" ] || fail "with '$2' it ended with status $1, not $status: $(cat "$room/out" "$room/err")"
}

# A python3 that does not work is none.
printf '#!/bin/sh\nexit 127\n' >"$room/bin/python3"
chmod +x "$room/bin/python3"
lists 3
grep -q '^lists: there is no python3' "$room/err" || fail "without python3 it says: $(cat "$room/err")"
rm "$room/bin/python3"
command -v python3 >/dev/null || { echo 'tests/lists: the rest was NOT tried: there is no python3 here'; exit 0; }

lists 0 100 7
sed -n 1p "$room/out" | grep -q '^lists: seed 7, [0-9]* lists, no difference' || fail "it ends with: $(cat "$room/out")"
must_have_built 1 'one run'

# A model that changes what the true one says by one rule: a function of the list, what is printed for it and its last line.
wrong_model() { # STATEMENTS, which may change last
    cat >"$room/wrong.py" <<END
import runpy
true = runpy.run_path('$tree/host/listmodel.py')['printed']
def printed(data):
    *lines, last = true(data).decode().splitlines()
    number, place = (map(int, last.split()) if ' ' in last else (0, 0))
$(printf '%s\n' "$1" | sed 's/^/    /')
    return ''.join(line + '\n' for line in lines + [last]).encode()
END
}

must_find() { # RULE STATEMENTS
    wrong_model "$2"
    MODEL=$room/wrong.py lists 1 1 5
    grep -q '^lists: seed 5, list .* they differ$' "$room/out" && grep -q '^  the program prints' "$room/out" && grep -q '^  the model prints' "$room/out" ||
        fail "a model with $1: it says $(cat "$room/out")"
}
must_find '24 and 25 swapped' 'last = {24: "25 %d" % place, 25: "24 %d" % place}.get(number, last)'
must_find "a target that is judged after its speed's field" '
if number in (24, 25) and data[place] in (2, 3) and 0 < len(data) - place - 11 < 11: last = "20 %d" % (place + 11)'
must_find 'a tag that is judged before the length' 'if number == 20 and data[place] > 5: last = "21 %d" % place'
must_find 'an end inside a step that is told at the step' 'if number == 21 and place == len(data): last = "21 %d" % (place - 4)'
must_find 'a minus before 0' 'lines = [line.replace("+0", "-0") for line in lines]'
must_find 'a total of a refused list' 'if number: last = "0"'
must_find 'no last line feed' 'return true(data)[:-1]'
must_find 'a failure' 'if number == 23: return b""'
# A long list is kept in a file.
must_find '10,001 steps' 'if number == 26: last = "10001"'
saved=$(sed -n 's/^  the list: [0-9]* bytes, saved to //p' "$room/out")
[ "$(wc -c <"$saved" | tr -d ' ')" = 110011 ] || fail "of a long list it says: $(cat "$room/out")"
wrong_model 'raise ValueError(data)'
MODEL=$room/wrong.py lists 1 1
grep -q 'the model failed: ValueError' "$room/out" || fail "of a model that fails it says: $(cat "$room/out")"
echo 'print = 1' >"$room/wrong.py"
MODEL=$room/wrong.py lists 2 1
MODEL=$room/none.py lists 2 1

# Both alike wrong: the model runs in place of the program that was built.
program=$tree/target/bin/scanlist
cat >"$program" <<END
#!/bin/sh
exec python3 -c 'import runpy, sys; sys.stdout.buffer.write(runpy.run_path("$room/wrong.py")["printed"](sys.stdin.buffer.read()))'
END

must_find_in_both() { # FAULT STATEMENTS
    wrong_model "$2"
    MODEL=$room/wrong.py lists 1 1
    grep -q "^lists: seed 1, list .* both are wrong: .*$1" "$room/out" || fail "of a fault that both have, $1, it says: $(cat "$room/out")"
}
must_find_in_both 'forms' 'lines = lines[1:]'
must_find_in_both 'forms' 'lines.append(last)'
must_find_in_both 'sum' 'if last == "250": last = "251"'
must_find_in_both 'must end with' 'if number == 20: last = "21 %d" % place'

# And a program that ends with another status.
printf '#!/bin/sh\ncat >/dev/null\nexit 9\n' >"$program"
lists 1 1
grep -q 'of the program: it ended with status 9' "$room/out" || fail "of a program that ends with status 9 it says: $(cat "$room/out")"
must_have_built 1 'all of this'
