#!/bin/sh
# ./mutants: what it may be called with; that the same seed gives the same changes, each of one token of the crate's src/ or specs/; how
# it counts what the prover says; that nothing is written to the repository, and that nothing stays behind, also of a broken run.
. "$(dirname "$0")/tree"
cp "$root/mutants" "$tree/mutants" || exit 2

# A repository of two crates, a program, and one above them of which there is nothing but its name.
for crate in "$tree"/crates/*; do
    case ${crate##*/} in digits | text | scanlist) ;; *) rm -r "$crate" ;; esac
done
mkdir -p "$tree/crates/above/src"
printf 'digits:\ntext: digits\nabove: text\nscanlist: text\n' >"$tree/crates.txt"

# Another stand-in: it proves the crates as they are. With a change, whose lines it keeps, it does what $OUTCOME says, or, of several
# words, what the one says whose turn it is. Of a crate that it has proved before it says nothing.
cat >"$room/bin/rt" <<'END'
#!/bin/sh
crate=${PWD##*/}
echo "$1 $crate $$" >>"$CALLS"
for each in digits text "$crate"; do
    mkdir -p "../$each/out"
    [ -e "../$each/out/proved" ] || printf 'crate %s: modules loaded=0 checked=1\nlogic=proved functions=1\n' "$each" >&2
    : >"../$each/out/proved"
    [ "$each" != "$crate" ] || break
done 2>&1 | if [ "$1" = run ]; then cat >&2; else cat; fi
runs() { # FILE
    [ "$1" != run ] || { echo "rt: running out/$crate; to give it other input, run that file yourself" >&2; cat "$2"; }
}
if diff -r -x must-fail -x out "$TREE/crates" .. >"$CHANGED.$$"; then rm "$CHANGED.$$"; runs "$1" stdout; exit; fi
words="$1"
set -- $OUTCOME
[ $# = 1 ] || shift $(($(ls "$CHANGED".* | wc -l) - 1))
line='./proofs/Laws.antt:1:1: error: `law`:'
case $1 in
proves) runs "$words" stdout; exit ;;
writes-otherwise) runs "$words" stdin; exit ;;
refuses) ;;
refuses-above) [ "$crate" = above ] && grep -q '^diff .*/src/' "$CHANGED.$$" || exit 0 ;;
for-a-name) line='./specs/Defs.antt:1:1: error: `this` is not in scope' ;;
for-a-type) line='src/lib.rt:1:1: error[mismatched-types]: expected `u8`, found `bool`' ;;
by-its-form) line="$line record \`After\`
  has no field \`add\`" ;;
by-a-goal) line='./proofs/f/Answers.antt:2:9: error: `returns`: `goal.returns`: module `Rattle.digits.proofs.f.Goals` has no `returns` that can be named from here
note: src/lib.rt:1:1: it is not proved that what the function ensures holds (`returns-2`); `search` gave up at one of its limits' ;;
by-a-false-goal) line='./proofs/f/Answers.antt:2:9: error: `returns`: `goal.returns`: module `Rattle.digits.proofs.f.Goals` has no `returns` that can be named from here
note: src/lib.rt:1:1: it is not proved that what the function ensures holds (`returns-2`); the facts known there allow values at which this goal is false' ;;
not-found) line='note: src/lib.rt:1:1: it is not proved that what the function ensures holds' ;;
can-not-tell) echo 'antt ran out of steps'; exit 3 ;;
waits) sleep 50 ;;
esac
echo "$line"
echo './proofs/More.antt:2:2: error: `more`: `law` was not admitted, so this cannot be checked'
echo './proofs/More.antt:9:1: error: 1 declaration that depends on `law`, which was rejected, was not checked: other'
echo 'logic=not-proved'
exit 1
END
mkdir "$room/temp"
TMPDIR=$room/temp TREE=$tree CHANGED=$room/changed
export TMPDIR TREE CHANGED
unset RT_JOBS

must_refuse() { # WORDS..
    "$tree/mutants" "$@" >"$room/out" 2>"$room/err"
    [ $? = 2 ] && [ ! -s "$room/out" ] && tail -n 1 "$room/err" | grep -q '^mutants: usage: mutants ' ||
        fail "it was called with '$*', and said: $(cat "$room/out" "$room/err")"
}
must_refuse
must_refuse ''
must_refuse nothing
must_refuse ../digits
must_refuse digits 1 2 3
must_refuse --some digits
for word in abc -5 0x10 99999999999999999999 '' 0 1.5 ' 7'; do must_refuse digits "$word"; done
for word in abc -1 0x10 99999999999999999999 ''; do must_refuse digits 10 "$word"; done
RT_JOBS=0 must_refuse digits
RT_JOBS=two must_refuse digits

for word in -h --help; do
    "$tree/mutants" $word >"$room/out" 2>"$room/err" || fail "$word ended with status $?"
    [ ! -s "$room/err" ] && grep -q '^usage: mutants .*CRATE \[N \[SEED\]\]' "$room/out" || fail "$word does not print the usage"
done

# Runs it, and expects a status.
mutants() { # STATUS WORDS..
    status=$1
    shift
    "$tree/mutants" "$@" >"$room/out" 2>"$room/err"
    set -- $? "$*"
    [ "$1" = "$status" ] || fail "with '$2' it ended with status $1, not $status: $(cat "$room/out" "$room/err")"
}

# A python3 that does not work is none.
printf '#!/bin/sh\nexit 127\n' >"$room/bin/python3"
chmod +x "$room/bin/python3"
mutants 3 digits
grep -q '^mutants: there is no python3' "$room/err" || fail "without python3 it says: $(cat "$room/err")"
rm "$room/bin/python3"
command -v python3 >/dev/null || { echo 'tests/mutants: the rest was NOT tried: there is no python3 here'; exit 0; }
# python3 itself: on some machines the one on the path is a script that looks for it, again and again
ln -s "$(python3 -c 'import sys; print(sys.executable)')" "$room/bin/python3"
hash -r

# A path with all that it needs but rt.
mkdir "$room/few"
for tool in sh cat dirname readlink awk python3; do ln -s "$(command -v $tool)" "$room/few/$tool"; done
PATH=$room/few mutants 3 digits
grep -q 'Rattle kit.*'"$(cat "$root/kit.txt")" "$room/err" || fail "without rt it says: $(cat "$room/err")"
PATH=$room/few mutants 0 --list digits

# The same seed lists the same changes, and another one others.
mutants 0 --list text 60 5
mv "$room/out" "$room/first"
mutants 0 --list text 60 5
cmp -s "$room/out" "$room/first" || fail 'the same seed lists other changes'
grep -q '^mutants: text: 60 changes .*, seed 5$' "$room/err" || fail "it does not tell its seed: $(cat "$room/err")"
mutants 0 --list text 60 6
! cmp -s "$room/out" "$room/first" || fail 'another seed lists the same changes'
mutants 0 --list text
[ "$(grep -c '^crates/' "$room/out")" = 10 ] && grep -q 'text: 10 changes .*, seed [0-9]*$' "$room/err" || fail "without a number it says: $(cat "$room/err")"

# All changes that there are: no two alike, each of one token of a line that is no comment and no import, of the crate's own files. There
# are as many kinds as the crate's sources have words for.
cat >"$room/look.py" <<'END'
import os, re, sys
listed, tree, crate, fewest = sys.argv[1:]
blocks = re.findall(r'^(crates/%s/(?:src|specs)/[\w/]+\.(?:rt|antt)):(\d+) \((.+)\)\n  before: (.*)\n  after:  (.*)\n' % crate,
                    open(listed, encoding='utf-8').read(), re.MULTILINE)
assert sum(1 for _ in open(listed, encoding='utf-8')) == 3 * len(blocks) > 600, 'lines that are no changes'
kinds = set()
for path, line, kind, before, after in blocks:
    kinds.add(kind)
    where = '%s:%s, %r, %r' % (path, line, before, after)
    assert open(os.path.join(tree, path), encoding='utf-8').read().split('\n')[int(line) - 1].strip() == before, where
    head = len(os.path.commonprefix([before, after]))
    tail = len(os.path.commonprefix([before[head:][::-1], after[head:][::-1]]))
    gone, come = before[head:len(before) - tail], after[head:len(after) - tail]
    assert gone != come and ' ' not in gone.rstrip(' ') + come, where
    assert not re.search(r'--|//', before[:head]) and not re.match(r'(pub |ghost )*(use|mod) ', before), where
    assert not re.match(r'(abbrev |unfoldable |pub )*\S+ : .*→', before), where
    assert 'Computing' not in path, where
assert len(kinds) >= int(fewest), 'few kinds: %s' % kinds
END
look_at_all() { # CRATE KINDS
    mutants 0 --list "$1" 999999 1
    grep -q '^mutants: there are no 999999$' "$room/err" || fail "with too large a number it says: $(cat "$room/err")"
    python3 "$room/look.py" "$room/out" "$tree" "$1" "$2" 2>"$room/err" || fail "of all changes of $1: $(tail -n 1 "$room/err")"
    [ ! -s "$calls" ] || fail "to list changes it calls rt: $(cat "$calls")"
}
look_at_all text 8
# line has every kind that text has and more; it stays no longer than this takes
mkdir "$tree/crates/line"
cp -R "$root/crates/line/src" "$root/crates/line/specs" "$tree/crates/line" || exit 2
cp "$tree/crates.txt" "$room/crates.txt"
echo 'line: digits text' >>"$tree/crates.txt"
look_at_all line 13
cp "$room/crates.txt" "$tree/crates.txt"
rm -r "$tree/crates/line"

# What came of seven changes is counted by what the prover says. Each was put by itself into a copy that was whole before.
must_count() { # OUTCOME COUNTS WORDS..
    outcome=$1 counts=$2
    shift 2
    rm -f "$CHANGED".*
    : >"$calls"
    OUTCOME=$outcome mutants 0 "$@" digits 7 7
    [ "$(tail -n 1 "$room/out")" = "digits: 7 changes, seed 7: $counts" ] || fail "$outcome: it counts $(tail -n 1 "$room/out")"
    for each in "$CHANGED".*; do
        [ "$(grep -c '^[<>]' "$each")" = 2 ] && grep -q '^diff .*/crates/digits/s[a-z]*/.*[.]' "$each" || fail "$outcome: it tries $(cat "$each")"
    done
}
must_count proves '0 refused, 0 for a name or a type, 0 by the form of a proof alone, 7 not refused, 0 undecided'
[ "$(grep -c '^  before: ' "$room/out")" = 7 ] && [ "$(grep -c '^  not refused$' "$room/out")" = 7 ] || fail "where none is refused it prints: $(cat "$room/out")"
[ "$(grep -c '^check digits ' "$calls")" = 8 ] && [ "$(wc -l <"$calls")" = 8 ] || fail "for seven changes it calls rt: $(cat "$calls")"
mutants 0 --list digits 7 7
sed -n 's/^  after:  //p' "$room/out" | sort >"$room/listed"
sed -n 's/^> *//p' "$CHANGED".* | sort | cmp -s - "$room/listed" || fail 'what is tried is not what is listed'
must_count refuses '7 refused, 0 for a name or a type, 0 by the form of a proof alone, 0 not refused, 0 undecided'
[ "$(wc -l <"$room/out")" = 1 ] || fail "where all are refused it prints: $(cat "$room/out")"
RT_JOBS=1 must_count 'refuses not-found for-a-type by-its-form by-a-goal by-a-false-goal can-not-tell' \
    '3 refused, 1 for a name or a type, 2 by the form of a proof alone, 0 not refused, 1 undecided' --all
cat >"$room/expected" <<'END'
  refused: proofs/Laws.antt:1:1: error: `law`:
  refused: note: src/lib.rt:1:1: it is not proved that what the function ensures holds
  refused for a name or a type: src/lib.rt:1:1: error[mismatched-types]: expected `u8`, found `bool`
  refused by the form of a proof alone: proofs/Laws.antt:1:1: error: `law`: record `After` has no field `add`
  refused by the form of a proof alone: proofs/f/Answers.antt:2:9: error: `returns`: `goal.returns`: module `Rattle.digits.proofs.f.Goals` has no `returns` that can be named from here
  refused: note: src/lib.rt:1:1: it is not proved that what the function ensures holds (`returns-2`); the facts known there allow values at which this goal is false
  undecided: rt ended with status 3: antt ran out of steps
END
grep -e '^  [nru]' "$room/out" | cmp -s - "$room/expected" || fail "with --all it prints: $(cat "$room/out")"
RT_JOBS=1 must_count 'proves refuses not-found for-a-name for-a-type by-its-form can-not-tell' \
    '2 refused, 2 for a name or a type, 1 by the form of a proof alone, 1 not refused, 1 undecided' --all
cat >"$room/expected" <<'END'
  not refused
  refused: proofs/Laws.antt:1:1: error: `law`:
  refused: note: src/lib.rt:1:1: it is not proved that what the function ensures holds
  refused for a name or a type: specs/Defs.antt:1:1: error: `this` is not in scope
  refused for a name or a type: src/lib.rt:1:1: error[mismatched-types]: expected `u8`, found `bool`
  refused by the form of a proof alone: proofs/Laws.antt:1:1: error: `law`: record `After` has no field `add`
  undecided: rt ended with status 3: antt ran out of steps
END
grep -e '^  [nru]' "$room/out" | cmp -s - "$room/expected" || fail "with --all it prints: $(cat "$room/out")"
must_count refuses-above '0 refused, 0 for a name or a type, 0 by the form of a proof alone, 7 not refused, 0 undecided' --above
refused=$(grep -c '^crates/digits/src/' "$room/out") taken=$(grep -c '^crates/digits/specs/' "$room/out")
[ "$refused" -gt 0 ] && [ "$taken" -gt 0 ] &&
    [ "$(grep -c '^  above: above, refused: proofs/Laws.antt:1:1: error' "$room/out")" = "$refused" ] &&
    [ "$(grep -c '^  above: none refuses it$' "$room/out")" = "$taken" ] || fail "with --above it prints: $(cat "$room/out")"
[ "$(grep -c '^check text ' "$calls")" = 7 ] && [ "$(grep -c '^check above ' "$calls")" = 7 ] || fail "with --above it calls rt: $(cat "$calls")"

# A crate that is not proved as it stands is told; here it is none that the stand-in knows.
mkdir -p "$room/other/crates"
TREE=$room/other OUTCOME=refuses mutants 1 digits
grep -q '^mutants: digits is not proved as it stands' "$room/err" || fail "a crate that is not proved: it says $(cat "$room/err")"

# A program is run too.
OUTCOME=proves mutants 0 scanlist 3 7
[ "$(grep -c '^  not refused$' "$room/out")" = 3 ] || fail "of a program it prints: $(cat "$room/out")"
OUTCOME=writes-otherwise mutants 0 scanlist 3 7
[ "$(grep -c '^  not refused: but the program then does not write what its file stdout has$' "$room/out")" = 3 ] ||
    fail "of a program that writes otherwise it prints: $(cat "$room/out")"

# Nothing that rt keeps in the repository is copied, and nothing is written there.
mkdir -p "$tree/crates/digits/out" && : >"$tree/crates/digits/out/proved"
sleep 0.02
touch "$room/mark"
OUTCOME=proves mutants 0 text 3 7
grep -qx 'mutants: crate 1 of 2: digits proved' "$room/err" && grep -qx 'mutants: crate 2 of 2: text proved' "$room/err" || fail "of how far it is it says: $(cat "$room/err")"
[ -z "$(find "$tree" -newer "$room/mark")" ] || fail "it writes to the repository: $(find "$tree" -newer "$room/mark")"
[ -z "$(ls "$room/temp")" ] || fail "it leaves behind: $(ls "$room/temp")"

# Broken off, it ends what it has started and leaves nothing behind.
for signal in INT TERM HUP; do
    rm -f "$CHANGED".*
    : >"$calls"
    OUTCOME=waits env --default-signal=INT,HUP "$tree/mutants" text 5 7 >"$room/out" 2>"$room/err" &
    tenths=0
    while [ "$(cat "$CHANGED".* 2>/dev/null | grep -c '^>')" -lt 2 ]; do
        [ $tenths -lt 200 ] || fail 'two changes are not tried at a time'
        tenths=$((tenths + 1))
        sleep 0.1
    done
    kill -s $signal $!
    wait $!
    [ $? -gt 128 ] || fail "$signal: it ended with another status"
    [ -z "$(ls "$room/temp")" ] || fail "$signal: it leaves behind: $(ls "$room/temp")"
    while read -r _ _ process; do
        ! kill -0 "$process" 2>/dev/null || fail "$signal: what it has started goes on"
    done <"$calls"
done
