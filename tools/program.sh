# What ./bench and ./scanlist share: how a proved program is built where it is not built, and run. They read this file with root set
# to the repository's folder, who to the name that messages begin with, crate to the program's name and its crate's, and input to
# what it reads, in a word; they have usage, which prints the help, and look_at, which is given a FILE that is plain before it is
# read; and they end with main. host/run reads this file too, and runs the program without main.
#
# The program is proved and built first where it is not built: where there is no copy of it in target/bin/, or a file or folder of
# crates/, crates.txt or the kit is newer. Where it is built, nothing is written to the tree.
set -u
unset CDPATH
# a closed standard error would be taken for another file
(exec 8>&2) || exec 2>/dev/null
. "$root/tools/building.sh"

program=$root/target/bin/$crate
log=$root/target/$crate.log

has_program() { is_newest "$program"; }

# rt runs what it has built, here on an empty input. What is run later is a copy: rt ci sets aside all that stands in out/.
build_program() {
    prove "$crate" "$log" run
    keep_built "$root/crates/$crate/out/$crate" "$program" "$log.began"
}

need_program() { has_program || build_once has_program build_program "$log"; }

# Where there are words, they are run in its place, with the program after them.
run_program() { # [WORDS..]
    exec "$@" "$program"
}

# Takes the file named as standard input. A pipe can be read only once, so only a plain file is looked at before.
open_input() { # FILE
    if [ -d "$1" ] || [ ! -r "$1" ]; then say "there is no file $1 that can be read"; exit 2; fi
    [ ! -f "$1" ] || look_at "$1"
    exec <"$1"
}

# Copies its input to its output, and reports on 5 which process does it, and then its status and what it said.
copy() { # NAME
    { said=$(LC_ALL=C sh -c 'echo "$1 by $$" >&5; exec cat 5>&-' sh "$1" 2>&1 >&3 3>&- 4>&- 6<&- 7>&-); } 3>&1
    printf '%s ended %s %s\n' "$1" $? "$said" >&5
}

# A program of the language has no status, and ends alike where the input ends and where a read or a write fails. So the input
# goes to it, and the output from it, through copies that have one. The shell's own word on a signal is dropped: there is ours.
run() {
    open_leash || exit 2
    exec 3<&0 4>&1 7>&2
    {
        exec 5>&1 2>/dev/null 8>&-
        copy read <&3 |
            { (run_program 2>&7 3<&- 4>&- 5>&- 6<&- 7>&-); echo "program ended $?" >&5; } |
            copy write >&4
    } | {
        exec 3<&- 4>&- 7>&- 8>&-
        conclude
    }
}

# Follows the run by its reports, and ends with what went wrong: the cause, and not what came of it. Once nobody takes what is still
# to be read, or this run is gone, the reader is ended, and all the rest ends with it.
conclude() {
    reader='' reading='' running='' writing=''
    while read -r part what status said; do
        case "$part $what" in
        'read by')
            reader=$status
            { read -r _ <&6; kill "$reader"; } >/dev/null 2>&1 &
            guard=$!
            ;;
        'read ended')
            kill "$guard" 2>/dev/null
            reader='' reading=$status read_said=${said##*: }
            ;;
        'program ended') running=$status ;;
        'write ended') writing=$status write_said=${said##*: } ;;
        esac
        if [ -n "$reader" ] && [ -n "$running$writing" ]; then kill "$reader" 2>/dev/null; fi
    done
    # who reads the output may have had enough of it
    if [ "$writing" = 141 ] || [ "${write_said:-}" = 'Broken pipe' ]; then exit 141; fi
    if [ "${writing:-1}" != 0 ]; then say "the output could not be written${write_said:+: $write_said}"; exit 1; fi
    if [ "${running:-1}" -gt 128 ]; then say "signal $((running - 128)) ended the program"; exit "$running"; fi
    if [ "${running:-1}" != 0 ]; then say "the program ended with status ${running:-unknown}"; exit 1; fi
    if [ "${reading:-1}" != 0 ]; then say "the $input could not be read to its end${read_said:+: $read_said}"; exit 1; fi
    exit 0
}

main() { # [FILE]
    if [ $# -gt 1 ]; then say "usage: $crate [FILE]"; exit 2; fi
    case $#:${1:-} in
    1:-h | 1:--help) usage; exit ;;
    0: | 1:-) (exec 8<&0) 2>/dev/null || { say 'standard input is closed'; exit 1; } ;;
    *) open_input "$1" ;;
    esac
    (exec 8>&1) 2>/dev/null || { say 'standard output is closed'; exit 1; }

    find_kit
    need_program
    run
}
