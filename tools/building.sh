# What ./bench, ./scanlist, ./test and host/run know of the tree: where the kit is, what is newer than what, and how one run builds
# while the others wait. They read this file with root set to the repository's folder, and who to the name that messages begin with.
#
# Two rt that prove in one tree spoil each other's work, so whoever starts one holds the tree. The lock lies on crates.txt, which
# no build removes, and is handed down to all that the build starts: the kernel lets it go with the last of them, however it ends.

say() { printf '%s: %s\n' "$who" "$*" >&2; }

need() { # COMMAND WHAT
    command -v "$1" >/dev/null 2>&1 || { say "there is no $1 on the path: $2"; exit 2; }
}

# Sets home, the kit's folder: the one that rt stands in, or else that of its guide, by the path that rt doc prints. It takes rt a while
# to start.
find_kit() {
    need rt "it is the command of the Rattle kit, the prover and compiler of the language that this is written in. It was proved with $(cat "$root/kit.txt")"
    home=$(dirname "$(dirname "$(readlink -f -- "$(command -v rt)")")")
    [ -f "$home/KIT-ID" ] && return
    guide=$(rt doc </dev/null) && home=$(cd "$(dirname "$guide")" && pwd -P) || { say 'rt doc does not tell where the kit is'; exit 2; }
}

# What is newer than a file, of all that is proved and of the kit, by the first such name. The folders out/, which rt writes, are none
# of it, and neither are those that they stand in.
newer_than() { # FILE
    (
        cd "$root" || exit
        find crates -mindepth 2 -regex 'crates/[^/]*/out' -prune -o -newer "$1" -print
        find crates.txt "$home/KIT-ID" -newer "$1"
    ) 2>&1 | head -n 1
}

# Whether a file is there, and no file or folder that is proved, nor the kit, is newer. What can't be looked at counts as newer.
is_newest() { # FILE
    [ -f "$1" ] && [ -z "$(newer_than "$1")" ]
}

# How many crates are proved for some of crates.txt, themselves among them.
crates_for() { # NAMES..
    awk -v names="$*" '
        function visit(n, below, k, count) {
            if (n in seen || !(n in list)) return 0
            seen[n] = count = 1
            for (k = split(list[n], below, " "); k > 0; k--) count += visit(below[k])
            return count
        }
        { sub(/#.*/, ""); at = index($0, ":") }
        at { split(substr($0, 1, at - 1), head, " "); list[head[1]] = substr($0, at + 1) }
        END { for (k = split(names, name, " "); k > 0; k--) count += visit(name[k]); print count + 0 }' "$root/crates.txt"
}

# A pipe of which only this process keeps the writing end, as 8: what it starts closes that for good, by exec, since a shell keeps
# a copy of what is closed for one command. Whoever reads it, as 6, sees its end when this process is gone, killed perhaps. Nothing
# of it stays in the file system.
open_leash() {
    [ -z "${leash:-}" ] || return 0
    leash=$(mktemp -d) && mkfifo "$leash/pipe" && exec 8<>"$leash/pipe" 6<"$leash/pipe" && rm -r "$leash"
}

cannot_write() { say "this is not built, and $1 can't be written: whoever may write it has to run this first"; exit 2; }

# Holds the tree, and waits for whoever holds it.
hold_tree() {
    need flock 'the package util-linux has it'
    [ -w "$root/crates.txt" ] || cannot_write "$root"
    exec 9<>"$root/crates.txt"
    flock -n 9 && return
    say 'another run is building in this tree; waiting for it'
    flock 9 || exit 2
}

release_tree() { exec 9>&-; }

# Which failure a log is of: each has a text of its own.
failure_of() { cat "$1.failed" 2>/dev/null; } # LOG

not_built() { # LOG
    cat "$1" >&2
    say 'it could not be built'
    exit 1
}

# Runs rt with these words in a crate's folder, and says how far it is. Where it fails, the run ends with what it said. Where this run is
# broken off, tools/prove sees it and ends what it has started. LOG.began gets the time of the beginning: what changes while it
# proves is newer.
prove() { # CRATE LOG WORDS..
    each=$1 log=$2
    shift 2
    need setsid 'the package util-linux has it'
    { mkdir -p "$(dirname "$log")" && rm -f "$log.failed" && touch "$log.began"; } 2>/dev/null || cannot_write "$(dirname "$log")"
    say "proving what it is built from, $(crates_for "$each") crates; from nothing this takes some minutes"
    kit=$(rt version </dev/null)
    [ "$kit" = "$(cat "$root/kit.txt")" ] || say "the kit here is $kit; this repository was proved with $(cat "$root/kit.txt")"
    open_leash || exit 2
    setsid "$root/tools/prove" "$who" "$log" "$each" "$@" 8>&- &
    wait $! || { echo "$$ $(date)" >"$log.failed"; not_built "$log"; }
}

# Puts a copy of what rt has built in its place under target/, in one step, with the time at which its building began.
keep_built() { # FILE PLACE BEGAN
    { mkdir -p "$(dirname "$2")" && cp "$1" "$2.new" && touch -r "$3" "$2.new" && mv "$2.new" "$2"; } 2>/dev/null || cannot_write "$2"
}

# Holds the tree while one thing is built in it, unless it is built by then. A run that has waited for a build of it that failed
# fails with that: it would only fail again.
build_once() { # IS_BUILT BUILD LOG
    before=$(failure_of "$3")
    hold_tree
    if ! "$1"; then
        [ "$(failure_of "$3")" = "$before" ] || [ -z "$(failure_of "$3")" ] || not_built "$3"
        "$2"
    fi
    release_tree
}
