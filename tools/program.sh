# What the commands, ./build and ./install share. A script sets `top`, the folder that has tools/, and `name`, which its sentences begin with, and then
# reads this file.

# Where CDPATH is set, cd may go to a folder of the same name elsewhere.
unset CDPATH

# What standard input is. Where it is closed, the first file that a program opens would take its place.
input=open
[ ! -d /dev/stdin ] || input=folder
[ -e /dev/stdin ] || { input=closed; exec </dev/null; }

# SENTENCE: on standard error.
say() {
    printf '%s: %s\n' "$name" "$1" >&2 2>/dev/null || :
}

# SENTENCE: and status 2.
fail() {
    say "$1"
    exit 2
}

# FILE..: standard input is open where it is one of them.
need_input() {
    for file; do
        [ "$file" != - ] || [ "$input" != closed ] || fail 'standard input is closed.'
    done
}

# FILE [WHAT]: why it could not be read; what it should be, where that is no display file.
unread() {
    case $1 in
    '') say "a file's name is empty." ;;
    -) if [ "$input" = folder ]; then say 'standard input is a folder, not a display file.'; else say 'standard input cannot be read.'; fi ;;
    *)
        if [ ! -e "$1" ]; then
            say "there is no file $1."
        elif [ -d "$1" ]; then
            say "$1 is a folder, not a ${2:-display file}."
        else
            say "$1 cannot be read."
        fi
        ;;
    esac
}

# CRATE: the folders of it and of every crate that it needs.
sources() {
    awk -F: -v crate="$1" '
        function visit(name,    list, n, i) {
            if (!(name in needs) || name in seen) return
            seen[name] = 1
            print "crates/" name
            n = split(needs[name], list, " ")
            for (i = 1; i <= n; i++) visit(list[i])
        }
        { split($1, head, " "); needs[head[1]] = $2 }
        END { visit(crate) }' crates.txt
}

# PROGRAM: it is there, and nothing that it is made from is newer. A folder of a crate is newer where a file of it was removed; out/ is rt's own.
current() {
    # shellcheck disable=SC2046 # the names of crates have no spaces
    [ -x "target/bin/$1" ] && [ -z "$(find crates.txt $(sources "$1") -path 'crates/*/out' -prune -o \
        \( -path crates.txt -o -path 'crates/*/*' \) -newer "target/bin/$1" -print | head -n 1)" ]
}

seconds() {
    if [ "$1" -lt 60 ]; then echo "$1 s"; else echo "$(($1 / 60)) min $(($1 % 60)) s"; fi
}

# CRATE: a line that moves, for as long as this script runs. rt says so when it begins with a crate.
progress() {
    total=$(sources "$1" | wc -l)
    while kill -0 $$ 2>/dev/null; do
        sleep 1
        begun=$(awk -v total="$total" '/^rt: chose --jobs / && !seen[$NF]++ { begun++; last = $NF } END { if (begun) print begun " of " total ", " last }' "target/$1.log")
        [ -z "$begun" ] || printf '\r%-70s' "$name: proving crate $begun ($(seconds $(($(date +%s) - start))))" >&2
    done
}

# LOG: the first lines of it that tell why something is not proved, or else the last ones.
why_not() {
    awk '/error(\[[a-z-]*\])?:/ || /not proved/ || /no proof:/ || /did not build/ { if (told++ < 5) print }
        { last[NR % 5] = $0 }
        END { if (!told) for (i = NR - 4; i <= NR; i++) if (i > 0) print last[i % 5] }' "$1"
}

# CRATE VERB: by `rt VERB` in its folder the crate is proved and built, and this says so. The sources are then as old as target/CRATE.began.
prove() {
    crate=$1
    start=$(date +%s)
    moving=
    : >"target/$crate.began"
    : >"target/$crate.log"
    if [ -t 2 ]; then
        # without the lock of take_turn, which it would hold for a moment after the end
        progress "$crate" 9>&- &
        moving=$!
        trap 'kill "$moving" 2>/dev/null' EXIT
        trap 'exit 2' HUP INT TERM
    else
        say 'proving and building, which takes some minutes the first time'
    fi
    failed=
    (cd "crates/$crate" && rt "$2") >"target/$crate.log" 2>&1 </dev/null || failed=yes
    if [ -n "$moving" ]; then
        kill "$moving"
        wait "$moving" 2>/dev/null || :
        trap - EXIT
        printf '\r%-70s\r' '' >&2
        [ -n "$failed" ] || say "all $(sources "$crate" | wc -l) crates are proved, and it is built ($(seconds $(($(date +%s) - start))))"
    fi
    [ -z "$failed" ] || { why_not "target/$crate.log" >&2; fail "it was not built, as it is not proved; $top/target/$crate.log has what rt said."; }
}

# One proof at a time in this folder; it lasts until the shell that called this ends.
take_turn() {
    mkdir -p target 2>/dev/null && [ -w target ] || fail "something is to be proved and built, and nothing can be written in $top/target."
    exec 9>target/program.lock
    if command -v flock >/dev/null && ! flock -n 9; then
        say 'waiting for another call that proves in this folder'
        flock 9
    fi
}

# PROGRAM BEGAN: from where rt left it to target/bin, as old as the file BEGAN. There it stays, whatever becomes of out/.
keep() {
    mkdir -p target/bin && cp "crates/$1/out/$1" "target/bin/$1.part" && touch -r "$2" "target/bin/$1.part" && mv -f "target/bin/$1.part" "target/bin/$1"
}

# PROGRAM: sees that it is there and current, in a checkout. `rt run` also runs it: with no argument and no input, which takes no time.
make_current() (
    cd "$top" || exit 2
    if ! command -v rt >/dev/null; then
        [ -x "target/bin/$1" ] || fail 'the program is not built, and there is no rt, the command of the Rattle toolchain, to build it.'
        current "$1" || fail 'a source is newer than the program, and there is no rt, the command of the Rattle toolchain, to prove it anew.'
    elif ! current "$1"; then
        take_turn
        current "$1" || { prove "$1" run && keep "$1" "target/$1.began"; } || fail "the program is built, and nothing can be written in $top/target/bin."
    fi
)

# PROGRAM: from here on `program` is its path.
make_ready() {
    if [ -f "$top/crates.txt" ]; then
        make_current "$1" || exit 2
        program=$top/target/bin/$1
    else
        program=$top/bin/$1
        [ -x "$program" ] || fail "$program is missing: install it again."
    fi
}

# The programs open names that are UTF-8 text, and a file's name may be any bytes. So a name with other bytes than those of ASCII is passed as a link.
# links: a folder of ours, once there is one. The script removes it when it ends.
links=

# NAME: it has bytes of ASCII alone.
is_plain() (
    LC_ALL=C
    case $1 in
    *[!\ -\~]*) exit 1 ;;
    esac
)

# NAME: `plain` is that name, or a link to it. Where no link can be made it is the name: of UTF-8 it serves as it is.
make_plain() {
    plain=$1
    if is_plain "$1"; then return; fi
    if [ -z "$links" ]; then
        at=/tmp
        if is_plain "${TMPDIR:-}"; then at=${TMPDIR:-/tmp}; fi
        links=$(mktemp -d "$at/roadparsnip.XXXXXX" 2>/dev/null) || return 0
        linked=0
    fi
    linked=$((linked + 1))
    case $1 in
    /*) ln -s "$1" "$links/$linked" ;;
    *) ln -s "$PWD/$1" "$links/$linked" ;;
    esac 2>/dev/null || return 0
    plain=$links/$linked
}

# ARGUMENT..: the program's answers. Where it cannot be run, tools/run-x86 says why.
run_program() {
    if ! is_plain "$*"; then
        for argument; do
            shift
            make_plain "$argument"
            set -- "$@" "$plain"
        done
    fi
    answers=$("$top/tools/run-x86" "$program" "$@") || {
        ended=$?
        case $ended in
        126) say 'the list of files is too long for one call.' ;;
        127) ;;
        *) say "the program failed (status $ended)." ;;
        esac
        exit 2
    }
}
