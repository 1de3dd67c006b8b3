#!/bin/sh
# The library in C: ./build, then examples/host.c and the programs of docs/HOST.md, compiled with every warning an error, against what they should print;
# the names that the library has, and that no function lays out the built-in characters; that the interface number rises when the header changes; that what
# C calls states what crates/host does; and ./build as it is called with something wrong.
set -eu
cd "$(dirname "$0")/.."
# tests that prove or build in this folder take turns
exec 8<crates.txt
flock 8
work=$(mktemp -d)
trap 'rm -rf "$work"' EXIT
trap 'exit 1' HUP INT PIPE TERM

fail() {
    echo "host: $1"
    exit 1
}

run=tools/run-x86
[ "$(uname -m)" != x86_64 ] || run=

# ---- the interface number: raised when a record or a signature changes
# HEADER: its records and signatures, without comments and constants
declared() {
    sed '/^#/d' "$1" | tr -s '[:space:]' ' ' | sed -e 's#/\*[^*]*\*\**\([^/*][^*]*\*\**\)*/##g' -e 's/enum {[^}]*};//g'
}
# HEADER: its number, and a sum over what it declares; blanks do not count
numbered() {
    sum=$(declared "$1" | tr -d ' ' | cksum)
    echo "$(sed -n 's/^#define ROADPARSNIP_INTERFACE //p' "$1") ${sum%% *}"
}
# a line for each interface
cat >"$work/interfaces" <<'END'
2 2734585193
3 2043923887
END
now=$(numbered include/roadparsnip.h)
number=${now% *}
grep -q "^$number " "$work/interfaces" || fail "ROADPARSNIP_INTERFACE is $number, and tests/host.sh has no line for it: add '$now' to its list."
grep -qx "$now" "$work/interfaces" || fail "a record or a signature of include/roadparsnip.h has changed, and ROADPARSNIP_INTERFACE is still $number.
Raise it there, in crates/numbers/src/lib.rt and in crates/numbers/specs/Numbers.antt. Then add a line for it to the list in tests/host.sh: the new number, and ${now#* }.
If you only added a function, the number stays: put ${now#* } into its line."
# a new field is seen, and so is another signature; a comment and a new answer are not
for edit in 's/uint8_t status;/& uint8_t spare;/' 's/, uint16_t address)/, uint32_t address)/'; do
    sed "$edit" include/roadparsnip.h >"$work/changed.h"
    [ "$(numbered "$work/changed.h")" != "$now" ] || fail "the sum over the header does not see $edit"
done
sed -e 's#/\* stopped \*/#/* it has stopped */#' -e 's/^ *ROADPARSNIP_STOPPED = 1,/ROADPARSNIP_NEW = 3, &/' include/roadparsnip.h >"$work/changed.h"
[ "$(numbered "$work/changed.h")" = "$now" ] || fail 'the sum over the header sees a comment or an answer'

# ---- the example, slow and fast
./build "$work/lib" >"$work/said" 2>"$work/error" || fail "./build fails: $(cat "$work/error")"
[ "$(cat "$work/said")" = "$(printf '%s\n' "$work/lib/roadparsnip.h" "$work/lib/libroadparsnip.a")" ] || fail "./build says '$(cat "$work/said")'"
for level in 0 2; do
    tools/cc-x86 -std=c11 -Wall -Wextra -Wpedantic -Werror -O$level -I"$work/lib" -o "$work/host" examples/host.c "$work/lib/libroadparsnip.a"
    status=0
    $run "$work/host" >"$work/got" || status=$?
    diff examples/host.out "$work/got" || fail "examples/host.c, at -O$level, prints something else than examples/host.out"
    [ "$status" -eq 0 ] || fail "examples/host.c, at -O$level, ends with status $status"
done

# ---- the program of docs/HOST.md, with what it says that it prints
sed -n '/^```c$/,/^```$/p' docs/HOST.md | sed '1d;$d' >"$work/chart.c"
sed -n 's/^    \([.#]*\)$/\1/p' docs/HOST.md >"$work/chart"
[ "$(wc -l <"$work/chart")" -eq 8 ] || fail 'docs/HOST.md has no chart of eight rows'
tools/cc-x86 -std=c11 -Wall -Wextra -Wpedantic -Werror -O2 -I"$work/lib" -o "$work/host" "$work/chart.c" "$work/lib/libroadparsnip.a"
$run "$work/host" | diff "$work/chart" - || fail 'the program of docs/HOST.md prints something else than it says there'

# ---- the other one compares the interface numbers: with the library's own header, and with a header of another interface
sed -n '/^    #include/,/^    }$/s/^    //p' docs/HOST.md >"$work/numbers.c"
mkdir "$work/other"
sed 's/^#define ROADPARSNIP_INTERFACE .*/#define ROADPARSNIP_INTERFACE 999/' include/roadparsnip.h >"$work/other/roadparsnip.h"
for header in lib other; do
    tools/cc-x86 -std=c11 -Wall -Wextra -Wpedantic -Werror -O2 -I"$work/$header" -o "$work/$header.out" "$work/numbers.c" "$work/lib/libroadparsnip.a"
done
$run "$work/lib.out" 2>"$work/error" || fail "the library's header and the library do not fit: $(cat "$work/error")"
if $run "$work/other.out" 2>"$work/error"; then fail 'the program of docs/HOST.md runs with a header of another interface'; fi
grep -q "interface 999, and the library has $number" "$work/error" || fail "with a header of interface 999 the program of docs/HOST.md says '$(cat "$work/error")'"

# ---- the library has the functions of the header, and no other name for a host to run into
declared include/roadparsnip.h | grep -o 'roadparsnip_[a-z_]*(' | tr -d '(' | sort >"$work/functions"
nm=$(tools/cc-x86 -print-prog-name=nm)
"$nm" -P -g --defined-only "$work/lib/libroadparsnip.a" | sed -n 's/ [A-Za-z] .*//p' | sort | diff "$work/functions" - ||
    fail 'other names than the header declares: < as declared, > as the library has them'
# The loop of a run is a function of its own. The built-in characters are a constant: no function lays their 760 bytes out on the stack.
"$nm" "$work/lib/libroadparsnip.a" | grep -q ' t run::walk$' || fail 'run::walk is no function of its own: see Refusals in docs/PERFORMANCE.md'
objdump=$(tools/cc-x86 -print-prog-name=objdump)
"$objdump" -d "$work/lib/libroadparsnip.a" | sed -n 's/.*sub *\$0x\([0-9a-f]*\),%rsp.*/\1/p' >"$work/frames"
[ -s "$work/frames" ] || fail 'no function of the library takes stack, as objdump shows it'
while read -r frame; do
    [ "$((0x$frame))" -lt 760 ] || fail "a function of the library takes $((0x$frame)) bytes of stack: see Characters in docs/PERFORMANCE.md"
done <"$work/frames"

# ---- what C calls: each function of crates/host, with its parameters, its result and its clauses, exported under its name
# CRATE: a line for each of its public functions: all that stands before the body
stated() {
    awk '/^pub / { head = ""; open = 1 }
        $0 == "{" && open { sub(/extern "C" /, "", head); gsub(/[(] /, "(", head); gsub(/,? [)]/, ")", head); print head; open = 0 }
        open { sub(/^ +/, ""); head = head (head == "" ? "" : " ") $0 }' "crates/$1/src/lib.rt"
}
stated host >"$work/stated"
sed -n 's/^pub fn \([a-z_]*\)(.* ensures { .*/\1/p' "$work/stated" | sort | diff "$work/functions" - || fail 'crates/host has other functions than the header declares: < as declared, > as it has them'
stated host_c | diff "$work/stated" - || fail 'crates/host_c does not state what crates/host does: < as in crates/host, > as in crates/host_c'
while read -r function; do
    grep -q "^    host::$function(" crates/host_c/src/lib.rt || fail "crates/host_c does not call host::$function"
done <"$work/functions"

# ---- the header: the machine has no gap, the records are as large as the code makes them, and a file that includes nothing else compiles
cat >"$work/alone.c" <<'END'
#include "roadparsnip.h"
_Static_assert(sizeof(roadparsnip_machine) == 16, "no gap");
_Static_assert(sizeof(roadparsnip_started) == 20 && sizeof(roadparsnip_ran) == 32 && sizeof(roadparsnip_read) == 2, "the records");
END
tools/cc-x86 -std=c11 -Wall -Wextra -Wpedantic -Werror -I"$work/lib" -c -o "$work/alone.o" "$work/alone.c"

# ---- ./build: SENTENCE COMMAND.., which ends with status 2
says() {
    wanted=$1
    shift
    status=0
    "$@" >"$work/said" 2>"$work/error" || status=$?
    [ "$status" -eq 2 ] && [ ! -s "$work/said" ] && [ "$(tail -n 1 "$work/error")" = "build: $wanted" ] ||
        fail "'$*' ends with status $status and says '$(cat "$work/said" "$work/error")', not '$wanted'"
}
: >"$work/file"
mkdir "$work/few"
for tool in sh dirname readlink mkdir; do ln -s "$(command -v "$tool")" "$work/few/$tool"; done
says 'call it as ./build, or as ./build FOLDER.' ./build "$work/a" "$work/b"
says "the folder $work/file/lib cannot be made." ./build "$work/file/lib"
says 'there is no rt, the command of the Rattle toolchain, to prove and build the library.' env PATH="$work/few" ./build "$work/lib"
# with an rt that has nothing left to do
printf '#!/bin/sh\n' >"$work/few/rt"
chmod +x "$work/few/rt"
says 'the library is built, but its place could not be written.' sh -c 'PATH=$0/few:$PATH; ./build "$0/lib" >/dev/full' "$work"
# a folder of the same name elsewhere is not taken for the one that is meant
mkdir -p "$work/elsewhere/lib"
(build=$PWD/build && cd "$work" && PATH="$work/few:$PATH" CDPATH="$work/elsewhere" "$build" lib) >"$work/said" 2>"$work/error" || fail "with CDPATH set ./build says '$(cat "$work/error")'"
[ "$(head -n 1 "$work/said")" = "$work/lib/roadparsnip.h" ] || fail "with CDPATH set ./build writes to '$(cat "$work/said")'"
echo 'host: the programs in C draw their charts, and are refused as they should be'
