#!/bin/sh
# The front door: its pages against what there is, what it says of a wrong command, how it proves a program on first use, and what ./install leaves,
# used from another folder by a user who is not root.
set -eu
cd "$(dirname "$0")/.."
# tests that prove or build in this folder take turns
exec 8<crates.txt
flock 8
top=$PWD
work=$(mktemp -d)
chmod 755 "$work"
trap 'rm -rf "$work"' EXIT
trap 'exit 1' HUP INT PIPE TERM

fail() {
    echo "door: $1"
    exit 1
}

. tests/is

# PAGE HEADING: the text below it
section() {
    sed -n "/^$2\$/,/^[A-Z]/s/^    //p" "$1"
}

# ---- the pages: one for each command, with every heading, its options and an example that prints what it says
commands=$(for script in commands/*.sh; do basename "$script" .sh; done)
[ "$(for page in commands/*.txt; do basename "$page" .txt; done)" = "$(printf '%s\n' $commands roadparsnip | sort)" ] || fail 'the pages of commands/ are not those of its scripts'
first=$(./roadparsnip)
for name in $commands; do
    page=commands/$name.txt
    [ "$(sed -n 's/:.*//p;q' "$page")" = "$name" ] || fail "$page does not begin with '$name: '"
    for heading in Usage 'What it does' 'What it prints' Options Statuses Example; do
        [ -n "$(section "$page" "$heading")" ] || fail "$page has nothing below '$heading'"
    done
    [ "$(section "$page" Statuses | grep -o '^[0-9]' | tr -d '\n')" = 012 ] || fail "$page does not have the statuses 0, 1 and 2"
    is 0 "$(cat "$page")" '' ./roadparsnip help "$name"
    is 0 "$(cat "$page")" '' ./roadparsnip "$name" --help
    for line in "$(sed -n '1s/^[^:]*: //p' "$page")" "$(section "$page" Example | head -n 1)"; do
        printf '%s\n' "$first" | grep -qF -e "$line" || fail "the first screen does not have '$line'"
    done
    # the options that the script takes, with the two that every command takes
    { sed -n 's/^ *\(--[a-z]*\)).*/\1/p' "commands/$name.sh" && printf '%s\n' --help --; } | sort -u >"$work/taken"
    section "$page" Options | sed -n 's/^\(--[a-z]*\) .*/\1/p' | sort | diff "$work/taken" - || fail "$page has other options than commands/$name.sh: < in the script, > on the page"
    # the example, in a folder that has the files
    cp -r examples "$work/$name"
    (
        cd "$work/$name"
        PATH=$top:$PATH
        section "$top/$page" Example | sed -n '/^roadparsnip /p' >"$work/example"
        sh -e "$work/example" >"$work/said" 2>"$work/error"
    ) || fail "the example of $page fails: $(cat "$work/error")"
    section "$page" Example | sed '/^roadparsnip /d' | diff - "$work/said" || fail "the example of $page prints something else than the page: < the page"
done
[ -z "$(awk 'length > 79 { print FILENAME }' commands/*.txt)" ] || fail 'a page is wider than a terminal'
[ "$(ls "$work/picture/pictures")" = "$(printf '%s\n' rectangle.png weeks.png)" ] && [ -s "$work/picture/weeks.png" ] || fail 'the example of commands/picture.txt does not write its pictures'
is 0 "$first" '' ./roadparsnip help
is 0 "$first" '' ./roadparsnip --help
is 0 "$first" '' ./roadparsnip help help
is 0 "$first" '' ./roadparsnip help --help
is 0 "$first" '' ./roadparsnip help --version
is 0 "$(cat commands/picture.txt)" '' ./roadparsnip picture --budget 5 --help
printf '%s\n' "$first" | grep -q @ && fail 'the first screen has a mark that was not replaced'

# ---- the version, the interface of the header, and the toolchain
version=$(sed -n 's/^version=//p' roadparsnip)
interface=$(sed -n 's/^#define ROADPARSNIP_INTERFACE //p' include/roadparsnip.h)
is 0 "roadparsnip $version
interface $interface
proved on first use, by $(rt version)" '' ./roadparsnip --version

# ---- wrong commands, and outputs that take nothing
is 2 '' "roadparsnip: there is no command 'plt'. The nearest is plot; 'roadparsnip help' lists all." ./roadparsnip plt examples/listed.df
is 2 '' "roadparsnip: there is no command 'pictures'. The nearest is picture; 'roadparsnip help' lists all." ./roadparsnip help pictures
is 2 '' "roadparsnip: there is no command '--verison'. The nearest is --version; 'roadparsnip help' lists all." ./roadparsnip --verison
is 2 '' "roadparsnip: there is no command 'hlep'. The nearest is help; 'roadparsnip help' lists all." ./roadparsnip hlep
is 2 '' "roadparsnip: there is no command '../commands/plot'. The nearest is plot; 'roadparsnip help' lists all." ./roadparsnip ../commands/plot
is 2 '' "roadparsnip: there is no command ''. The nearest is plot; 'roadparsnip help' lists all." ./roadparsnip ''
for call in help 'help plot' --version; do
    is 2 '' 'roadparsnip: the text could not be written.' sh -c "./roadparsnip $call >/dev/full"
    is 2 '' 'roadparsnip: the text could not be written.' sh -c "./roadparsnip $call >&-"
done
is 2 '' '' sh -c './roadparsnip plt 2>/dev/full'

# ---- the first use: a tree with a stand-in for rt, which counts, and for find, which counts how often it is asked what is newer
tree=$work/tree
mkdir -p "$tree/tools" "$tree/crates/plot/src" "$tree/crates/line/src" "$tree/crates/else/src" "$work/rt" "$work/few"
cp roadparsnip "$tree/roadparsnip"
cp -r commands "$tree/commands"
cp tools/program.sh "$tree/tools/program.sh"
printf '#!/bin/sh\nexec "$@"\n' >"$tree/tools/run-x86"
printf 'line: definition\nplot: line io\nelse: line\n' >"$tree/crates.txt"
touch "$tree/crates/plot/src/main.rt" "$tree/crates/line/src/lib.rt" "$tree/crates/line/src/more.rt" "$tree/crates/else/src/lib.rt"
cat >"$work/rt/rt" <<'END'
#!/bin/sh
[ "$*" = run ] && [ ! -e ../../refuse ] || { echo 'rt: the library line did not build'; exit 1; }
for crate in line plot; do
    mkdir -p "../$crate/out"
    echo "rt: chose --jobs 2 for $crate"
    [ ! -e ../../slow ] || sleep 4
done
echo >>../../built
printf '#!/bin/sh\nfor file; do echo "1 $(wc -l <%s/../../built)"; done\n' "$PWD" >out/plot
chmod +x out/plot
END
chmod +x "$tree/tools/run-x86" "$work/rt/rt"
for tool in sh cat chmod wc dirname readlink awk head tail mkdir cp mv touch flock uname date sleep; do
    if there=$(command -v "$tool"); then ln -s "$there" "$work/few/$tool"; fi
done
printf '#!/bin/sh\necho >>%s\nexec %s "$@"\n' "$work/asked" "$(command -v find)" >"$work/few/find"
chmod +x "$work/few/find"
called() { PATH="$work/rt:$work/few" "$tree/roadparsnip" plot "${1:--}" </dev/null; }
bare() { PATH="$work/few" "$tree/roadparsnip" plot </dev/null; }
proving='plot: proving and building, which takes some minutes the first time'
is 2 '' 'plot: the program is not built, and there is no rt, the command of the Rattle toolchain, to build it.' bare
is 0 '1 1' "$proving" called
: >"$work/asked"
is 0 '1 1' '' called
is 0 '1 1' '' bare
[ "$(wc -l <"$work/asked")" -eq 2 ] || fail "in two calls it is asked $(wc -l <"$work/asked") times whether the program is current"
: >"$work/asked"
PATH="$work/rt:$work/few" "$tree/roadparsnip" plot a b c d e f g >"$work/said"
[ "$(wc -l <"$work/said")" -eq 7 ] && [ "$(wc -l <"$work/asked")" -eq 1 ] || fail "for seven files it is asked $(wc -l <"$work/asked") times whether the program is current"
touch "$tree/crates/else/src/lib.rt"
is 0 '1 1' '' called
touch "$tree/crates/line/src/lib.rt"
is 2 '' 'plot: a source is newer than the program, and there is no rt, the command of the Rattle toolchain, to prove it anew.' bare
is 0 '1 2' "$proving" called
rm "$tree/crates/line/src/more.rt"
is 0 '1 3' "$proving" called
is 0 '1 3' '' called
# what rt makes of out/ afterwards does not count, and the program stays
rm -r "$tree/crates/plot/out"
touch "$tree/crates/line/out/more"
is 0 '1 3' '' called
if script -qec true /dev/null </dev/null >/dev/null 2>&1; then
    touch "$tree/crates.txt" "$tree/slow"
    PATH="$work/rt:$work/few:$PATH" script -qec "$tree/roadparsnip plot - </dev/null" /dev/null </dev/null | tr '\r' '\n' | sed -e 's/ *$//' -e '/^$/d' >"$work/said"
    grep -qx 'plot: proving crate 1 of 2, line ([0-9]* s)' "$work/said" && grep -qx 'plot: proving crate 2 of 2, plot ([0-9]* s)' "$work/said" &&
        grep -qx 'plot: all 2 crates are proved, and it is built ([0-9]* s)' "$work/said" && [ "$(tail -n 1 "$work/said")" = '1 4' ] || fail "on a terminal the first use says '$(cat "$work/said")'"
    rm "$tree/slow"
else
    echo 'door: no terminal can be made here, so the line that moves was not seen'
fi
touch "$tree/crates.txt" "$tree/refuse"
is 2 '' "$proving
rt: the library line did not build
plot: it was not built, as it is not proved; $tree/target/plot.log has what rt said." called

# ---- ./install: STATUS SENTENCE COMMAND..
: >"$work/file"
is 2 '' 'install: call it as ./install DIR, or as ./install --list DIR.' ./install
is 2 '' 'install: call it as ./install DIR, or as ./install --list DIR.' ./install a b
is 2 '' "install: the folder's name is empty, or begins with a hyphen." ./install --lits
is 2 '' "install: nothing of it is installed in $work." ./install --list "$work"
is 2 '' "install: the folder $work/file/here cannot be made." ./install "$work/file/here"
is 2 '' 'install: there is no rt, the command of the Rattle toolchain, to prove and build what is installed.' env PATH="$work/few" ./install "$work/none"
[ ! -e "$work/none" ] || fail './install leaves something where it fails'
mkdir -p "$work/blocked/bin/roadparsnip" "$work/other/libexec/roadparsnip"
is 2 '' "install: $work/blocked/bin/roadparsnip is a folder." ./install "$work/blocked"
is 2 '' "install: $work/other/libexec/roadparsnip is there, and is nothing that was installed by this script." ./install "$work/other"

# ---- an install, twice, into a folder with spaces in its name
to="$work/an install"
for time in first second; do ./install "$to" >"$work/said" 2>"$work/error" || fail "the $time ./install fails: $(cat "$work/error")"; done
./install --list "$to" | diff - "$work/said" || fail './install --list does not print what ./install printed'
(cd "$to" && find . ! -type d ! -path './libexec/*' | sort) >"$work/files"
printf '%s\n' ./bin/roadparsnip ./include/roadparsnip.h ./lib/libroadparsnip.a ./lib/pkgconfig/roadparsnip.pc ./share/man/man1/roadparsnip.1 ./share/man/man3/roadparsnip.3 | diff - "$work/files" ||
    fail './install leaves other files: < as it should'
grep -rlF -e "$top" -e "$work" "$to" && fail 'what is installed has the name of the folder that it was made in'
is 2 '' 'install: the list could not be written.' sh -c './install --list "$0" >/dev/full' "$to"

# moved, and used from another folder, by a user who is not root, without the toolchain: COMMAND..
mv "$to" "$to that was moved"
to="$to that was moved"
mkdir "$work/elsewhere" "$work/user"
chmod 777 "$work/elsewhere"
cp examples/weeks.df "$work/elsewhere/a chart.df"
cp examples/refused-13-tag.df "$work/elsewhere/refused.df"
chmod 644 "$work"/elsewhere/*
for tool in sh cat awk basename dirname readlink uname head mktemp mv rm mkdir sort uniq; do ln -s "$(command -v "$tool")" "$work/user/$tool"; done
other=
[ "$(id -u)" -ne 0 ] || other='setpriv --reuid=65534 --regid=65534 --clear-groups --'
user() (
    cd "$work/elsewhere"
    $other env -i HOME=/ PATH="$work/user" "$to/bin/roadparsnip" "$@"
)
$other "$to/bin/roadparsnip" --version >/dev/null 2>&1 || fail "a user who is not root cannot run what is in $to"
is 0 "$first" '' user
is 0 "roadparsnip $version
interface $interface
proved by $(rt version)" '' user --version
is 0 "$(cat examples/weeks.line)" '' user plot 'a chart.df'
# on another machine, with and without an emulator; the one here runs the program as it is
mv "$work/user/uname" "$work/uname"
printf '#!/bin/sh\necho aarch64\n' >"$work/user/uname"
chmod +x "$work/user/uname"
is 2 '' "roadparsnip: the programs are for x86-64, and this machine is aarch64: install Debian's package qemu-user to run them." user plot 'a chart.df'
printf '#!/bin/sh\necho >>emulated\nexec "$@"\n' >"$work/user/qemu-x86_64"
chmod +x "$work/user/qemu-x86_64"
is 0 "$(cat examples/weeks.line)" '' user plot 'a chart.df'
[ -s "$work/elsewhere/emulated" ] || fail 'on another machine a program runs without the emulator'
rm "$work/user/uname" "$work/user/qemu-x86_64"
mv "$work/uname" "$work/user/uname"
is 1 "$(cat examples/refused-13-tag.line)" '' user plot refused.df
is 0 '' '' user picture 'a chart.df' 'a picture.pgm'
is 1 '' 'picture: refused.df: refused, 13: the tag, which is the first word, is not 1; nothing was drawn.' user picture --pgm --out pictures 'a chart.df' refused.df
./roadparsnip picture examples/weeks.df >"$work/right"
cmp -s "$work/right" "$work/elsewhere/a picture.pgm" && cmp -s "$work/right" "$work/elsewhere/pictures/a chart.pgm" || fail 'what is installed draws another picture'
is 2 '' "roadparsnip: there is no command 'plt'. The nearest is plot; 'roadparsnip help' lists all." user plt

# ---- the library by pkg-config: the program of docs/HOST.md
export PKG_CONFIG_PATH="$to/lib/pkgconfig"
[ "$(pkg-config --modversion roadparsnip)" = "$version" ] || fail 'pkg-config has another version'
sed -n '/^```c$/,/^```$/p' docs/HOST.md | sed '1d;$d' >"$work/chart.c"
eval "tools/cc-x86 -std=c11 -Wall -Wextra -Wpedantic -Werror -o '$work/chart' '$work/chart.c' $(pkg-config --cflags --libs roadparsnip)" || fail 'the program of docs/HOST.md does not compile by pkg-config'
run=tools/run-x86
[ "$(uname -m)" != x86_64 ] || run=
$run "$work/chart" >"$work/got"
sed -n 's/^    \([.#]*\)$/\1/p' docs/HOST.md | diff - "$work/got" || fail 'the program of docs/HOST.md prints something else than it says there'

# ---- the manual pages
for page in man1/roadparsnip.1 man3/roadparsnip.3; do
    LC_ALL=C.UTF-8 MANWIDTH=80 man --warnings -E UTF-8 -l "$to/share/man/$page" >"$work/page" 2>"$work/error" || fail "man cannot show $page: $(cat "$work/error")"
    [ ! -s "$work/error" ] || fail "man warns of $page: $(cat "$work/error")"
done
for name in $commands; do
    sed -n '1s/^[^:]*: //p' "commands/$name.txt" >"$work/summary"
    MANWIDTH=200 man -l "$to/share/man/man1/roadparsnip.1" 2>/dev/null | grep -qF -f "$work/summary" || fail "roadparsnip(1) does not have the summary of $name"
done
for call in $(sed -n 's/^| \(roadparsnip_[a-z_]*\) |.*/\1/p' docs/HOST.md); do
    grep -q "$call" "$work/page" || fail "roadparsnip(3) does not have $call"
done

# ---- removed by removing what is listed
./install --list "$to" | while IFS= read -r thing; do rm -r "$thing"; done
[ -z "$(find "$to" ! -type d)" ] || fail "of an install that was removed there is left: $(find "$to" ! -type d)"
echo "door: the pages of $(echo $commands | wc -w) commands fit what there is; what ./install leaves runs elsewhere, and is gone when it is removed"
