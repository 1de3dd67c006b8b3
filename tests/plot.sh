#!/bin/sh
# The command plot against the second interpreter, on the examples and on random files; and as it is called: with one file and with several, from another
# folder, with input that comes in pieces, with something wrong. SEED=n repeats a run.
set -eu
cd "$(dirname "$0")/.."
# tests that prove or build in this folder take turns
exec 8<crates.txt
flock 8
top=$PWD
seed=${SEED:-$(date +%s)}
count=6000
answers='0 1 2 12 13 14 15 19 21 22 23 24 25 26 27'

echo "plot: seed $seed"
second=$(tools/second)
work=$(mktemp -d)
trap 'rm -rf "$work"' EXIT
trap 'exit 1' HUP INT PIPE TERM
# from here on the command has nothing to build, and says nothing of it
program=$(tools/made plot 2>"$work/out") || { cat "$work/out"; echo 'plot: the program is not proved'; exit 1; }

fail() {
    echo "plot: $1 (seed $seed)"
    exit 1
}

program() { tools/run-x86 "$program"; }

# ---- the examples: made from their words, and their lines as the table has them
mkdir "$work/made"
examples/make "$work/made"
for line in examples/*.line; do
    name=$(basename "$line" .line)
    wanted=$(cat "$line")
    cmp "$work/made/$name.df" "examples/$name.df" || fail "examples/make does not make $name.df as it is stored"
    grep -q "^| $name |.*| $wanted |\$" examples/README.md || fail "examples/README.md does not have $name with its line"
    got=$("$second" plot <"examples/$name.df")
    [ "$got" = "$wanted" ] || fail "second prints '$got' for examples/$name.df, not '$wanted'"
    program <"examples/$name.df" >"$work/got"
    cmp -s "$line" "$work/got" || fail "plot prints '$(cat "$work/got")' for examples/$name.df, not '$wanted'"
    rm "$work/made/$name.df"
done
[ -z "$(ls "$work/made")" ] || fail "of what examples/make makes, these have no line: $(ls "$work/made" | tr '\n' ' ')"

# ---- random files, all in one call: the line, a tab and the name of each, and status 1, as some are refused
mkdir "$work/files"
"$second" files "$seed" "$count" "$work/files"
status=0
(cd "$work/files" && "$top/roadparsnip" plot ./*.df) >"$work/lines" || status=$?
[ "$status" -eq 1 ] || fail "of $count files, some of them refused, the status is $status"
(cd "$work/files" && printf '%s\n' ./*.df) >"$work/names"
paste "$work/files/expected" "$work/names" >"$work/wanted"
cmp -s "$work/wanted" "$work/lines" || {
    diff "$work/wanted" "$work/lines" | head -n 4
    file=$(diff "$work/wanted" "$work/lines" | sed -n 's/^[<>].*\t//p' | head -n 1)
    cp "$work/files/$file" target/plot-differs.df
    echo "bytes: $(head -c 200 "$work/files/$file" | od -A n -v -t x1 | tr -d '\n')"
    fail "$file differs: < as second has it, > as plot prints it; target/plot-differs.df is a copy of it"
}
cut -d ' ' -f 1 "$work/files/expected" | sort -n | uniq -c >"$work/answers"
awk '{ printf "%s%s (%d)", NR == 1 ? "plot: answers ": ", ", $2, $1 } END { print "" }' "$work/answers"
for answer in $answers; do
    grep -q " $answer\$" "$work/answers" || fail "no file has answer $answer"
done

# ---- input that comes in pieces: FILE SIZE, so many bytes at a time, with a wait after each
pieces() {
    at=0
    while [ $((at * $2)) -lt "$(wc -c <"$1")" ]; do
        dd if="$1" bs="$2" skip="$at" count=1 2>/dev/null
        sleep 0.1
        at=$((at + 1))
    done
}
{ cat examples/weeks.df; head -c $((65536 - $(wc -c <examples/weeks.df))) /dev/zero; } >"$work/full.df"
{ cat "$work/full.df"; head -c 2 /dev/zero; } >"$work/over.df"
for case in "examples/weeks.df 61 $(cat examples/weeks.line)" "$work/full.df 30001 $(cat examples/weeks.line)" "$work/over.df 30001 19 0 0 0 0 0 0"; do
    line=${case#* }
    size=${line%% *}
    line=${line#* }
    got=$(pieces "${case%% *}" "$size" | program)
    [ "$got" = "$line" ] || fail "of ${case%% *} in pieces of $size bytes plot prints '$got', not '$line'"
done

# ---- the command
. tests/is
plot() { ./roadparsnip plot "$@"; }
listed=$(cat examples/listed.line)
weeks=$(cat examples/weeks.line)
tag=$(cat examples/refused-13-tag.line)
tab=$(printf '\t')
ln -s "$top/roadparsnip" "$work/link"
cp examples/listed.df "$work/a file.df"
cp examples/listed.df "$work/-x.df"
is 0 "$listed" '' plot examples/listed.df
is 0 "$listed" '' plot - <examples/listed.df
is 0 "$listed" '' sh -c './roadparsnip plot <examples/listed.df'
is 0 "$listed" '' sh -c 'cat examples/listed.df | ./roadparsnip plot'
is 0 "$listed" '' sh -c 'cd "$0" && ./link plot "a file.df"' "$work"
is 0 "$listed" '' sh -c 'cd "$0" && ./link plot -- -x.df' "$work"
is 0 "$listed" '' sh -c 'cd / && "$0/roadparsnip" plot "$1/a file.df"' "$top" "$work"
# names of any bytes: Latin-1, UTF-8, a newline
for bytes in 'sp\344t' 'sp\303\244t' 'a\nb'; do
    odd=$(printf "$work/$bytes.df")
    cp examples/listed.df "$odd"
    is 0 "$listed" '' plot "$odd"
    is 0 "$listed" '' sh -c 'cd "$0" && ./link plot "${1##*/}"' "$work" "$odd"
    is 2 "$listed${tab}$odd" "plot: there is no file $odd.df." plot "$odd.df" "$odd"
done
[ -z "$(find "${TMPDIR:-/tmp}" -maxdepth 1 -name 'roadparsnip.*' -newer "$work/link" 2>/dev/null)" ] || fail 'a folder of links was left'
is 1 "$tag" '' plot examples/refused-13-tag.df
is 0 "$listed${tab}examples/listed.df
$weeks${tab}examples/weeks.df" '' plot examples/listed.df examples/weeks.df
is 1 "$tag${tab}examples/refused-13-tag.df
$weeks${tab}-" '' plot examples/refused-13-tag.df - <examples/weeks.df
is 2 "$listed${tab}examples/listed.df
$tag${tab}examples/refused-13-tag.df
$listed${tab}$work/a file.df" "plot: there is no file none.df.
plot: examples is a folder, not a display file.
plot: a file's name is empty." plot none.df examples/listed.df examples '' examples/refused-13-tag.df "$work/a file.df"
is 2 "$listed${tab}examples/listed.df" 'plot: there is no file none.df.' plot examples/listed.df none.df
is 2 '' 'plot: there is no file none.df.' plot none.df
is 2 '' 'plot: examples is a folder, not a display file.' plot examples
is 2 '' "plot: there is no option --budget; 'roadparsnip help plot' lists all." plot --budget 5 examples/listed.df
is 2 '' 'plot: standard input is a folder, not a display file.' sh -c './roadparsnip plot <examples'
is 2 '' 'plot: standard input is closed.' sh -c './roadparsnip plot <&-'
is 2 '' 'plot: standard input is closed.' sh -c './roadparsnip plot examples/listed.df - <&-'
is 0 "$listed${tab}examples/listed.df
$weeks${tab}examples/weeks.df" '' sh -c './roadparsnip plot examples/listed.df examples/weeks.df <&-'
is 2 '' 'plot: the line could not be written.' sh -c './roadparsnip plot examples/listed.df >/dev/full'
is 2 '' 'plot: the line could not be written.' sh -c './roadparsnip plot examples/listed.df examples/weeks.df >&-'
chmod 0 "$work/a file.df"
if [ ! -r "$work/a file.df" ]; then
    is 2 '' "plot: $work/a file.df cannot be read." plot "$work/a file.df"
fi
echo "plot: $(ls examples/*.df | wc -l) examples and $count random files agree with second, and the command says what is wrong (seed $seed)"
