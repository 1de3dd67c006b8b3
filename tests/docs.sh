#!/bin/sh
# The documents against the tree: every definition, example, theorem, function and edit that docs/DEFINITION.md and docs/PROMISES.md name is there, and every definition, law and
# function that the other pages name; DEFINITION.md names every theorem and every function that another crate can call, a method or a conversion too, PROMISES.md every promise and
# every edit of the machine and the calls. And the numbers of the definition's tables are where people look for them.
set -eu
cd "$(dirname "$0")/.."
doc=docs/DEFINITION.md
theorems='crates/demands/proofs/Demands.antt crates/demands/proofs/Drawing.antt'
work=$(mktemp -d)
trap 'rm -rf "$work"' EXIT

# what stands between backquotes, one to a line
quoted() { tr '\n' ' ' <"$1" | grep -o '`[^` ]*`' | tr -d '`' | sort -u; }
quoted "$doc" >"$work/named"
quoted docs/PROMISES.md >"$work/promised"
for page in README.md docs/*.md; do
    case $page in
    # the first is read more strictly; the others tell of code that was
    docs/DEFINITION.md | docs/PORT.md | docs/DESIGN-PASS.md | docs/LOOK-BACK.md) ;;
    *) quoted "$page" ;;
    esac
done | sort -u >"$work/told"
failed=0

# `File.name`: declared in a file of that name
grep -E '^[A-Z][A-Za-z]*\.[A-Za-z][A-Za-z0-9_]*$' "$work/named" | grep -v '\.antt$' >"$work/definitions"
while IFS=. read -r file name; do
    cat crates/*/specs/"$file".antt crates/*/proofs/"$file".antt >"$work/file" 2>/dev/null || :
    grep -Eq "^ *(abbrev |unfoldable )?pub (record |data )?$name( |\$)" "$work/file" ||
        { echo "$doc names $file.$name, which is not there"; failed=1; }
done <"$work/definitions"

# the other pages: `File.name` is a law or a definition there, public or not; `crate::function` is checked below
grep -E '^[A-Z][A-Za-z]*\.[A-Za-z][A-Za-z0-9_]*$' "$work/told" | grep -Ev '\.(antt|md)$' | while IFS=. read -r file name; do
    cat crates/*/specs/"$file".antt crates/*/proofs/"$file".antt 2>/dev/null | grep -Eq "^ *(abbrev |unfoldable )?(pub )?(record |data )?$name( |\$)" ||
        { echo "docs/ or README.md names $file.$name, which is not there"; exit 1; }
done || failed=1

# theorems: each is named
# shellcheck disable=SC2086 # two files
sed -n 's/^ *pub \([a-z0-9_]*\) :.*/\1/p' $theorems >"$work/theorems"
while read -r theorem; do
    grep -qx -e "$theorem" "$work/named" || { echo "$doc does not name the theorem $theorem"; failed=1; }
done <"$work/theorems"

# `some_name`: a theorem, of these or of the host's; or else a must-fail edit of the definition; or else a definition. No theorem has the name of an edit
sed -n 's/^ *pub \([a-z0-9_]*\) :.*/\1/p' crates/host/proofs/Host.antt >>"$work/theorems"
: >"$work/edits"
sort -u "$work/named" "$work/promised" | grep -E '^[a-z0-9]+(_[a-z0-9]+)+$' >"$work/words"
while read -r word; do
    if [ -f "crates/definition/must-fail/$word.edit" ]; then
        echo "definition/$word" >>"$work/edits"
    elif ! grep -qx -e "$word" "$work/theorems"; then
        grep -Eqs "^ *(abbrev |unfoldable )?pub $word( |\$)" crates/*/specs/*.antt || { echo "docs/ names $word, which is no theorem, no edit of the definition and no definition"; failed=1; }
    fi
done <"$work/words"
for edit in crates/definition/must-fail/*.edit; do
    grep -qx -e "$(basename "$edit" .edit)" "$work/theorems" && { echo "$edit has the name of a theorem"; failed=1; }
done

# `crate/some_edit`: a must-fail edit of that crate
sort -u "$work/named" "$work/promised" | grep -E '^[a-z]+/[a-z0-9]+(_[a-z0-9]+)+$' >>"$work/edits"
while IFS=/ read -r crate edit; do
    [ -f "crates/$crate/must-fail/$edit.edit" ] || { echo "docs/ names the edit $edit of $crate, which is not there"; failed=1; }
done <"$work/edits"
for crate in outcome items letters orders machine run doors still display numbers host; do
    for edit in crates/"$crate"/must-fail/*.edit; do
        grep -qx -e "$crate/$(basename "$edit" .edit)" "$work/promised" || { echo "docs/PROMISES.md does not name $edit"; failed=1; }
    done
done

# the promises, and the theorem of one outcome of each
# FILE: a line for each promise there, its name and that of its theorem
promises() { sed -nE 's/^abbrev pub (Promise([A-Za-z]+)) :.*/\1 \2/p' "$1" | sed -E ':more s/ ([a-z_]*)([A-Z])/ \1_\l\2/; t more; s/ / one/'; }
promises crates/definition/specs/Promises.antt >"$work/promises"
[ -s "$work/promises" ] || { echo 'crates/definition has no promise'; failed=1; }
while read -r promise theorem; do
    grep -qx -e "$promise" "$work/promised" && grep -qx -e "$theorem" "$work/promised" && grep -qx -e "$theorem" "$work/theorems" && grep -q "$promise " crates/display/src/lib.rt ||
        { echo "docs/PROMISES.md or crates/display does not name $promise, or its theorem $theorem"; failed=1; }
done <"$work/promises"
promises crates/host/specs/Promises.antt >"$work/promises"
[ -s "$work/promises" ] || { echo 'crates/host has no promise'; failed=1; }
while read -r promise theorem; do
    grep -qx -e "$promise" "$work/promised" && grep -qx -e "$theorem" "$work/promised" && grep -q "$promise " crates/host/src/lib.rt &&
        grep -q "^pub $theorem :" crates/host/proofs/Host.antt ||
        { echo "docs/PROMISES.md or crates/host does not name $promise, or its theorem $theorem"; failed=1; }
done <"$work/promises"

# `crate::function`, or `crate::Type::function` in an impl: in that crate's source; and each that is public is named. Those of a trait's impl are public, as `from` is,
# unless the crate keeps the trait to itself
# CRATE: a line for each function there, its name and whether another crate can call it
functions() {
    cat crates/"$1"/src/*.rt | awk -v crate="$1" '
        /^(pub )?trait / { type = $0; sub(/.*trait /, "", type); sub(/[^A-Za-z0-9_].*/, "", type); trait = type; if (!/^pub /) kept[trait] = 1 }
        /^impl/ {
            type = $0; sub(/ *[{].*/, "", type); sub(/^impl(<[^>]*>)? */, "", type)
            trait = ""; if (type ~ / for /) { trait = type; sub(/ for .*/, "", trait); sub(/<.*/, "", trait) }
            sub(/.* for /, "", type); sub(/<.*/, "", type)
        }
        /^[}]/ { type = trait = "" }
        match($0, /^ *(pub )?(extern "C" )?fn [a-z_0-9]+/) {
            name = substr($0, 1, RLENGTH); sub(/.* /, "", name)
            found[++n] = crate "::" (type == "" ? "" : type "::") name
            open[n] = /^ *pub /; of[n] = trait
        }
        END { for (i = 1; i <= n; i++) print found[i], (open[i] || (of[i] != "" && !(of[i] in kept)) ? "public" : "own") }'
}
for crate in crates/*; do
    functions "${crate#crates/}"
done >"$work/there"
sort -u "$work/named" "$work/told" | grep -E '^[a-z_]+::([A-Za-z0-9]+::)?[a-z_0-9]+$' >"$work/functions"
while read -r function; do
    grep -q "^$function " "$work/there" || { echo "docs/ or README.md names the function $function, which is not there"; failed=1; }
done <"$work/functions"
for crate in definition units image file words course vector walk cells outcome items letters orders machine run doors still display numbers host line text screen input; do
    sed -n "s/^\($crate::.*\) public$/\1/p" "$work/there"
done >"$work/public"
while read -r function; do
    grep -qx -e "$function" "$work/named" || { echo "$doc does not name the function $function"; failed=1; }
done <"$work/public"

# the tables of answers: the header has a constant for each number and for 31 of read-pixel, and no other; each has a theorem and a row of the answers; each
# refusal has its reason in a sentence
table() { sed -n "s/^$1 = //p" "crates/definition/specs/$2.antt" | tr -cs '0-9' ' '; }
refusals=$(table refusal_numbers Machine)
answers="0 1 2 $refusals $(table door_numbers Calls)"
# shellcheck disable=SC2086 # one number to a line
printf '%s\n' $answers 31 | sort -n >"$work/answers"
sed -n '/^\/\* What a call answers/,/^};/s/^ *ROADPARSNIP_[A-Z_]* = \([0-9]*\).*/\1/p' include/roadparsnip.h | sort -n | diff "$work/answers" - ||
    { echo "include/roadparsnip.h has other answers than the tables of the definition: < in the tables, > in the header"; failed=1; }
for n in $answers; do
    grep -q "^  pub run_$n :" crates/demands/proofs/Demands.antt || { echo "answer $n has no theorem run_$n"; failed=1; }
    grep -Eq "^\| ([0-9]+, )*$n(, [0-9]+)* \| .*(run|all that answer)" "$doc" || { echo "$doc has no row for answer $n"; failed=1; }
done
# the refusals in code have the names and the numbers of the header, and 19, which no call of the header answers
sed -nE 's/^    ([A-Z][A-Za-z]*) = ([0-9]+),$/\1 \2/p' crates/definition/src/lib.rt | sed 's/[A-Z]/_&/g; s/^/ROADPARSNIP/' | tr '[:lower:]' '[:upper:]' | sort >"$work/refusals"
{
    echo 'ROADPARSNIP_BAD_INPUT 19'
    sed -nE '/^\/\* What a call answers/,/^};/s/^ *(ROADPARSNIP_[A-Z_]*) = ([0-9][0-9]).*/\1 \2/p' include/roadparsnip.h
} | sort | diff "$work/refusals" - || { echo "include/roadparsnip.h has other refusals than the enum of crates/definition: < in the enum, > in the header"; failed=1; }
for n in $refusals; do
    grep -q "^ *$n) echo '" tools/reasons.sh || { echo "tools/reasons.sh has no reason for $n"; failed=1; }
done

# links of README
sed -n 's/.*](\([^)#]*\)).*/\1/p' README.md | while read -r path; do
    [ -e "$path" ] || { echo "README.md links to $path, which is not there"; exit 1; }
done || failed=1

[ "$failed" -eq 0 ] && echo "docs: $(wc -l <"$work/definitions") definitions, $(wc -l <"$work/edits") edits, $(wc -l <"$work/functions") functions and $(wc -l <"$work/theorems") theorems are where $doc has them"
[ "$failed" -eq 0 ]
