#!/bin/sh
# The parts against the second interpreter: second makes cases for units, image, file, words and vector, with the record that it
# expects of each, and the program of crates/parts writes its own records. SEED=n repeats a run.
set -eu
cd "$(dirname "$0")/.."
# tests that prove or build in this folder take turns
exec 8<crates.txt
flock 8
seed=${SEED:-$(date +%s)}
least=450000

echo "parts: seed $seed"
second=$(tools/second)
work=$(mktemp -d)
trap 'rm -rf "$work"' EXIT
trap 'exit 1' HUP INT PIPE TERM
# what is proved and unchanged is not proved again
program=$(tools/made parts 2>"$work/out") || { cat "$work/out"; echo 'parts: the program is not proved'; exit 1; }
"$second" parts "$seed" "$work"
cases=$(wc -l <"$work/index")
[ "$cases" -ge "$least" ] || { echo "parts: second made $cases cases, fewer than $least"; exit 1; }

status=0
tools/run-x86 "$program" <"$work/cases" >"$work/got" || status=$?
if [ "$status" -eq 0 ] && cmp -s "$work/expected" "$work/got"; then
    echo "parts: $((cases)) records agree with second (seed $seed)"
    exit 0
fi

# FILE AT COUNT: bytes of a file in hex
show() { tail -c +$(($2 + 1)) "$1" | head -c "$3" | od -A n -v -t x1 | tr -d '\n' | cut -c 2-600; }

wanted=$(($(wc -c <"$work/expected")))
wrote=$(($(wc -c <"$work/got")))
echo "parts: the program ended with status $status, and wrote $wrote bytes where second expects $wanted (seed $seed)"
[ "$wrote" -le "$wanted" ] || echo 'parts: there are bytes after the last record'
# the first byte that differs, or else the first that only one of the two has
at=$(cmp -l "$work/expected" "$work/got" 2>/dev/null | awk 'NR == 1 { print $1 - 1; exit }')
[ -n "$at" ] || at=$((wrote < wanted ? wrote : wanted))
line=$(awk -v at="$at" '$5 <= at && at < $5 + $6 { print; exit }' "$work/index")
[ -n "$line" ] || exit 1
set -- $line
echo "parts: $1 differs at its case $2 (seed $seed)"
echo "case:    $(show "$work/cases" "$3" "$4")"
echo "second:  $(show "$work/expected" "$5" "$6")"
echo "program: $(show "$work/got" "$5" "$6")"
exit 1
