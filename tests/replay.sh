#!/bin/sh
# The calls against the second interpreter: the stored cases of crates/replay are those that second makes, with the lines that it
# expects, and docs/REPLAY.md has their table; then the program of crates/replay runs fresh ones. SEED=n repeats a run.
set -eu
cd "$(dirname "$0")/.."
# tests that prove or build in this folder take turns
exec 8<crates.txt
flock 8
seed=${SEED:-$(date +%s)}
stored=crates/replay
count=4000

echo "replay: seed $seed"
second=$(tools/second)
work=$(mktemp -d)
trap 'rm -rf "$work"' EXIT
trap 'exit 1' HUP INT PIPE TERM
# what is proved and unchanged is not proved again
program=$(tools/made replay 2>"$work/out") || { cat "$work/out"; echo 'replay: the program is not proved'; exit 1; }

# ---- the stored cases: the program writes their lines; these, the bytes of the cases and their table are second's
tools/run-x86 "$program" <"$stored/stdin" >"$work/got" && cmp "$stored/stdout" "$work/got" || { echo 'replay: the program does not write what is stored'; exit 1; }
mkdir "$work/stored" "$work/fresh"
"$second" replay 1 "$work/stored"
cmp "$work/stored/cases" "$stored/stdin" || { echo "replay: $stored/stdin is not what 'second replay 1 DIR' makes"; exit 1; }
cmp "$work/stored/expected" "$stored/stdout" || { echo "replay: $stored/stdout is not what 'second replay 1 DIR' expects"; exit 1; }
grep '^|' docs/REPLAY.md >"$work/table" || :
diff "$work/stored/table" "$work/table" || { echo "replay: docs/REPLAY.md does not have the table of 'second replay 1 DIR'"; exit 1; }

# ---- fresh ones
"$second" replay "$seed" "$work/fresh" "$count"
status=0
tools/run-x86 "$program" <"$work/fresh/cases" >"$work/got" || status=$?
if [ "$status" -eq 0 ] && cmp -s "$work/fresh/expected" "$work/got"; then
    echo "replay: $(($(wc -l <"$stored/stdout"))) stored and $count fresh cases agree with second (seed $seed)"
    exit 0
fi
echo "replay: the program ended with status $status, and wrote $(($(wc -l <"$work/got"))) lines where second expects $count (seed $seed)"
awk 'NR == FNR { wanted[NR] = $0; next }
    $0 "" != wanted[FNR] "" { found = FNR; print "case:    " FNR; print "second:  " wanted[FNR]; print "program: " $0; exit }
    END { if (!found) print "replay: every line that the program wrote is right" }' "$work/fresh/expected" "$work/got"
echo "replay: 'SEED=$seed tests/replay.sh' repeats it"
exit 1
