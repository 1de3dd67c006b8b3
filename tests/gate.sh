#!/bin/sh
# ./test itself: it passes where all passes, and fails for a failing test, a failing prover, a prover that prints no count, and must-fail edits that could
# not be tried. It calls the prover once, as `rt ci`, at the top, with everything as it was. The programs that a prover built serve the tests.
set -eu
cd "$(dirname "$0")/.."
work=$(mktemp -d)
trap 'rm -rf "$work"' EXIT
tree=$work/tree
mkdir -p "$work/bin" "$tree/tests" "$tree/tools" "$tree/crates/one/src" "$tree/crates/two/src"
cp test "$tree/test"
cp tools/program.sh "$tree/tools/program.sh"
: >"$tree/crates/one/src/main.rt"
: >"$tree/crates/two/src/lib.rt"
# Beside the test that is tried stands one that passes, and ends later.
echo 'sleep 0.2' >"$tree/tests/two.sh"

fail() {
    echo "gate: with the prover '$1' and the test '$2': $3"
    exit 1
}

# PROVER TEST LINE STATUS: with these commands for a prover and for a test, ./test ends with this line and status.
try() {
    rm -rf "$tree/target" "$tree/crates/one/out"
    printf '%s\n' "$2" >"$tree/tests/one.sh"
    (cd "$tree" && find . | sort) >"$work/before"
    : >"$work/calls"
    cat >"$work/bin/rt" <<END
#!/bin/sh
echo "\$*" >>"$work/calls"
find . | sort >"$work/seen"
mkdir -p crates/one/out
cp /bin/true crates/one/out/one
$1
END
    chmod +x "$work/bin/rt"
    status=0
    (cd / && PATH="$work/bin:$PATH" "$tree/test") >"$work/out" 2>&1 || status=$?
    line=$(tail -n 1 "$work/out")
    [ "$line" = "$3" ] && [ "$status" -eq "$4" ] || fail "$1" "$2" "got '$line' and status $status, not '$3' and status $4"
    [ "$(cat "$work/calls")" = ci ] || fail "$1" "$2" "rt was called as $(cat "$work/calls")"
    cmp -s "$work/before" "$work/seen" || fail "$1" "$2" 'rt found other files than there were'
}

try "echo '7 passed, 0 failed'" 'exit 0' '9 passed, 0 failed' 0
[ -x "$tree/target/bin/one" ] || { echo 'gate: a program that was proved and built does not serve the tests'; exit 1; }
try "echo '7 passed, 0 failed'" 'exit 1' '8 passed, 1 failed' 1
try "echo '6 passed, 1 failed'; exit 1" 'exit 0' '8 passed, 1 failed' 1
[ ! -e "$tree/target/bin/one" ] || { echo 'gate: a program serves the tests, and the prover failed'; exit 1; }
try "echo '7 passed, 0 failed'; exit 1" 'exit 0' '9 passed, 1 failed' 1
try "exit 0" 'exit 0' '2 passed, 1 failed' 1
try "echo '7 passed, 0 failed'; echo more" 'exit 0' '2 passed, 1 failed' 1
try "echo '0 passed, 0 failed?'; exit 2" 'exit 1' '1 passed, 2 failed' 1

# edits: EDITS LINE STATUS
edits() {
    try "echo 'rt: ok; handles allowed: none; must-fail edits: $1; every proof and must-fail edit was done in this run'; echo '7 passed, 0 failed'" 'exit 0' "$2" "$3"
}
edits '245 refused' '9 passed, 0 failed' 0
edits '245 refused, 3 of them only by a limit' '9 passed, 0 failed' 0
edits '245 refused, 0 bad' '9 passed, 0 failed' 0
edits '244 refused, 1 bad' '9 passed, 1 failed' 1
edits '233 refused, 3 of them only by a limit, 12 bad' '9 passed, 12 failed' 1
edits '0 refused, 20 bad' '9 passed, 20 failed' 1
