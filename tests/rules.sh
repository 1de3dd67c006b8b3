#!/bin/sh
# Twelve wrong rules, each in a copy of the definition: a worked example must refuse it. SEED=n repeats a run; tests/wrong_rules.py tries all of them.
set -eu
cd "$(dirname "$0")/.."
seed=${SEED:-$(date +%s)}

echo "rules: seed $seed"
work=$(mktemp -d)
trap 'rm -rf "$work"' EXIT
trap 'exit 1' HUP INT PIPE TERM
# where the copy is made
export TMPDIR="$work"
python3 tests/wrong_rules.py --some 12 --seed "$seed" || { echo "rules: 'SEED=$seed tests/rules.sh' repeats it"; exit 1; }
