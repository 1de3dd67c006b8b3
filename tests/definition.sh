#!/bin/sh
# The definition against the second interpreter: random display files, for each of which the prover computes by the definition
# the line of `plot` and the list of the pixels that are stored, in the order of the stores. Both are those that second prints.
# SEED=n repeats a run.
set -eu
cd "$(dirname "$0")/.."
seed=${SEED:-$(date +%s)}
count=250
# One statement for many files, since the prover then computes once what they share; a statement for all would take too much memory.
group=25

echo "definition: seed $seed"
second=$(tools/second)
work=$(mktemp -d)
trap 'rm -rf "$work"' EXIT
trap 'exit 1' HUP INT PIPE TERM
"$second" cases "$seed" "$count" >"$work/cases"
[ "$(wc -l <"$work/cases")" -eq "$count" ] || { echo "definition: second did not print $count files"; exit 1; }

# A repository of its own. Of the definition's proofs only the one that opens the rules: where a rule is changed the
# others fail before any file is compared, and they are checked with the crate itself.
mkdir -p "$work/crates/definition/proofs" "$work/crates/agree/src" "$work/crates/agree/proofs"
cp -R crates/whole "$work/crates/whole"
cp -R crates/definition/src crates/definition/specs "$work/crates/definition"
cp crates/definition/proofs/Opened.antt "$work/crates/definition/proofs/Opened.antt"
rm -rf "$work/crates/whole/must-fail" "$work/crates/whole/out"
echo 'pub mod Opened' >"$work/crates/definition/proofs/Lib.antt"
printf 'pub mod Seen\npub mod Files\n' >"$work/crates/agree/proofs/Lib.antt"
echo '// What second prints for random files, in proofs/. No code.' >"$work/crates/agree/src/lib.rt"
grep -E '^(whole|definition):' crates.txt >"$work/crates.txt"
echo 'agree: definition whole' >>"$work/crates.txt"
git init -q "$work"

# What is compared. The stores are listed step by step, since a run keeps no list of them.
cat >"$work/crates/agree/proofs/Seen.antt" <<'END'
use Rattle.std.proofs.Common.{ℕ, zero, suc, List, [], ◌∷◌, ◌++◌, eqb, ℤ, pos}
use Rattle.definition.specs.Choice.{pick, first_of}
use Rattle.definition.specs.Units.{pixel}
use Rattle.definition.specs.Image.{blank}
use Rattle.definition.specs.Machine.{fresh}
use Rattle.definition.specs.Step.{Given, step}
use Rattle.definition.specs.Calls.{plain, given, run_doors}
use Rattle.definition.specs.Plot.{words_in, input_doors, plot_budget, plot_line}
use Rattle.definition.specs.declared.Pixel.{Pixel}
use Rattle.definition.specs.declared.Machine.{Machine}

unfoldable pub stored : Given → ℕ → Machine → List Pixel
stored g zero m = []
stored g (suc budget) m =
    let t = step g m in
    let now = t.pixels ++ stored g budget t.machine in
    pick (eqb m.status 0) now []

pub data Seen : Type 0 where
  seen : List ℤ → List Pixel → Seen

-- a file that is refused at a door stores nothing
unfoldable pub seen_of : List ℕ → Seen
seen_of bytes =
    let door = first_of (input_doors bytes ++ run_doors (plain (words_in bytes)) fresh blank plot_budget) in
    let drawn = stored (given (plain (words_in bytes))) plot_budget fresh in
    seen (plot_line bytes) (pick (eqb door 0) drawn [])

abbrev pub at : ℕ → ℕ → Pixel
at x y = pixel (pos x) (pos y)
END

# FIRST LAST SIZE: states these cases, SIZE of them to a statement, which has the number of its first case; then proves them.
agree() {
    awk -v first="$1" -v last="$2" -v size="$3" '
        function whole(n) { return n < 0 ? "negsuc " (-n - 1) : "pos " n }
        function state() {
            # print, since printf has a limit in some awks
            if (left != "") print "\npub files" from " : (" left "[]) ≡ " right "[]\nunfolding rules built_in stored seen_of\nfiles" from " = refl"
            left = right = ""
        }
        BEGIN {
            print "use Rattle.std.proofs.Common.{[], ◌∷◌, ◌≡◌, refl, pos, negsuc}"
            print "use Rattle.definition.specs.BuiltIn.{built_in}"
            print "use Rattle.definition.proofs.Opened.{rules}"
            print "use Rattle.agree.proofs.Seen.{seen_of, stored, at}"
            print "use Rattle.agree.proofs.Seen.Seen.{seen}"
        }
        NR < first || NR > last { next }
        {
            if (left == "") from = NR
            bytes = line = pixels = ""
            if ($1 != "-") for (i = 1; i < length($1); i += 2) bytes = bytes "0x" substr($1, i, 2) " ∷ "
            for (i = 2; i <= 8; i++) line = line whole($i) " ∷ "
            for (i = 9; i <= NF; i++) {
                split($i, xy, ",")
                pixels = pixels "at " xy[1] " " xy[2] " ∷ "
            }
            left = left "seen_of (" bytes "[]) ∷ "
            right = right "seen (" line "[]) (" pixels "[]) ∷ "
        }
        (NR - first + 1) % size == 0 { state() }
        END { state() }' "$work/cases" >"$work/crates/agree/proofs/Files.antt" || return 2
    (cd "$work/crates/agree" && rt check) >"$work/out" 2>&1 && grep -q '^logic=proved ' "$work/out"
}

# The number of the first statement that was refused, if any was.
refused() { sed -n 's/.*Files\.antt:[0-9:]* error: `files\([0-9][0-9]*\)`.*/\1/p' "$work/out" | sort -n | head -n 1; }

if agree 1 "$count" "$group"; then
    stores=$(awk '{ stores += $5 } END { print stores + 0 }' "$work/cases")
    echo "definition: $count random files agree with second, in their lines and in $stores stores one after the other (seed $seed)"
    exit 0
fi
first=$(refused)
if [ -n "$first" ] && ! agree "$first" $((first + group - 1)) 1; then
    first=$(refused)
fi
if [ -z "$first" ]; then
    grep -v '^statements ' "$work/out" | tail -n 20
    echo "definition: the prover compared nothing (seed $seed)"
    exit 1
fi
echo "definition: file $first differs (seed $seed); its bytes, and what second says:"
sed -n "${first}p" "$work/cases"
exit 1
