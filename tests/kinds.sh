#!/bin/sh
# Units are one kind and pixels another: a program that passes one for the other does not compile, and one function alone leads from units to pixels.
# A bare number has no kind, so that every function which makes a kind of one, or opens a kind, stands on a list here with its reason.
set -eu
cd "$(dirname "$0")/.."
work=$(mktemp -d)
trap 'rm -rf "$work"' EXIT
mkdir -p "$work/crates/kinds/src"
cp -r crates/whole crates/definition "$work/crates"
printf 'whole:\ndefinition: whole\nkinds: definition whole\n' >"$work/crates.txt"
git init -q "$work"

# BODY PARAMETER RESULT: whether the prover takes a function with this body, from this type to that.
takes() {
    cat >"$work/crates/kinds/src/lib.rt" <<-END
	use definition::Pixels;
	use definition::Units;
	fn same_units(u: Units) -> Units {
	    u
	}
	fn same_pixels(p: Pixels) -> Pixels {
	    p
	}
	pub fn tried(value: $2) -> $3 {
	    $1
	}
	END
    (cd "$work/crates/kinds" && rt check) >"$work/out" 2>&1
}

refused() {
    if takes "$1" "$2" "$3"; then
        echo "kinds: '$1' compiles, from $2 to $3"
        exit 1
    fi
    grep -q "error\[mismatched-types\]: expected \`$4\`, found \`$2\`" "$work/out" && return
    tail -n 5 "$work/out"
    echo "kinds: '$1', from $2 to $3, was refused for another reason"
    exit 1
}

takes 'same_units(value)' Units Units || { tail -n 5 "$work/out"; echo 'kinds: units do not pass for units'; exit 1; }
takes 'same_pixels(value)' Pixels Pixels || { tail -n 5 "$work/out"; echo 'kinds: pixels do not pass for pixels'; exit 1; }
refused 'value' Units Pixels Pixels
refused 'value' Pixels Units Units
refused 'same_pixels(value)' Units Pixels Pixels
refused 'same_units(value)' Pixels Units Units
refused 'same_pixels(value)' i32 Pixels Pixels
refused 'same_units(value)' i32 Units Units

# every function that is given units, and answers pixels: a method of a type too, and one whose head is on several lines
cat crates/*/src/*.rt | awk '
    /^impl/ { type = $0; sub(/ *[{].*/, "", type); sub(/^impl(<[^>]*>)? */, "", type); sub(/.* for /, "", type); sub(/<.*/, "", type) }
    /^[}]/ { type = "" }
    !head && /^ *(pub )?fn / { head = 1; text = "" }
    head { line = $0; gsub(/\[[^]]*\]/, "[]", line); text = text " " line }
    head && line ~ /[{;]/ {
        head = 0
        sub(/ (requires|ensures) .*/, "", text)
        gsub(/[^A-Za-z0-9_>-]self[^A-Za-z0-9_:]/, "&: " type " ", text)
        gsub(/(^|[^A-Za-z0-9_])Self([^A-Za-z0-9_]|$)/, " " type " ", text)
        given = answered = text
        sub(/ -> .*/, "", given)
        if (!sub(/.* -> /, "", answered)) answered = ""
        if (given ~ /[^A-Za-z0-9_]Units([^A-Za-z0-9_]|$)/ && answered ~ /(^|[^A-Za-z0-9_])Pixels?([^A-Za-z0-9_]|$)/) {
            sub(/^ *(pub )?fn /, "", text)
            sub(/[^a-z_0-9].*/, "", text)
            print text
        }
    }' >"$work/crossing"
crossing=$(tr '\n' ' ' <"$work/crossing")
[ "$crossing" = 'pixels_of pixel_at ' ] || { echo "kinds: from units to pixels lead: $crossing"; exit 1; }

# ---- bare numbers: which functions make units or pixels of one, or open either by .0, how often, and why. A method stands under its type
sed '/^#/d' >"$work/listed" <<'END'
# the halving, which alone opens the one kind and makes the other
units::pixels_of Pixels 1 opens 1
# units of the bits of a word, a move by its sign and a coordinate
units::move_of Units 1
words::coordinate Units 1
# units moved, and asked for their range; an index of a pixel
units::may_move opens 2
units::moved_by Units 1 opens 2
units::in_range opens 1
units::index_in opens 1
# pixels of a vector, of its two end pixels
vector::raised opens 1
vector::Axis::size opens 2
vector::Axis::by_one Pixels 1 opens 2
vector::Axis::rounded Pixels 1
# position (0, 0); the increment, which is in units
still::fresh Units 2
line::refused Units 2
items::increment_of Units 1
# the advance of a character, which is in units; the pixels of a cell, from its corner
letters::characters Units 1
letters::both Units 1
cells::further Pixels 1 opens 1
cells::is_aside opens 2
# a host's numbers: X and Y of its machine are units, those of the pixel that it reads are pixels
numbers::machine_of Units 2
numbers::HostMachine::from opens 2
host::roadparsnip_read_pixel Pixels 2
# X and Y of a machine, printed: units
text::size opens 1
text::text_of_line opens 2
# cases of second/, and what came out, as bytes: each number is of the kind that the case has there
parts::units_case Units 5 opens 4
parts::image_case Pixels 2
parts::word_case opens 2
parts::pixels_of Pixels 1
accounts::put_moved opens 1
accounts::item_account Units 6
accounts::moves opens 2
# document 01's edges: units where a machine stands or a unit is halved, pixels where one is read; what came out is printed
edges::machine_at Units 2
edges::halved Units 1 opens 1
edges::read Pixels 2
edges::short_vector opens 2
edges::graph opens 2
edges::far_right opens 1
edges::at_the_edge opens 2
END
for source in crates/*/src/*.rt; do
    crate=${source#crates/}
    awk -v crate="${crate%%/*}" '
        function counted(what, pattern,  text) { text = $0; count[what] += gsub(pattern, "", text) }
        function state(  row) {
            row = (count["Pixels"] ? " Pixels " count["Pixels"] : "") (count["Units"] ? " Units " count["Units"] : "") (count["opens"] ? " opens " count["opens"] : "")
            if (row != "") print crate "::" name row
            count["Pixels"] = count["Units"] = count["opens"] = 0
        }
        { sub(/\/\/.*/, ""); sub(/[)] -> .*/, "") }
        /^ *(pub )?(struct|ghost) / || /^ *(requires|ensures) / { next }
        /^impl/ { type = $0; sub(/ *[{].*/, "", type); sub(/^impl(<[^>]*>)? */, "", type); sub(/.* for /, "", type); sub(/<.*/, "", type); next }
        /^[}]/ { type = "" }
        match($0, /^ *(pub )?(extern "C" )?fn [a-z_0-9]+/) { state(); name = substr($0, 1, RLENGTH); sub(/.* /, "", name); if (type != "") name = type "::" name }
        { counted("Pixels", "(^|[^A-Za-z0-9_])Pixels *[({]"); counted("Units", "(^|[^A-Za-z0-9_])Units *[({]") }
        { counted("opens", "([A-Za-z_][A-Za-z0-9_]*|[])])[.]0([^0-9]|$)") }
        # under another name, or as a function that is handed on, it would not be seen
        /(Units|Pixels) as / || /type .*(Units|Pixels);/ || ((type == "Units" || type == "Pixels") && /Self *[({]/) { print crate "::" name " has another name for a kind: " $0 }
        /[(](Units|Pixels) *[),]/ || /[(][^:]*, *(Units|Pixels) *[),]/ { print crate "::" name " hands a kind on as a function: " $0 }
        END { state() }' "$source"
done | sort >"$work/found"
sort "$work/listed" | diff - "$work/found" >"$work/out" || {
    echo 'kinds: functions that make units or pixels of bare numbers, or open them, and how often: < as listed in tests/kinds.sh, > as they are'
    grep '^[<>]' "$work/out"
    exit 1
}
echo "kinds: four programs that mix units and pixels, and two that pass a bare number for one, do not compile; pixels_of alone leads from units to pixels; $(($(wc -l <"$work/found"))) functions make a kind of a bare number or open one, each for its reason"
