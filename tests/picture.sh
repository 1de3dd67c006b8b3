#!/bin/sh
# The command picture against the second interpreter, on the examples and on random files, at several budgets; the three pictures of docs/; and as it is
# called: to a file, to standard output, to a folder, with something wrong. SEED=n repeats a run.
set -eu
cd "$(dirname "$0")/.."
# tests that prove or build in this folder take turns
exec 8<crates.txt
flock 8
top=$PWD
seed=${SEED:-$(date +%s)}
# the first 42 files of a seed are the same for each: sizes about those that are taken
count=90

echo "picture: seed $seed"
second=$(tools/second)
work=$(mktemp -d)
trap 'rm -rf "$work"' EXIT
trap 'exit 1' HUP INT PIPE TERM
# from here on the command has nothing to build, and says nothing of it
tools/made picture >/dev/null 2>"$work/log" || { cat "$work/log"; echo 'picture: the program is not proved'; exit 1; }

fail() {
    echo "picture: $1 (seed $seed)"
    exit 1
}

# BUDGET FOLDER FILE..: by picture, into the folder, as second draws them; what picture says is in $work/error
drawn() {
    budget=$1
    folder=$2
    shift 2
    status=0
    ./roadparsnip picture --pgm --budget "$budget" --out "$folder" "$@" >"$work/said" 2>"$work/error" || status=$?
    [ "$status" -eq 1 ] && [ ! -s "$work/said" ] || fail "of $# files, some of them refused, the status is $status: $(tail -n 1 "$work/error")"
    for file; do
        "$second" picture "$budget" <"$file" >"$work/wanted"
        got=$folder/$(basename "$file" .df).pgm
        cmp -s "$work/wanted" "$got" && continue
        cp "$file" target/picture-differs.df
        fail "$file is drawn differently by second, at $budget steps: $(cmp "$work/wanted" "$got" 2>&1); target/picture-differs.df is a copy of it"
    done
}

# FILE ANSWER BUDGET: the line on standard error, or nothing, where a file has that answer
sentence() {
    case $2 in
    0) echo "picture: $1: still running after $3 steps; the picture is what was drawn so far." ;;
    1 | 2) ;;
    1?) echo "picture: $1: refused, $2: [a-z0-9].*; nothing was drawn\." ;;
    *) echo "picture: $1: refused, $2: [a-zX].*; the picture is what was drawn before\." ;;
    esac
}

# ---- the examples, whose lines have their answers at 1,000 steps: none of them runs longer but bootstrap, which never ends
for steps in 32,768 1,000 3; do
    drawn "$(echo "$steps" | tr -d ,)" "$work/examples" examples/*.df
    [ "$steps" != 3 ] || continue
    for line in examples/*.line; do
        read -r answer rest <"$line"
        sentence "${line%.line}.df" "$answer" "$steps"
    done >"$work/sentences"
    [ "$(wc -l <"$work/sentences")" -eq "$(wc -l <"$work/error")" ] || fail "of the examples picture says: $(cat "$work/error")"
    while IFS= read -r line; do
        grep -qx -e "$line" "$work/error" || fail "of the examples picture does not say '$line', but: $(cat "$work/error")"
    done <"$work/sentences"
done
cmp -s "$work/examples/weeks.pgm" "$work/examples/listed.pgm" && fail 'the pictures of two examples are the same'

# ---- random files, at random budgets
mkdir "$work/files"
"$second" files "$seed" "$count" "$work/files"
for steps in 32768 $((seed % 40)) $((seed % 1000001)); do
    drawn "$steps" "$work/drawn" "$work"/files/*.df
    [ "$steps" != 32768 ] || {
        head -c 262144 /dev/zero >"$work/blank"
        lit=0
        for picture in "$work"/drawn/*.pgm; do
            tail -c 262144 "$picture" | cmp -s - "$work/blank" || lit=$((lit + 1))
        done
        [ "$lit" -gt 10 ] || fail "only $lit of $count random files draw anything"
    }
done

# ---- the fault: the marks of the weeks, of value 3 within the axes, stand 8 columns further right, and no other pixel does: no number, no line
"$second" picture <examples/weeks.df >"$work/right"
"$second" fault <examples/weeks.df >"$work/late"
# PICTURE: the column, the row from the top and the value of each pixel that is not 0
pixels() {
    tail -c 262144 "$1" | od -A n -v -t u1 | awk '{ for (i = 1; i <= NF; i++) { if ($i) print at % 512, int(at / 512), $i; at++ } }'
}
pixels "$work/right" >"$work/right.pixels"
pixels "$work/late" >"$work/late.pixels"
shifted=$(awk '
    { mark = $3 == 3 && $1 >= 46 && $2 < 464 }
    FNR == NR && mark { marks++; right[$1 + 8, $2]; left[$1, $2]; next }
    FNR == NR { other[$1, $2] = $3; next }
    mark { late++; if (!(($1, $2) in right)) wrong++; if (($1, $2) in other) hidden++; next }
    (($1, $2) in other) { same++; if (other[$1, $2] != $3) wrong++; next }
    !(($1, $2) in left) { wrong++ }
    END { for (place in other) others++; print marks, late, wrong + 0, others - hidden - same }' "$work/right.pixels" "$work/late.pixels")
[ "$shifted" = '468 468 0 0' ] ||
    fail "with the fault, marks, marks moved, pixels that are wrong and pixels that are missing are $shifted, not 468 468 0 0"

# ---- the pictures of docs/
# PNG: as a PGM again
back() {
    if command -v pngtopnm >/dev/null; then
        pngtopnm "$1" 2>/dev/null
        return
    fi
    python3 - "$1" <<'END'
import struct, sys, zlib

data = open(sys.argv[1], "rb").read()
at, packed = 8, b""
while at < len(data):
    size, kind = struct.unpack(">I4s", data[at : at + 8])
    body = data[at + 8 : at + 8 + size]
    assert kind != b"IHDR" or body == struct.pack(">IIBBBBB", 512, 512, 2, 0, 0, 0, 0)
    packed += body if kind == b"IDAT" else b""
    at += size + 12
rows = zlib.decompress(packed)
assert len(rows) == 512 * 129 and not any(rows[::129])
pixels = bytes(rows[129 * y + 1 + x // 4] >> 6 - x % 4 * 2 & 3 for y in range(512) for x in range(512))
sys.stdout.buffer.write(b"P5\n512 512\n3\n" + pixels)
END
}
readable=no
if command -v pngtopnm >/dev/null || command -v python3 >/dev/null; then readable=yes; fi
"$second" picture <examples/letters.df >"$work/letters"
for pair in 'weeks right' 'weeks-fault late' 'letters letters'; do
    png=docs/${pair% *}.png
    [ "$(wc -c <"$png")" -le 51200 ] || fail "$png has more than 50 KB"
    if [ "$readable" = no ]; then
        echo "picture: $png was not compared, as there is no pngtopnm and no python3"
    else
        back "$png" | cmp -s - "$work/${pair#* }" || fail "$png is not the picture that second draws"
    fi
done

# ---- the command: STATUS SENTENCES COMMAND.., where the sentences are all that is said, and only status 2 has no picture
is() {
    status=$1
    sentences=$2
    shift 2
    got=0
    "$@" >"$work/said" 2>"$work/error" || got=$?
    [ "$got" -eq "$status" ] || fail "'$*' ends with status $got, not $status: $(cat "$work/error")"
    [ "$(sed 's/^picture: //' "$work/error")" = "$sentences" ] || fail "'$*' says '$(cat "$work/error")', not '$sentences'"
    [ "$status" -ne 2 ] || [ ! -s "$work/said" ] || fail "'$*' writes to standard output"
}
# FILE EXAMPLE [BUDGET [SET]]: the picture of it
shows() {
    "$second" picture ${3:-} ${4:+"$4"} <"examples/$2.df" | cmp -s - "$1" || fail "$1 is not the picture of $2"
    rm "$1"
}
picture() { ./roadparsnip picture "$@"; }
ln -s "$top/roadparsnip" "$work/link"
cp examples/weeks.df "$work/a file.df"
mkdir "$work/out"
out=$work/out/out.pgm
is 0 '' picture examples/weeks.df "$work/out/a picture.pgm"
shows "$work/out/a picture.pgm" weeks
is 0 '' picture examples/weeks.df
shows "$work/said" weeks
is 0 '' sh -c './roadparsnip picture <examples/weeks.df'
shows "$work/said" weeks
is 0 '' sh -c 'cat examples/weeks.df | ./roadparsnip picture'
shows "$work/said" weeks
is 0 '' picture - "$out" <examples/weeks.df
shows "$out" weeks
is 0 '' sh -c 'cd "$0" && ./link picture "a file.df" -out.pgm' "$work"
shows "$work/-out.pgm" weeks
is 0 'still running after 32,768 steps; the picture is what was drawn so far.' picture examples/bootstrap.df "$out"
shows "$out" bootstrap
is 1 'refused, 27: X or Y would go below -4,096 or above 4,095; the picture is what was drawn before.' picture examples/refused-27-range.df "$out"
shows "$out" refused-27-range
is 1 'refused, 13: the tag, which is the first word, is not 1; nothing was drawn.' picture examples/refused-13-tag.df
shows "$work/said" refused-13-tag

# ---- a budget
is 0 'still running after 1,000,000 steps; the picture is what was drawn so far.' picture --budget 1000000 examples/bootstrap.df "$out"
shows "$out" bootstrap 1000000
is 0 'still running after 40 steps; the picture is what was drawn so far.' picture --budget=040 examples/weeks.df "$out"
shows "$out" weeks 40
is 0 'still running after 1 step; the picture is what was drawn so far.' picture --budget 1 examples/weeks.df "$out"
shows "$out" weeks 1
is 0 'still running after 0 steps; the picture is what was drawn so far.' picture --budget 0 examples/weeks.df "$out"
shows "$out" weeks 0
for wrong in 1000001 99999999999999999999 '' -1 1,000 1e3 0x10 ' 5'; do
    is 2 "the budget is a number of steps from 0 to 1000000, and '$wrong' is not." picture --budget "$wrong" examples/weeks.df "$out"
done
is 2 '--budget needs a number of steps after it.' picture --budget

# ---- a set of characters: every cell turned upside down; none; of other lengths; and what is no set
"$second" set | od -A n -v -t o1 -w8 | awk '{ for (i = 8; i > 0; i--) printf "\\%s", $i }' >"$work/octal"
printf "$(cat "$work/octal")" >"$work/a set"
[ "$(wc -c <"$work/a set")" -eq 760 ] || fail 'the set that was made does not have 760 bytes'
is 0 '' picture --set "$work/a set" examples/letters.df "$out"
cmp -s "$work/letters" "$out" && fail 'with a lent set the picture is the same'
shows "$out" letters 32768 "$work/a set"
is 0 'still running after 9 steps; the picture is what was drawn so far.' picture --budget 9 --set="$work/a set" examples/letters.df "$out"
shows "$out" letters 9 "$work/a set"
is 0 '' picture --pgm --set "$work/a set" --out "$work/out" examples/letters.df examples/feed-me.df
shows "$work/out/letters.pgm" letters 32768 "$work/a set"
shows "$work/out/feed-me.pgm" feed-me 32768 "$work/a set"
: >"$work/empty set"
is 0 '' picture --set "$work/empty set" examples/letters.df "$out"
shows "$out" letters
for size in 1 759 761 1000; do
    { cat "$work/a set" && head -c 240 /dev/zero; } | head -c "$size" >"$work/wrong set"
    is 1 'refused, 18: the set of characters does not have 760 bytes; nothing was drawn.' picture --set "$work/wrong set" examples/letters.df "$out"
    shows "$out" letters 32768 "$work/wrong set"
done
is 2 'there is no file none.set.' picture --set none.set examples/letters.df "$out"
is 2 'examples is a folder, not a set of characters.' picture --set examples examples/letters.df "$out"
is 2 'a set of characters needs a name, and standard input has none.' picture --set - examples/letters.df "$out"
is 2 '--set needs a file of characters after it.' picture --set
cp "$work/a set" "$work/set.pgm"
is 2 "$work/set.pgm is the set of characters: give the picture another name." picture --set "$work/set.pgm" examples/letters.df "$work/set.pgm"
cmp -s "$work/a set" "$work/set.pgm" || fail 'a set of characters was written over'

# ---- many files to a folder, which is made: what cannot be read is left out, and the rest is drawn
many="$work/many/of them"
cp examples/weeks.df "$work/no ending"
is 0 '' picture --pgm --out "$many" "$work/a file.df" "$work/no ending" examples/listed.df
shows "$many/a file.pgm" weeks
shows "$many/no ending.pgm" weeks
shows "$many/listed.pgm" listed
is 1 'examples/refused-13-tag.df: refused, 13: the tag, which is the first word, is not 1; nothing was drawn.
examples/bootstrap.df: still running after 7 steps; the picture is what was drawn so far.' picture --budget 7 --pgm --out="$many" examples/refused-13-tag.df examples/bootstrap.df
shows "$many/refused-13-tag.pgm" refused-13-tag
shows "$many/bootstrap.pgm" bootstrap 7
mkdir "$many/listed.pgm"
is 2 "there is no file none.df.
examples/refused-13-tag.df: refused, 13: the tag, which is the first word, is not 1; nothing was drawn.
examples is a folder, not a display file.
examples/listed.df: $many/listed.pgm cannot be written." picture --pgm --out "$many" none.df examples/refused-13-tag.df examples examples/listed.df examples/weeks.df
rmdir "$many/listed.pgm"
shows "$many/refused-13-tag.pgm" refused-13-tag
shows "$many/weeks.pgm" weeks
# more than are drawn at a time
mkdir "$work/copies"
n=0
while [ "$n" -lt 130 ]; do
    n=$((n + 1))
    cp examples/listed.df "$work/copies/$n.df"
done
cp examples/weeks.df "$work/copies/65.df"
is 0 '' picture --pgm --out "$many" "$work"/copies/*.df
[ "$(ls -A "$many" | wc -l)" -eq 130 ] || fail "of 130 files there are $(ls -A "$many" | wc -l) pictures"
shows "$many/65.pgm" weeks
for picture_of in "$many"/*.pgm; do shows "$picture_of" listed; done
is 2 "two of the files would be drawn to $many/weeks.pgm." picture --pgm --out "$many" examples/weeks.df examples/listed.df "$work/../weeks.df"
is 2 'with --out a file needs a name, and standard input has none.' picture --out "$many" examples/weeks.df -
is 2 'docs/weeks.png has the name of a picture, and with --out a display file cannot have it.' picture --out "$many" examples/weeks.df docs/weeks.png
is 2 'call it with the files to draw: roadparsnip picture --out DIR FILE..' picture --out "$many"
is 2 '--out needs a folder after it.' picture --out
is 2 "the folder $work/link/folder cannot be made." picture --pgm --out "$work/link/folder" examples/weeks.df
is 2 '--pgm goes with --out; of one file give the name OUT.pgm.' picture --pgm examples/weeks.df
[ -z "$(ls -A "$many")" ] || fail "in the folder of pictures there is $(ls -A "$many")"
# ---- names of any bytes, here of Latin-1: of a file, of a set and of the folder of a picture
odd=$(printf "$work/sp\344t")
mkdir "$odd"
cp "$work/a set" "$odd/set"
cp examples/letters.df "$odd/letters.df"
is 0 '' picture --set "$odd/set" "$odd/letters.df" "$odd/letters.pgm"
shows "$odd/letters.pgm" letters 32768 "$work/a set"
is 0 '' picture --pgm --out "$odd/many" "$odd/letters.df" examples/weeks.df
shows "$odd/many/letters.pgm" letters
shows "$odd/many/weeks.pgm" weeks
[ -z "$(ls -A "$odd/many")" ] || fail 'another file was left in the folder of pictures'
[ -z "$(find "${TMPDIR:-/tmp}" -maxdepth 1 -name 'roadparsnip.*' -newer "$odd/set" 2>/dev/null)" ] || fail 'a folder of links was left'

# ---- what is wrong
how='roadparsnip picture FILE OUT.png'
is 2 'there is no file none.df.' picture none.df "$out"
is 2 'examples is a folder, not a display file.' picture examples "$out"
is 2 "call it with a display file and a picture to write, $how, or with --out DIR FILE.." picture examples/weeks.df "$out" more
is 2 "there is no option --bugdet; 'roadparsnip help picture' lists all." picture --bugdet 5 examples/weeks.df "$out"
is 2 'standard input is a folder, not a display file.' sh -c './roadparsnip picture <examples'
is 2 'standard input is closed.' sh -c './roadparsnip picture <&-'
is 2 'the picture could not be written.' sh -c './roadparsnip picture examples/weeks.df >/dev/full'
is 2 'the picture could not be written.' sh -c './roadparsnip picture examples/weeks.df >&-'
is 2 "the folder of $work/none/out.pgm does not exist." picture examples/weeks.df "$work/none/out.pgm"
mkdir "$work/out/folder.pgm"
is 2 "$work/out/folder.pgm is a folder, not a picture to write." picture examples/weeks.df "$work/out/folder.pgm"
rmdir "$work/out/folder.pgm"
is 2 "the picture's name must end in .png or .pgm, and $work/out/out.gif does not." picture examples/weeks.df "$work/out/out.gif"
is 2 "the picture could not be written in $work/out." sh -c 'trap "" XFSZ && ulimit -f 100 && ./roadparsnip picture examples/weeks.df "$0"' "$out"
cp examples/weeks.df "$work/named.pgm"
ln "$work/named.pgm" "$work/other.pgm"
is 2 "$work/other.pgm is the display file: give the picture another name." picture "$work/named.pgm" "$work/other.pgm"
cmp -s examples/weeks.df "$work/named.pgm" || fail 'a display file was written over'
[ -z "$(ls -A "$work/out")" ] || fail "where the command fails it leaves $(ls -A "$work/out")"
chmod 0 "$work/a file.df"
if [ ! -r "$work/a file.df" ]; then
    is 2 "$work/a file.df cannot be read." picture "$work/a file.df" "$out"
    chmod 500 "$work/out"
    is 2 "nothing can be written in $work/out." picture examples/weeks.df "$out"
    chmod 700 "$work/out"
fi
if script -qec true /dev/null </dev/null >/dev/null 2>&1; then
    got=0
    script -qec './roadparsnip picture examples/weeks.df' /dev/null </dev/null >"$work/said" || got=$?
    [ "$got" -eq 2 ] && grep -q "^picture: a picture is no text for a terminal: call it as $how, or" "$work/said" ||
        fail "on a terminal the command ends with status $got and says '$(head -c 200 "$work/said")'"
else
    echo 'picture: no terminal can be made here, so the command was not called on one'
fi

# ---- a PNG: by what is at hand; by python3 alone; and by nothing
mkdir "$work/few"
for tool in sh cat awk find head tail wc mkdir mktemp mv rm rmdir chmod touch dirname readlink uname grep sort uniq rt; do
    ln -s "$(command -v "$tool")" "$work/few/$tool"
done
few() { PATH=$work/few ./roadparsnip picture "$@"; }
png=$work/out/out.png
is 2 'there is no converter to PNG: install the package netpbm, or write a PGM.' few examples/weeks.df "$png"
printf '#!/bin/sh\necho half a picture\nexit 1\n' >"$work/few/convert"
chmod +x "$work/few/convert"
no='the picture could not be written as a PNG; a PGM needs no converter.'
is 2 "$no" few examples/weeks.df "$png"
is 2 "examples/weeks.df: $no
there is no file none.df.
examples/listed.df: $no" few --out "$work/out" examples/weeks.df none.df examples/listed.df
[ -z "$(ls -A "$work/out")" ] || fail "where no converter works the command leaves $(ls -A "$work/out")"
if python=$(python3 -c 'import sys; print(sys.executable)' 2>/dev/null); then
    ln -s "$python" "$work/few/python3"
    is 0 '' few examples/weeks.df "$png"
    back "$png" | cmp -s - "$work/right" || fail 'the PNG that python3 makes is not the picture'
    rm "$png"
    is 0 '' few --out "$many" examples/weeks.df "$work/no ending"
    back "$many/weeks.png" | cmp -s - "$work/right" && back "$many/no ending.png" | cmp -s - "$work/right" || fail 'the PNGs that python3 makes at once are not the pictures'
fi
if pnmtopng=$(command -v pnmtopng); then
    rm -f "$work/few/python3"
    ln -s "$pnmtopng" "$work/few/pnmtopng"
    is 0 '' few --out "$many" examples/listed.df examples/weeks.df "$work/no ending"
    back "$many/weeks.png" | cmp -s - "$work/right" && back "$many/no ending.png" | cmp -s - "$work/right" || fail 'the PNGs that pnmtopng makes are not the pictures'
fi
if command -v pnmtopng >/dev/null || command -v python3 >/dev/null; then
    is 0 '' picture examples/weeks.df "$png"
    [ "$(head -c 8 "$png" | od -A n -t x1 | tr -d ' ')" = 89504e470d0a1a0a ] || fail 'what the command writes to OUT.png is no PNG'
fi
echo "picture: $(ls examples/*.df | wc -l) examples and $count random files, $lit of them not blank, agree with second (seed $seed)"
echo 'picture: docs/ shows the fault as second draws it, and the command says what is wrong'
