# picture FILE OUT, picture [FILE] > OUT.pgm, or picture --out DIR FILE.. The program draws PGM files into a folder of ours beside the pictures. Each
# picture is moved to its name when it is whole.
. "$top/tools/reasons.sh"
budget=32768
# set: the file of the characters that are lent; empty for the built-in ones
set=
# to: the folder of --out. ending: png or pgm. out: the picture; empty for standard output. folder: where ours is made.
to=
ending=
out=
folder=
status=0
how='roadparsnip picture FILE OUT.png'
converters='pnmtopng python3 magick convert ffmpeg'
# as many files at a time, each a quarter of a megabyte as PGM
most=64

# ---- what is asked for
# N: a number of steps that a run takes.
take_budget() {
    budget=$1
    while [ "${budget#0?}" != "$budget" ]; do budget=${budget#0}; done
    case $budget in
    '' | *[!0-9]* | ????????*) budget=1000001 ;;
    esac
    [ "$budget" -le 1000000 ] || fail "the budget is a number of steps from 0 to 1000000, and '$1' is not."
}

# FILE: a set of characters. Its length is the run's to ask: 18.
take_set() {
    case $1 in
    -) fail 'a set of characters needs a name, and standard input has none.' ;;
    -*) set=./$1 ;;
    *) set=$1 ;;
    esac
}

# FILE: the name of its picture with --out.
name_picture() {
    out=${1##*/}
    out=$to/${out%.df}.$ending
}

# FILE..: with --out. No picture is written over a file that is read, and no two to one name.
take_folder() {
    [ $# -gt 0 ] || fail 'call it with the files to draw: roadparsnip picture --out DIR FILE..'
    for file; do
        case $file in
        -) fail 'with --out a file needs a name, and standard input has none.' ;;
        *.png | *.pgm) fail "$file has the name of a picture, and with --out a display file cannot have it." ;;
        esac
    done
    case $to in
    -*) to=./$to ;;
    esac
    ending=${ending:-png}
    twice=$(for file; do name_picture "$file" && printf '%s\n' "$out"; done | sort | uniq -d | head -n 1)
    [ -z "$twice" ] || fail "two of the files would be drawn to $twice."
    mkdir -p "$to" 2>/dev/null || fail "the folder $to cannot be made."
    folder=$to
}

# FILE OUT: a picture that can be made, with an ending that is known.
take_output() {
    case $2 in
    *.pgm) ending=pgm ;;
    *.png) ending=png ;;
    *) fail "the picture's name must end in .png or .pgm, and $2 does not." ;;
    esac
    [ ! -d "$2" ] || fail "$2 is a folder, not a picture to write."
    [ ! "$1" -ef "$2" ] || fail "$2 is the display file: give the picture another name."
    [ ! "$set" -ef "$2" ] || fail "$2 is the set of characters: give the picture another name."
    case $2 in
    -*) out=./$2 ;;
    *) out=$2 ;;
    esac
    folder=$(dirname "$out")
    [ -d "$folder" ] || fail "the folder of $2 does not exist."
}

# ---- from PGM to PNG
has_converter() {
    for tool in $converters; do
        if command -v "$tool" >/dev/null; then return; fi
    done
    return 1
}

# TOOL FROM TO: nothing of a picture that is not whole is left.
convert_by() {
    case $1 in
    pnmtopng) pnmtopng ;;
    python3) python3 "$top/tools/png.py" ;;
    ffmpeg) ffmpeg -loglevel error -f image2pipe -c:v pgm -i - -f image2pipe -c:v png - ;;
    *) "$1" pgm:- png:- ;;
    esac <"$2" >"$3" 2>/dev/null || : >"$3"
    [ -s "$3" ]
}

# N: picture N, by the first converter that does it.
to_png() {
    if [ -s "$room/$1.png" ]; then return; fi
    for tool in $converters; do
        if command -v "$tool" >/dev/null && convert_by "$tool" "$room/$1.pgm" "$room/$1.png"; then return; fi
    done
    return 1
}

# N: that picture, and every other one after it.
every_other() {
    n=$1
    while [ "$n" -le "$count" ]; do
        [ ! -e "$room/$n.pgm" ] || to_png "$n" || :
        n=$((n + 2))
    done
}

# All pictures: by python3 in one call, as it takes longer to start than to convert; else two at a time.
to_png_at_once() {
    if command -v python3 >/dev/null; then
        python3 "$top/tools/png.py" "$room"/*.pgm 2>/dev/null || :
    else
        every_other 2 &
        every_other 1
        wait
    fi
}

# ---- the pictures
# N: with a comma before each three figures.
grouped() {
    if [ "$1" -lt 1000 ]; then echo "$1"; else printf '%s,%03d\n' "$(grouped $(($1 / 1000)))" $(($1 % 1000)); fi
}

# The budget in words.
steps() {
    if [ "$budget" -eq 1 ]; then echo '1 step'; else echo "$(grouped "$budget") steps"; fi
}

# FILE ANSWER: says what there is to say, and tells whether there is a picture.
is_drawn() {
    case $2 in
    unread) unread "$1" ;;
    unwritten) say "${of}the picture could not be written in $folder." ;;
    0) say "${of}still running after $(steps); the picture is what was drawn so far." ;;
    1 | 2) ;;
    1?) say "${of}refused, $2: $(reason "$2"); nothing was drawn." ;;
    *) say "${of}refused, $2: $(reason "$2"); the picture is what was drawn before." ;;
    esac
    case $2 in
    unread | unwritten) return 1 ;;
    0 | 1 | 2) ;;
    *) [ "$status" -eq 2 ] || status=1 ;;
    esac
}

# N: picture N, to standard output or to its name.
place() {
    if [ "$ending" = png ] && ! to_png "$1"; then
        say "${of}the picture could not be written as a PNG; a PGM needs no converter."
        return 1
    fi
    if [ -z "$out" ]; then
        cat "$room/$1.pgm" 2>/dev/null || fail 'the picture could not be written.'
    elif [ -d "$out" ] || ! mv -f "$room/$1.$ending" "$out" 2>/dev/null; then
        say "${of}$out cannot be written."
        return 1
    fi
}

# COUNT FILE..: as many of the files.
draw() {
    count=$1
    shift
    pairs=
    n=0
    while [ "$n" -lt "$count" ]; do
        n=$((n + 1))
        pairs="$pairs \"\${$n}\" \"\$named/$n.pgm\""
    done
    eval "run_program \"\$budget\" \"\$set\" $pairs"
    if [ "$answers" = 'no set' ]; then
        unread "$set" 'set of characters'
        exit 2
    fi
    if [ "$ending" = png ] && [ "$count" -gt 1 ]; then to_png_at_once; fi
    n=0
    of=
    while IFS= read -r answer; do
        n=$((n + 1))
        eval "file=\${$n}"
        if [ -n "$to" ]; then
            name_picture "$file"
            of="$file: "
        fi
        is_drawn "$file" "$answer" && place "$n" || status=2
    done <<END
$answers
END
    rm -f "$room"/*
}

while :; do
    case ${1:-} in
    --budget=* | --set=* | --out=*)
        option=$1
        shift
        set -- "${option%%=*}" "${option#*=}" "$@"
        ;;
    --budget)
        [ $# -gt 1 ] || fail '--budget needs a number of steps after it.'
        take_budget "$2"
        shift 2
        ;;
    --set)
        [ -n "${2:-}" ] || fail '--set needs a file of characters after it.'
        take_set "$2"
        shift 2
        ;;
    --out)
        [ -n "${2:-}" ] || fail '--out needs a folder after it.'
        to=$2
        shift 2
        ;;
    --pgm)
        ending=pgm
        shift
        ;;
    --help | -h)
        show_page picture
        exit
        ;;
    --)
        shift
        break
        ;;
    -?*) fail "there is no option $1; 'roadparsnip help picture' lists all." ;;
    *) break ;;
    esac
done

if [ -n "$to" ]; then
    take_folder "$@"
else
    [ -z "$ending" ] || fail '--pgm goes with --out; of one file give the name OUT.pgm.'
    case $# in
    0 | 1)
        [ $# -eq 1 ] || [ ! -t 0 ] || fail "call it as $how, or as roadparsnip picture < FILE > OUT.pgm."
        [ ! -t 1 ] || fail "a picture is no text for a terminal: call it as $how, or as roadparsnip picture FILE > OUT.pgm."
        folder=${TMPDIR:-/tmp}
        [ $# -eq 1 ] || set -- -
        ;;
    2)
        take_output "$1" "$2"
        set -- "$1"
        ;;
    *) fail "call it with a display file and a picture to write, $how, or with --out DIR FILE.." ;;
    esac
fi
need_input "$@"
[ "$ending" != png ] || has_converter || fail 'there is no converter to PNG: install the package netpbm, or write a PGM.'

make_ready picture
room=$(mktemp -d "$folder/.picture.XXXXXX" 2>/dev/null) || fail "nothing can be written in $folder."
trap 'rm -rf "$room" ${links:+"$links"}' EXIT
trap 'exit 2' HUP INT PIPE TERM
# named: the same folder, by the name that the program is given
make_plain "$room"
named=$plain
while [ $# -gt 0 ]; do
    some=$(($# < most ? $# : most))
    draw "$some" "$@"
    shift "$some"
done
exit "$status"
