#!/bin/sh
# The built-in characters: docs/CHARACTERS.md lists 95 cells, each as a picture and as bytes that are the same; the processor's set and that of the second
# interpreter are those bytes; and the cells are fit to be read: no two characters in a line touch, and digits differ in at least eight pixels.
set -eu
cd "$(dirname "$0")/.."
second=$(tools/second)
work=$(mktemp -d)
trap 'rm -rf "$work"' EXIT
"$second" set >"$work/second"
python3 - "$work/second" <<'END'
import re
import sys

page = open("docs/CHARACTERS.md").read()
lines = page.split("```text\n")[1].split("\n```")[0].split("\n")
cells = {}
# a head, eight rows, an empty line; five cells a line, of fifteen columns each
for at in range(0, len(lines), 10):
    for column in range(0, 75, 15):
        code, name = lines[at][column : column + 11].split()
        code = int(code)
        if code in cells or name != ("space" if code == 32 else chr(code)):
            sys.exit(f"characters: the page names {name} as code {code}")
        cells[code] = [lines[at + 1 + row][column : column + 11].split() for row in range(8)]
if sorted(cells) != list(range(32, 127)):
    sys.exit("characters: the page does not list the codes 32 to 126")
for code, rows in cells.items():
    for picture, byte in rows:
        if not re.fullmatch("[#.]{8}", picture) or int(picture.replace("#", "1").replace(".", "0"), 2) != int(byte, 16):
            sys.exit(f"characters: of code {code} the page shows {picture}, and {byte} beside it")

page = [int(byte, 16) for code in range(32, 127) for _, byte in cells[code]]
source = re.sub(r"//.*", "", open("crates/cells/src/set.rt").read())
ours = [int(number, 0) for number in re.findall(r"\b(?:0x[0-9A-Fa-f]+|\d+)\b", source.split("BUILT_IN", 1)[1].split("=", 1)[1])]
for whose, bytes_ in [("crates/cells/src/set.rt", ours), ("second", list(open(sys.argv[1], "rb").read()))]:
    if bytes_ != page:
        wrong = next((i for i, (a, b) in enumerate(zip(bytes_, page)) if a != b), min(len(bytes_), len(page)))
        sys.exit(f"characters: {whose} has other bytes than the page: {len(bytes_)} of them, and the first that differs is of code {32 + wrong // 8}")

if any(byte % 2 for byte in page):
    sys.exit("characters: a cell has a pixel in its last column, so that it can touch the next one")
apart = lambda a, b: sum(bin(x ^ y).count("1") for x, y in zip(page[8 * (a - 32) : 8 * (a - 31)], page[8 * (b - 32) : 8 * (b - 31)]))
pairs = [(a, b) for a in range(48, 58) for b in range(48, a)] + [tuple(map(ord, pair)) for pair in ["0O", "1l", "5S", "68"]]
near = [f"{chr(a)} and {chr(b)}" for a, b in pairs if apart(a, b) < 8]
if near:
    sys.exit(f"characters: fewer than eight pixels differ between {', '.join(near)}")
print(f"characters: 95 cells of docs/CHARACTERS.md are those of crates/cells and of second; the nearest two of the digits differ in {min(apart(a, b) for a, b in pairs)} pixels")
END
