"""From binary PGM with largest value 3 to PNG of two bits a pixel: from standard input to standard output, or from each NAME.pgm to NAME.png."""
import os
import struct
import sys
import zlib


def chunk(kind, data):
    return struct.pack(">I", len(data)) + kind + data + struct.pack(">I", zlib.crc32(kind + data))


def png(pgm):
    kind, size, most, pixels = pgm.split(b"\n", 3)
    width, height = map(int, size.split())
    assert kind == b"P5" and most == b"3" and width % 4 == 0 and len(pixels) == width * height
    # four pixels to a byte, the leftmost in its highest bits: all rows at once, as four large numbers
    first, second, third, fourth = (int.from_bytes(pixels[i::4], "big") for i in range(4))
    packed = (first << 6 | second << 4 | third << 2 | fourth).to_bytes(len(pixels) // 4, "big")
    # a byte of 0 before each row: the row as it is
    rows = b"".join(b"\0" + packed[at : at + width // 4] for at in range(0, len(packed), width // 4))
    return (
        b"\x89PNG\r\n\x1a\n"
        + chunk(b"IHDR", struct.pack(">IIBBBBB", width, height, 2, 0, 0, 0, 0))
        + chunk(b"IDAT", zlib.compress(rows, 9))
        + chunk(b"IEND", b"")
    )


if len(sys.argv) == 1:
    sys.stdout.buffer.write(png(sys.stdin.buffer.read()))
for name in sys.argv[1:]:
    with open(name, "rb") as pgm, open(name + ".part", "wb") as part:
        part.write(png(pgm.read()))
    os.rename(name + ".part", name[:-4] + ".png")
