"""Turns a binary PGM file into a grey PNG file, and a binary PPM file into one of colours, as the README shows pictures:

    python3 examples/pgm_to_png.py PICTURE.pgm PICTURE.png
    python3 examples/pgm_to_png.py CONTRAST.ppm CONTRAST.png

It reads what the examples write: a header without comments and a maximum of 255.
"""

import re
import struct
import sys
import zlib


def wrong_use(usage):
    print(usage, file=sys.stderr)
    sys.exit(2)


def run(main):
    """A file that cannot be read or written ends the program with a sentence and status 1."""
    try:
        main(sys.argv[1:])
    except OSError as fault:
        sys.exit(f"{fault.filename}: {fault.strerror}")


def read_picture(name, signs, maximum):
    """Sign, width, height and raster of a file that an example wrote with one of these signs and this maximum."""
    with open(name, "rb") as file:
        contents = file.read()
    head = re.match(rb"(P\d)\s+(\d+)\s+(\d+)\s+(\d+)\s", contents)
    if head is None or head[1].decode() not in signs or int(head[4]) != maximum:
        sys.exit(f"{name}: not a {' or '.join(signs)} file of maximum {maximum} without comments")
    return head[1].decode(), int(head[2]), int(head[3]), contents[head.end():]


def chunk(name, contents):
    check = zlib.crc32(name + contents)
    return struct.pack(">I", len(contents)) + name + contents + struct.pack(">I", check)


GREY, RGB = 0, 2
COLOURS = {"P5": (GREY, 1), "P6": (RGB, 3)}  # and the samples a pixel


def png(width, height, colour, rows):
    """Eight bits a sample, grey or RGB; a 0 before each row says that it is not filtered."""
    head = struct.pack(">IIBBBBB", width, height, 8, colour, 0, 0, 0)
    packed = zlib.compress(b"".join(b"\0" + row for row in rows), 9)
    return b"\x89PNG\r\n\x1a\n" + chunk(b"IHDR", head) + chunk(b"IDAT", packed) + chunk(b"IEND", b"")


def main(words):
    if len(words) != 2:
        wrong_use(__doc__)
    sign, width, height, raster = read_picture(words[0], COLOURS, 255)
    colour, samples = COLOURS[sign]
    across = samples * width
    if len(raster) != across * height or not raster:
        sys.exit(f"{words[0]}: not {across} x {height} bytes of raster")
    rows = [raster[y * across:(y + 1) * across] for y in range(height)]
    with open(words[1], "wb") as file:
        file.write(png(width, height, colour, rows))


if __name__ == "__main__":
    run(main)
