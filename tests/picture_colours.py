#!/usr/bin/env python3
"""Prints how many dots of a PNG file are blue and how many are copper, as the loop and the ring of examples/picture. Usage: picture_colours.py FILE.png"""

import struct
import sys
import zlib
from pathlib import Path


def chunks(data):
    """The chunks of a PNG file by kind and content."""
    at = 8
    while at < len(data):
        length, kind = struct.unpack_from(">I4s", data, at)
        yield kind, data[at + 8:at + 8 + length]
        at += 12 + length


def paeth(left, up, corner):
    """The predictor of filter 4."""
    guess = left + up - corner
    return min((left, up, corner), key=lambda value: abs(guess - value))


def rows(data):
    """The rows of a picture of 8 bits for each of three colours, or four with opacity, as bytes, and the bytes of a dot."""
    found = list(chunks(data))
    width, height, depth, colour, _, _, interlaced = struct.unpack(">IIBBBBB", found[0][1])
    assert depth == 8 and colour in (2, 6) and not interlaced
    size = 3 if colour == 2 else 4
    raw = zlib.decompress(b"".join(content for kind, content in found if kind == b"IDAT"))
    before = bytearray(width * size)
    for y in range(height):
        kind, *line = raw[y * (width * size + 1):(y + 1) * (width * size + 1)]
        for x in range(width * size):
            left = line[x - size] if x >= size else 0
            corner = before[x - size] if x >= size else 0
            line[x] = (line[x] + [0, left, before[x], (left + before[x]) // 2, paeth(left, before[x], corner)][kind]) % 256
        before = line
        yield line, size


def main():
    blue = copper = 0
    for line, size in rows(Path(sys.argv[1]).read_bytes()):
        for at in range(0, len(line), size):
            red, green, low = line[at:at + 3]
            blue += red < 100 and low > 120 and low > 2 * red
            copper += red > 180 and 100 < green < 150 and low < 90
    print(blue, copper)


if __name__ == "__main__":
    main()
