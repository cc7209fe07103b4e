"""Compares pixels of a PNG file: its path, and then X,Y,RRGGBB for each pixel. The status is 0 where all have their colors."""
import struct
import sys
import zlib


def rows_of(path):
    """The rows of an 8-bit PNG without interlace, each as bytes, and how many bytes a pixel has."""
    data = open(path, "rb").read()
    at, body, step, width = 8, b"", 0, 0
    while at < len(data):
        length, kind = struct.unpack(">I4s", data[at:at + 8])
        chunk = data[at + 8:at + 8 + length]
        if kind == b"IHDR":
            width, _, depth, color, _, _, interlace = struct.unpack(">IIBBBBB", chunk)
            if depth != 8 or interlace != 0:
                raise ValueError("a PNG of another form")
            step = {2: 3, 6: 4}[color]
        elif kind == b"IDAT":
            body += chunk
        at += length + 12
    raw, size, before, rows = zlib.decompress(body), width * step, bytes(width * step), []
    for start in range(0, len(raw), size + 1):
        row = bytearray(raw[start + 1:start + 1 + size])
        for i in range(size):
            left = row[i - step] if i >= step else 0
            corner = before[i - step] if i >= step else 0
            row[i] = (row[i] + guess(raw[start], left, before[i], corner)) & 255
        before = bytes(row)
        rows.append(before)
    return rows, step


def guess(kind, left, above, corner):
    """What a filter of PNG adds to a byte."""
    if kind < 3:
        return (0, left, above)[kind]
    if kind == 3:
        return (left + above) // 2
    return min((left, above, corner), key=lambda value: abs(left + above - corner - value))


rows, step = rows_of(sys.argv[1])
failed = 0
for wanted in sys.argv[2:]:
    x, y, color = wanted.split(",")
    found = rows[int(y)][int(x) * step:int(x) * step + 3].hex()
    if found != color.lower():
        print(f"picture: {x},{y} is {found}, not {color}")
        failed = 1
sys.exit(failed)
