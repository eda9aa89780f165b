"""Writes a picture (PNG, of 8 bits for each colour) again with a palette of 256 colours, which takes a third of the
octets."""
import collections
import struct
import zlib

SIGNATURE = b"\x89PNG\r\n\x1a\n"
MOST_COLOURS = 256
RGB, RGBA, PALETTE = 2, 6, 3


def chunks(data: bytes):
    at = len(SIGNATURE)
    while at < len(data):
        size, kind = struct.unpack_from(">I4s", data, at)
        yield kind, data[at + 8 : at + 8 + size]
        at += 12 + size


def unfiltered(rows: bytes, width: int, height: int, depth: int) -> list[bytearray]:
    """The rows of a picture, with the filter of each taken off."""
    stride, before, found = width * depth, bytearray(width * depth), []
    for number in range(height):
        at = number * (stride + 1)
        kind, row = rows[at], bytearray(rows[at + 1 : at + 1 + stride])
        for i in range(stride if kind else 0):
            left, up = row[i - depth] if i >= depth else 0, before[i]
            corner = before[i - depth] if i >= depth else 0
            if kind == 1:
                row[i] = (row[i] + left) & 255
            elif kind == 2:
                row[i] = (row[i] + up) & 255
            elif kind == 3:
                row[i] = (row[i] + (left + up) // 2) & 255
            else:
                guess = left + up - corner
                near = min((abs(guess - left), 0, left), (abs(guess - up), 1, up), (abs(guess - corner), 2, corner))
                row[i] = (row[i] + near[2]) & 255
        found.append(row)
        before = row
    return found


def with_palette(data: bytes) -> bytes:
    """The same picture by its 256 most frequent colours, each other one as the nearest of them."""
    parts = list(chunks(data))
    width, height, _, colours = struct.unpack_from(">IIBB", parts[0][1])
    depth = {RGB: 3, RGBA: 4}[colours]
    rows = unfiltered(zlib.decompress(b"".join(part for kind, part in parts if kind == b"IDAT")), width, height, depth)
    pixels = [[bytes(row[i : i + 3]) for i in range(0, len(row), depth)] for row in rows]
    counts = collections.Counter(pixel for row in pixels for pixel in row)
    palette = [colour for colour, _ in counts.most_common(MOST_COLOURS)]
    number = {colour: index for index, colour in enumerate(palette)}
    for colour in counts.keys() - number.keys():
        number[colour] = min(range(len(palette)), key=lambda i: sum((a - b) ** 2 for a, b in zip(palette[i], colour)))
    packed = zlib.compress(b"".join(b"\0" + bytes(number[pixel] for pixel in row) for row in pixels), 9)

    def chunk(kind: bytes, what: bytes) -> bytes:
        return struct.pack(">I", len(what)) + kind + what + struct.pack(">I", zlib.crc32(kind + what))

    head = struct.pack(">IIBBBBB", width, height, 8, PALETTE, 0, 0, 0)
    return SIGNATURE + chunk(b"IHDR", head) + chunk(b"PLTE", b"".join(palette)) + chunk(b"IDAT",
        packed) + chunk(b"IEND", b"")
