#!/usr/bin/env python3
"""Measures how fast captures of 100 MB are read: a classic one and a pcapng of frames of several sizes, and a classic
one of small frames.

    bench/captures.py [PROGRAM]

PROGRAM is what bench/speed makes, which bench/watch.py proves and builds where none is named. It tells what each of five
rounds took; the capture is in memory before the first.
"""
import random
import struct
import subprocess
import sys
import tempfile
from pathlib import Path

from watch import build

OCTETS = 100_000_000
# of eleven frames, as they come in traffic of all kinds
SIZES = [60] * 6 + [590] * 3 + [1514] * 2
# zeros, with room for the padding of a block
FRAME = bytes(1516)


def classic(sizes: list[int], r: random.Random) -> bytes:
    file, number = bytearray(struct.pack("<IHHiIII", 0xA1B23C4D, 2, 4, 0, 0, 65_535, 1)), 0
    while len(file) < OCTETS:
        size, number = r.choice(sizes), number + 1
        file += struct.pack("<IIII", number // 1000, number % 1000, size, size) + FRAME[:size]
    return bytes(file)


def blocks(sizes: list[int], r: random.Random) -> bytes:
    file, number = bytearray(struct.pack("<IIIHHqI", 0x0A0D0D0A, 28, 0x1A2B3C4D, 1, 0, -1, 28)), 0
    file += struct.pack("<IIHHII", 1, 20, 1, 0, 0, 20)
    while len(file) < OCTETS:
        size, number = r.choice(sizes), number + 1
        room = size + -size % 4
        file += struct.pack("<IIIIIII", 6, 32 + room, 0, 0, number, size, size) + FRAME[:room]
        file += struct.pack("<I", 32 + room)
    return bytes(file)


def measure(program: str) -> None:
    for what, make, sizes in (
        ("classic", classic, SIZES), ("pcapng", blocks, SIZES), ("classic, small frames", classic, [60])
    ):
        capture = make(sizes, random.Random(82540))
        ran = subprocess.run([program, "captures"], input=capture, capture_output=True, check=True)
        print(f"{what}:\n{ran.stdout.decode()}", end="")


def main() -> None:
    with tempfile.TemporaryDirectory() as room:
        measure(sys.argv[1] if sys.argv[1:] else build(Path(room)))


if __name__ == "__main__":
    main()
