#!/usr/bin/env python3
"""Writes captures here that no program at hand writes: with the highest octet of each number first, with simple packets,
with clocks of other resolutions. README.md says what tells of them."""
import struct
from pathlib import Path

HERE = Path(__file__).resolve().parent
FRAMES = [bytes((7 * i + n) % 256 for i in range(n)) for n in (14, 60, 61, 130)]
SNAP = 100


def classic(order: str, magic: int, second: int) -> bytes:
    file = struct.pack(order + "IHHiIII", magic, 2, 4, 0, 0, SNAP, 1)
    for number, frame in enumerate(FRAMES):
        kept = frame[:SNAP]
        time = (1_700_000_000 + number, number * second // 7)
        file += struct.pack(order + "IIII", *time, len(kept), len(frame)) + kept
    return file


def block(order: str, kind: int, body: bytes) -> bytes:
    body += bytes(-len(body) % 4)
    return struct.pack(order + "II", kind, 12 + len(body)) + body + struct.pack(order + "I", 12 + len(body))


def section(order: str) -> bytes:
    return block(order, 0x0A0D0D0A, struct.pack(order + "IHHq", 0x1A2B3C4D, 1, 0, -1))


def interface(order: str, snap: int, resolution: int | None = None) -> bytes:
    options = b""
    if resolution is not None:
        options = struct.pack(order + "HH4s", 2, 3, b"em0") + struct.pack(order + "HHB3x", 9, 1, resolution)
        options += struct.pack(order + "HH", 0, 0)
    return block(order, 1, struct.pack(order + "HHI", 1, 0, snap) + options)


def enhanced(order: str, at: int, ticks: int, frame: bytes, kept: int) -> bytes:
    head = struct.pack(order + "IIIII", at, ticks >> 32, ticks & 0xFFFFFFFF, kept, len(frame))
    return block(order, 6, head + frame[:kept])


def simple(order: str, frame: bytes, kept: int) -> bytes:
    return block(order, 3, struct.pack(order + "I", len(frame)) + frame[:kept])


def with_clocks(order: str) -> bytes:
    """Interfaces whose clocks count microseconds, milliseconds, seconds and nanoseconds."""
    file = section(order)
    clocks = [(None, 10**6), (3, 10**3), (0, 1), (9, 10**9)]
    file += b"".join(interface(order, 0, resolution) for resolution, _ in clocks)
    for at, (_, second) in enumerate(clocks):
        file += enhanced(order, at, 1_700_000_000 * second + second // 3, FRAMES[at], len(FRAMES[at]))
    return file


def with_simple_packets(order: str) -> bytes:
    file = section(order) + interface(order, SNAP)
    return file + b"".join(simple(order, frame, min(len(frame), SNAP)) for frame in FRAMES)


MADE = {
    "big.pcap": classic(">", 0xA1B2C3D4, 10**6),
    "big-nano.pcap": classic(">", 0xA1B23C4D, 10**9),
    "big-clocks.pcapng": with_clocks(">"),
    "clocks.pcapng": with_clocks("<"),
    "simple.pcapng": with_simple_packets("<"),
    "big-simple.pcapng": with_simple_packets(">"),
    "both-orders.pcapng": with_clocks(">") + with_simple_packets("<"),
}

if __name__ == "__main__":
    for name, octets in MADE.items():
        (HERE / name).write_bytes(octets)
