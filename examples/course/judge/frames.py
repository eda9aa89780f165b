"""Frames, told apart by their octets."""
import random

BROADCAST = bytes([0xFF] * 6)
# an address that an author may give (locally administered)
SENDER = bytes.fromhex("020000000001")
STRANGER = bytes.fromhex("0200000000AA")
TYPE = bytes.fromhex("88B5")  # for local experiments
HEADER, LEAST, MOST = 14, 60, 1514


def frame(number: int, length: int = LEAST, to: bytes = BROADCAST) -> bytes:
    """A frame without its check sequence: its number stands behind the header, and random octets behind that."""
    body = random.Random(number).randbytes(length - HEADER - 2) if length >= HEADER + 2 else b""
    return (to + SENDER + TYPE + number.to_bytes(2, "big") + body)[:length]


def number_of(octets: bytes) -> int:
    """Which frame octets begin as."""
    return int.from_bytes(octets[HEADER : HEADER + 2], "big")


def is_whole(octets: bytes) -> bool:
    return len(octets) >= HEADER + 2 and octets == frame(number_of(octets), len(octets), octets[:6])
