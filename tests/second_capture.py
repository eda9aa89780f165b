"""The formats of captures once more, as docs/traces.md has them: a plain program, written apart from the code."""
import struct

MAGIC, VERSION, CUT = "the magic number is not known", "the version is not known", "the file is cut short"
LENGTH, LINK = "the block's length is wrong", "the link type is not Ethernet"
CAPTURED, INTERFACE = "the captured length is too large", "the interface is not described"

# by the first four octets: the order, and how many nanoseconds the smaller part of a time counts
CLASSIC = {
    b"\xd4\xc3\xb2\xa1": ("<", 1000), b"\xa1\xb2\xc3\xd4": (">", 1000),
    b"\x4d\x3c\xb2\xa1": ("<", 1), b"\xa1\xb2\x3c\x4d": (">", 1),
}
SECTION = b"\x0a\x0d\x0d\x0a"
ORDERS = {b"\x4d\x3c\x2b\x1a": "<", b"\x1a\x2b\x3c\x4d": ">"}
DESCRIPTION, SIMPLE, ENHANCED = 1, 3, 6
LEAST = {DESCRIPTION: 20, SIMPLE: 16, ENHANCED: 32}
RESOLUTION, CHECKS, OFFSET = 9, 13, 14
# the octets of the frame check sequence behind each frame: by the whole field `network`, and by the option if_fcslen
NETWORKS = {1: 0, 1 | 1 << 26: 0, 1 | 1 << 26 | 2 << 28: 4}
IN_OPTION = {b"\0": 0, b"\x04": 4, b"\x20": 4}
UNLIMITED = 1 << 32
USUAL = bytes.fromhex("525400123456")


class Fault(Exception):
    """What is wrong, at the place where the reading stands."""


class Reader:
    """Reads one capture, made by a machine of an address; `packets` are tuples of the original length, the octets and the
    time."""

    def __init__(self, file: bytes, own: bytes = USUAL) -> None:
        self.file, self.own, self.at, self.packets, self.fault = file, own, 0, [], None
        try:
            self.read()
        except Fault as fault:
            self.fault = f"octet {self.at}: {fault}"

    def read(self) -> None:
        front = self.file[:4]
        if len(front) < 4:
            raise Fault(CUT)
        if front == SECTION:
            self.blocks()
        elif front in CLASSIC:
            self.records(*CLASSIC[front])
        else:
            raise Fault(MAGIC)

    # ---- classic files

    def records(self, order: str, unit: int) -> None:
        if len(self.file) < 24:
            raise Fault(CUT)
        major, snap, network = struct.unpack_from(order + "H10xII", self.file, 4)
        if major != 2:
            raise Fault(VERSION)
        if network not in NETWORKS and network not in COOKED:
            raise Fault(LINK)
        self.at, snap = 24, snap or UNLIMITED
        while self.at < len(self.file):
            if len(self.file) - self.at < 16:
                raise Fault(CUT)
            seconds, part, captured, original = struct.unpack_from(order + "IIII", self.file, self.at)
            if captured > snap:
                raise Fault(CAPTURED)
            octets = self.file[self.at + 16 : self.at + 16 + captured]
            if len(octets) < captured:
                raise Fault(CUT)
            self.give(COOKED.get(network), NETWORKS.get(network), original, octets, seconds * 10**9 + part * unit)
            self.at += 16 + captured

    def give(self, cooked: tuple | None, checks: int | None, original: int, octets: bytes, time: int | None) -> None:
        """A packet: a frame, or one that Linux cooked, whose frame is given if it was one."""
        if cooked is None:
            self.packets.append((*unchecked(checks, original, octets), time))
        elif front := front_of(octets, original, self.own, *cooked):
            self.packets.append((14 + original - cooked[0], front + octets[cooked[0] :], time))

    # ---- pcapng

    def blocks(self) -> None:
        order, interfaces = "", []
        while left := len(self.file) - self.at:
            if left < 12:
                raise Fault(CUT)
            kind_octets, magic = (self.file[self.at + at : self.at + at + 4] for at in (0, 8))
            if begins := kind_octets == SECTION:
                if magic not in ORDERS:
                    raise Fault(MAGIC)
                order = ORDERS[magic]
            kind, size = struct.unpack_from(order + "II", self.file, self.at)
            if size < (28 if begins else LEAST.get(kind, 12)) or size & 3:
                raise Fault(LENGTH)
            if size > left:
                raise Fault(CUT)
            block = self.file[self.at : self.at + size]
            if block[-4:] != block[4:8]:
                raise Fault(LENGTH)
            if begins:
                if struct.unpack_from(order + "H", block, 12) != (1,):
                    raise Fault(VERSION)
                interfaces = []
            elif kind == DESCRIPTION:
                interfaces.append(described(order, block))
            elif kind in (SIMPLE, ENHANCED):
                self.give(*packet(order, block, kind, interfaces))
            self.at += size


def unchecked(checks: int, original: int, octets: bytes) -> tuple[int, bytes]:
    """A frame's length and octets without its frame check sequence, which is the last of so many as the frame had."""
    if not checks:
        return original, octets
    frame = max(len(octets), original) - checks
    return max(original - checks, 0), octets[: max(frame, 0)]


def described(order: str, block: bytes) -> tuple[int, tuple | None, int | None, int | None]:
    """The snap length of an interface, how its packets are cooked if they are, or else their frame check sequence, and its
    clock: how many nanoseconds it counts as one, if that is known."""
    link, snap = struct.unpack_from(order + "H2xI", block, 8)
    said = options(order, block[16:-4])
    checks = IN_OPTION.get(said.get(CHECKS, b"\0"))
    if link not in COOKED and (link != 1 or checks is None):
        raise Fault(LINK)
    power = said.get(RESOLUTION, b"\x06")
    is_known = OFFSET not in said and len(power) == 1 and power[0] <= 9
    return snap or UNLIMITED, COOKED.get(link), checks, 10 ** (9 - power[0]) if is_known else None


def options(order: str, octets: bytes) -> dict[int, bytes]:
    """The first option of each code."""
    said = {}
    while len(octets) >= 4:
        code, size = struct.unpack_from(order + "HH", octets)
        if code == 0 or len(octets) < 4 + size:
            break
        said.setdefault(code, octets[4 : 4 + size])
        octets = octets[4 + size + -size % 4 :]
    return said


def packet(order: str, block: bytes, kind: int, interfaces: list) -> tuple:
    if kind == ENHANCED:
        which, high, low, captured, original = struct.unpack_from(order + "IIIII", block, 8)
        octets = block[28:-4]
    else:
        (original,), which = struct.unpack_from(order + "I", block, 8), 0
        octets = block[12:-4]
    if which >= len(interfaces):
        raise Fault(INTERFACE)
    snap, cooked, checks, clock = interfaces[which]
    if kind == SIMPLE:
        captured = min(original, snap)
    if captured > snap or captured > len(octets):
        raise Fault(CAPTURED)
    time = None
    if kind == ENHANCED and clock is not None and ((high << 32) + low) * clock < 1 << 64:
        time = ((high << 32) + low) * clock
    return cooked, checks, original, octets[:captured], time


def told(file: bytes) -> str:
    """What must be told of a capture."""
    reader = Reader(file)
    lines = []
    for original, octets, time in reader.packets:
        is_cut = "cut" if len(octets) < original else "whole"
        lines.append(f"{original} {is_cut} {'-' if time is None else time} {octets.hex().upper()}\n")
    if reader.fault:
        lines.append(reader.fault + "\n")
    return "".join(lines) + "end\n"


# ---- cooked packets, as the pages of the link types LINUX_SLL and LINUX_SLL2 have them

# by the link type: the length of a header, and where the packet type, the kind of device, the length of the address, the
# address and the protocol lie in it, with how many octets each has
COOKED = {
    113: (16, {"way": (0, 2), "device": (2, 2), "size": (4, 2), "address": (6, 6), "protocol": (14, 2)}),
    276: (20, {"way": (10, 1), "device": (8, 2), "size": (11, 1), "address": (12, 6), "protocol": (0, 2)}),
}
ETHERNET_DEVICE, NO_GROUP, NOBODY = 1, bytes.fromhex("010000000000"), bytes.fromhex("020000000000")


def front_of(packet: bytes, original: int, own: bytes, size: int, fields: dict) -> bytes | None:
    """The Ethernet header of the frame that a packet was, if it was one."""
    if min(len(packet), original) < size:
        return None
    said = {name: packet[at : at + count] for name, (at, count) in fields.items()}
    way, device, length, protocol = (int.from_bytes(said[name]) for name in ("way", "device", "size", "protocol"))
    if device != ETHERNET_DEVICE or length != len(own):
        return None
    behind, type_or_length = packet[size:], protocol
    if protocol < 1536:
        type_or_length = original - size
        if protocol not in (1, 4) or type_or_length >= 1536:
            return None
    return went_to(way, protocol, behind, own) + said["address"] + struct.pack(">H", type_or_length)


def went_to(way: int, protocol: int, behind: bytes, own: bytes) -> bytes:
    """The destination: own, all, a group by the address of IPv4 or IPv6, or one that is not known."""
    if way < 2:
        return b"\xff" * 6 if way else own
    if way > 2:
        return NOBODY
    if protocol == 0x0800 and len(behind) >= 20:
        return b"\x01\x00\x5e" + bytes([behind[17] & 0x7F]) + behind[18:20]
    if protocol == 0x86DD and len(behind) >= 40:
        return b"\x33\x33" + behind[36:40]
    return NO_GROUP
