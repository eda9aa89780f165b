"""Captures of Linux's cooked packets, as `tcpdump -i any` writes them, in both kinds of files: em_trace has the frames that
they were."""
import random
import re
import struct
import tempfile
from pathlib import Path

from second_capture import Reader
from second_log import Frame, Log, script_of
from tally import Tally, run

OWN, OTHER = bytes.fromhex("525400123456"), bytes.fromhex("020000000001")
LOG = b"write 0x100 0x801a\nread 0x8 0x83\n"
# with the adapter's address
NAMED = b"write 0x5400 0x12005452\nwrite 0x5404 0x80005634\n" + LOG
SLL, SLL2 = 113, 276
HOST, ALL, GROUP, OTHERS, OUT = range(5)
ARP, IPV4, IPV6, LLDP, LLC, CAN = 0x0806, 0x0800, 0x86DD, 0x88CC, 4, 12
LO = 772
# the headers of packets to 239.255.255.250, and to ff02::1:ff12:3456
TO_V4 = bytes.fromhex("4500002e00000000011100000a00020f" + "effffffa")
TO_V6 = bytes.fromhex("6000000000063aff" + "fe80" + "00" * 13 + "01" + "ff02" + "00" * 9 + "01ff123456")
# packets, and the line that brings the frame, worked out by hand: nothing where there is none
PACKETS = [
    ((HOST, ARP, OTHER, b"\xa1" * 46), "525400123456" "020000000001" "0806" + "A1" * 46),
    ((ALL, IPV4, OTHER, b"\xa2" * 46), "FFFFFFFFFFFF" "020000000001" "0800" + "A2" * 46),
    ((GROUP, IPV4, OTHER, TO_V4 + b"\xa3" * 26), "01005E7FFFFA" "020000000001" "0800" + TO_V4.hex().upper() + "A3" * 26),
    ((GROUP, IPV6, OTHER, TO_V6 + b"\xa4" * 6), "3333FF123456" "020000000001" "86DD" + TO_V6.hex().upper() + "A4" * 6),
    ((GROUP, LLDP, OTHER, b"\xa5" * 46), "010000000000" "020000000001" "88CC" + "A5" * 46),
    ((GROUP, IPV4, OTHER, b"\xa6" * 19), "010000000000" "020000000001" "0800" + "A6" * 19 + " 60"),
    ((OTHERS, IPV4, OTHER, b"\xa7" * 46), "020000000000" "020000000001" "0800" + "A7" * 46),
    # the adapter's own frame does not arrive
    ((OUT, IPV4, OWN, b"\xa8" * 46), None),
    ((HOST, IPV4, bytes(6), b"\xa9" * 46, {"device": LO}), None),
    ((HOST, IPV4, OTHER, b"\xa9" * 46, {"size": 8}), None),
    ((HOST, LLC, OTHER, b"\xaa" * 50), "525400123456" "020000000001" "0032" + "AA" * 50),
    ((HOST, LLC, OTHER, b"\xaa" * 1536), None),
    ((HOST, CAN, OTHER, b"\xab" * 46), None),
    ((HOST, ARP, OTHER, b"\xac" * 46, {"original": 100}), "525400123456" "020000000001" "0806" + "AC" * 46 + " 114"),
    # its header was not captured whole
    ((HOST, ARP, OTHER, None), None),
]


def packet(link: int, way: int, protocol: int, source: bytes, behind: bytes, device: int = 1, size: int = 6) -> bytes:
    if link == SLL:
        return struct.pack(">HHH8sH", way, device, size, source, protocol) + behind
    return struct.pack(">HHIHBB8s", protocol, 0, 3, device, way, size, source) + behind


def record(
    order: str, link: int, way: int, protocol: int, source: bytes, behind: bytes | None, more: dict | None = None
) -> bytes:
    """A record; `original` is how many octets stood behind the header."""
    more = dict(more or {})
    original = more.pop("original", None)
    octets = packet(link, way, protocol, source, behind or b"", **more)
    size = len(octets) if original is None else len(octets) - len(behind or b"") + original
    if behind is None:
        octets = octets[:-1]
    return struct.pack(order + "IIII", 1, 2, len(octets), size) + octets


def header(order: str, link: int) -> bytes:
    return struct.pack(order + "IHHIIII", 0xA1B2C3D4, 2, 4, 0, 0, 262_144, link)


def block(order: str, kind: int, body: bytes) -> bytes:
    size = 12 + len(body)
    return struct.pack(order + "II", kind, size) + body + struct.pack(order + "I", size)


def section(order: str, links: list[int], packets: list[tuple[int, bytes]]) -> bytes:
    """A pcapng of interfaces of these link types, and of records, each of one of them."""
    made = block(order, 0x0A0D0D0A, struct.pack(order + "IHHq", 0x1A2B3C4D, 1, 0, -1))
    made += b"".join(block(order, 1, struct.pack(order + "HHI", link, 0, 0)) for link in links)
    for which, octets in packets:
        seconds, micros, captured, original = struct.unpack_from(order + "IIII", octets)
        time = 10**6 * seconds + micros
        fields = struct.pack(order + "IIIII", which, time >> 32, time % 2**32, captured, original)
        made += block(order, 6, fields + octets[16:] + bytes(-captured % 4))
    return made


def files_of(order: str, link: int, records: list[bytes]) -> dict[str, bytes]:
    """The same packets in a file of each kind."""
    return {"pcap": header(order, link) + b"".join(records),
            "pcapng": section(order, [1, link], [(1, one) for one in records])}


def try_cooked(tally: Tally, em_trace: str, count: int, seed: int) -> None:
    with tempfile.TemporaryDirectory() as folder:
        capture = Path(folder) / "any.pcap"
        for link in (SLL, SLL2):
            for order in "<>":
                records = [record(order, link, *words) for words, _ in PACKETS]
                for kind, octets in files_of(order, link, records).items():
                    capture.write_bytes(octets)
                    by_hand(tally, em_trace, capture, f"cooked packets, {kind}, {link} {order}")
        together(tally, em_trace, capture)
        cut(tally, em_trace, capture)
        at_random(tally, em_trace, capture, count, random.Random(seed))


def by_hand(tally: Tally, em_trace: str, capture: Path, name: str) -> None:
    ran = run([em_trace, "--frames", capture, "--mac", OWN.hex(), "--at", 2, "-"], LOG)
    lines = re.findall(r"(?m)^arrive (.*)$", ran.stdout.decode())
    wanted = [line for _, line in PACKETS if line]
    tally.check(name, [] if ran.returncode == 0 and lines == wanted else [f"{ran.stderr}", *lines])
    # without an address in the log and in the words it is that of the script's machine
    plain = run([em_trace, "--frames", capture, "--at", 2, "-"], LOG)
    tally.check(name, [] if plain.stdout.count(b"arrive 525400123456020000000001") == 3 else [f"{plain}"])


# the adapter's own frame, which em_debug offers as it does those of other captures
OWN_FRAME = "020000000000" "525400123456" "0800" + "A8" * 46


def try_loaded(tally: Tally, em_debug: str) -> None:
    """em_debug's `load` offers the frames that the packets were, its own among them."""
    # of the one that was cut it has what was captured
    wanted = [(line or OWN_FRAME).removesuffix(" 114") for words, line in PACKETS if line or words[0] == OUT]
    typed = "load any.{}\nlink up\nw RCTL 801A\narrive all\nsave kept.em\n"
    with tempfile.TemporaryDirectory() as folder:
        room = Path(folder)
        for link in (SLL, SLL2):
            for order in "<>":
                records = [record(order, link, *words) for words, _ in PACKETS]
                for kind, octets in files_of(order, link, records).items():
                    (room / f"any.{kind}").write_bytes(octets)
                    (room / "kept.em").unlink(missing_ok=True)
                    ran = run([em_debug], typed.format(kind).encode(), cwd=room)
                    kept = (room / "kept.em").read_text() if (room / "kept.em").is_file() else ""
                    lines = re.findall(r"(?m)^arrive (.*)$", kept)
                    tally.check(f"cooked packets, loaded, {kind}, {link} {order}",
                                [] if ran.returncode == 0 and lines == wanted else [f"{ran}", *lines])


def together(tally: Tally, em_trace: str, capture: Path) -> None:
    """Interfaces of three kinds beside each other: each packet is of its own one. Another link type is refused."""
    frame = bytes.fromhex("ffffffffffff020000000001") + b"\x88\xcc" + b"\xb1" * 46
    plain = struct.pack("<IIII", 1, 2, len(frame), len(frame)) + frame
    two = [record("<", link, ALL, LLDP, OTHER, octets * 46) for link, octets in ((SLL, b"\xb2"), (SLL2, b"\xb3"))]
    capture.write_bytes(section("<", [SLL2, 1, SLL], [(2, two[0]), (1, plain), (0, two[1])]))
    ran = run([em_trace, "--frames", capture, "--at", 2, "-"], LOG)
    wanted = [f"FFFFFFFFFFFF02000000000188CC{octets * 46}" for octets in ("B2", "B1", "B3")]
    lines = re.findall(r"(?m)^arrive (.*)$", ran.stdout.decode())
    tally.check("interfaces of three kinds", [] if lines == wanted else [f"{ran.stderr}", *lines])
    capture.write_bytes(section("<", [SLL2, 112], [(0, two[1])]))
    told = f"em_trace: {capture}: octet 48: the link type is not Ethernet\n".encode()
    tally.ended("an interface of another kind", run([em_trace, "--frames", capture, "-"], LOG), 3, b"", told)


def cut(tally: Tally, em_trace: str, capture: Path) -> None:
    """A file that ends within a record is refused, with the offset of the record."""
    whole = header("<", SLL2) + 2 * record("<", SLL2, *PACKETS[0][0])
    second = (len(whole) + 24) // 2
    for end, at in ((len(whole) - 1, second), (second + 8, second), (24 + 8, 24), (23, 0)):
        capture.write_bytes(whole[:end])
        told = f"em_trace: {capture}: octet {at}: the file is cut short\n".encode()
        tally.ended("cooked packets that are cut", run([em_trace, "--frames", capture, "-"], LOG), 3, b"", told)


def at_random(tally: Tally, em_trace: str, capture: Path, count: int, r: random.Random) -> None:
    """Random packets: the second reading has the same frames, and the script is that of these."""
    faults = []
    for _ in range(count):
        order, link = r.choice("<>"), r.choice([SLL, SLL2])
        records = [drawn(r, order, link) for _ in range(r.randrange(12))]
        file = files_of(order, link, records)[r.choice(["pcap", "pcapng"])]
        capture.write_bytes(file)
        ran = run([em_trace, "--frames", capture, "--at", 4, "-"], NAMED)
        frames = [Frame(octets, original, time) for original, octets, time in Reader(file, OWN).packets]
        wanted = script_of(NAMED, Log(), {}, frames=frames, at=4)
        if ran.returncode or ran.stdout != wanted:
            faults.append(f"of {file.hex()}: {ran}")
    tally.check(f"{count} random captures of cooked packets", faults[:3])


def drawn(r: random.Random, order: str, link: int) -> bytes:
    """A packet at random."""
    more = {"device": r.choice([1, 1, 1, 1, 2, LO]), "size": r.choice([6, 6, 6, 6, 5, 8])}
    behind = r.choice([b"", bytes(19), TO_V4, TO_V6, r.randbytes(r.choice([39, 40, 46, 90, 1_500]))])
    if r.random() < 0.3:
        more["original"] = r.choice([0, 1, 19, 46, 1_500, 1_535, 1_536, 9_000])
    protocol = r.choice([ARP, IPV4, IPV6, IPV4, IPV6, LLDP, LLC, 1, 0, 2, CAN, 1_535, 1_536, 65_535])
    way, source = r.choice([0, 1, 2, 2, 2, 3, 4, 5, 255]), r.choice([OTHER, OTHER, OWN])
    return record(order, link, way, protocol, source, behind, more)
