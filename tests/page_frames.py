"""Frames that are opened: the fields of frames that were worked out by hand, and octets made to break what reads them."""
import random
import struct
from pathlib import Path

from page_tools import page_of, record_of
from tally import Tally

# every frame is let through: UPE, MPE, BAM, SBP, LPE and EN
HEAD = ["w 00100 803E", "link up"]
MAC, OTHER = bytes.fromhex("525400123456"), bytes.fromhex("02AABBCCDDEE")
MUTATED = 160
# what stands on the page of each frame in the FIFO, having been opened
OPENED = """
for (const one of document.querySelectorAll('#fifo .frame details')) one.open = true;
return new Promise((done) => setTimeout(() => done([...document.querySelectorAll('#fifo .frame')].map((frame) => ({
  octets: frame.dataset.octets, summary: frame.querySelector('.part-summary')?.textContent ?? '',
  layers: [...frame.querySelectorAll('.layer')].map((layer) => [layer.dataset.layer, layer.querySelector('h4').textContent,
    layer.querySelector('.trouble')?.textContent ?? '',
    [...layer.querySelectorAll('dt')].map((name) => [name.textContent, name.nextSibling.textContent])]),
}))), 60));
"""


def ipv4(protocol: int, inner: bytes, length: int | None = None, words: int = 5, offset: int = 0) -> bytes:
    length = 20 + len(inner) if length is None else length
    return struct.pack(">BBHHHBBH4s4s", 0x40 | words, 0xB9, length, 0x1234, 0x4000 | offset, 64, protocol, 0xABCD,
                       bytes([10, 0, 2, 15]), bytes([192, 168, 255, 1])) + inner


def ipv6(following: int, inner: bytes) -> bytes:
    return struct.pack(">IHBB", 0x60012345, len(inner), following, 255) + bytes.fromhex(
        "FE800000000000005054000000123456" "20010DB8000000000001000000000002") + inner


def ethernet(kind: int, inner: bytes) -> bytes:
    return MAC + OTHER + struct.pack(">H", kind) + inner


UDP = struct.pack(">HHHH", 68, 67, 12, 0x1F2E) + b"abcd"
TCP = struct.pack(">HHIIHHHH", 443, 51000, 0xFFFFFFFF, 7, 0x6012, 65535, 0x0102, 0) + bytes([2, 4, 5, 0xB4]) + b"hello"
ARP = struct.pack(">HHBBH", 1, 0x0800, 6, 4, 1) + OTHER + bytes([10, 0, 2, 15]) + bytes(6) + bytes([10, 0, 2, 2])
ECHO = struct.pack(">BBHHH", 8, 0, 0x4D5E, 77, 3) + b"ping"
# frame, its line, its protocols with their octets, and some of their fields
WORKED = [
    (ethernet(0x0806, ARP), "ARP request 10.0.2.15 → 10.0.2.2",
     {"Ethernet": "0 to 13", "ARP": "14 to 41", "data": "42 to 59"},
     {"ARP": {"operation": "1 request", "sender": "02:AA:BB:CC:DD:EE", "target’s IP": "10.0.2.2", "protocol": "0800"}}),
    (ethernet(0x0800, ipv4(17, UDP)), "UDP 10.0.2.15 port 68 → 192.168.255.1 port 67",
     {"Ethernet": "0 to 13", "IPv4": "14 to 33", "UDP": "34 to 41", "data": "42 to 45", "padding": "46 to 59"},
     {"Ethernet": {"to": "52:54:00:12:34:56", "type": "0800 IPv4"},
      "IPv4": {"version": "4", "header words": "5", "services": "2E", "ECN": "1", "length": "32",
      "identification": "1234",
               "flags": "2 DF", "fragment offset": "0", "TTL": "64", "protocol": "17 UDP", "checksum": "ABCD"},
      "UDP": {"length": "12", "checksum": "1F2E"}}),
    (ethernet(0x8100, struct.pack(">HH", 0xB00A, 0x0800) + ipv4(6, TCP)),
     "TCP SYN ACK 10.0.2.15 port 443 → 192.168.255.1 port 51000",
     {"Ethernet": "0 to 13", "VLAN": "14 to 17", "IPv4": "18 to 37", "TCP": "38 to 61", "data": "62 to 66"},
     {"VLAN": {"priority": "5", "CFI": "1", "VLAN": "10", "type": "0800 IPv4"},
      "TCP": {"sequence": "4294967295", "acknowledgment": "7", "header words": "6", "flags": "18 SYN ACK",
              "window": "65535"}}),
    (ethernet(0x0800, ipv4(1, ECHO)), "ICMP echo request 10.0.2.15 → 192.168.255.1",
     {"Ethernet": "0 to 13", "IPv4": "14 to 33", "ICMP": "34 to 37", "echo": "38 to 41", "data": "42 to 45",
         "padding": "46 to 59"},
     {"ICMP": {"type": "8 echo request", "code": "0"}, "echo": {"identifier": "77", "sequence": "3"}}),
    (ethernet(0x86DD, ipv6(0, bytes([58, 0, 5, 2, 0, 0, 1, 0]) + bytes([135, 0, 1, 2]) + bytes(20))),
     "ICMPv6 neighbor solicitation fe80::5054:0:12:3456 → 2001:db8::1:0:0:2",
     {"Ethernet": "0 to 13", "IPv6": "14 to 53", "IPv6 options": "54 to 61", "ICMPv6": "62 to 65", "data": "66 to 85"},
     {"IPv6": {"flow label": "12345", "traffic class": "00", "hop limit": "255", "length": "32",
               "next header": "0 hop-by-hop options"}, "ICMPv6": {"type": "135 neighbor solicitation"}}),
    (ethernet(46, b"\xAA\xAA\x03"), "", {"Ethernet": "0 to 13", "data": "14 to 59"},
    {"Ethernet": {"type": "46, a length"}}),
    (ethernet(0x0800, ipv4(17, UDP, offset=3)), "IPv4 10.0.2.15 → 192.168.255.1",
     {"Ethernet": "0 to 13", "IPv4": "14 to 33", "data": "34 to 45", "padding": "46 to 59"},
         {"IPv4": {"fragment offset": "3"}}),
]
# what is wrong with a frame, and where
WRONG = [
    (ethernet(0x0800, ipv4(17, UDP, length=900)), "IPv4", "it says 900 octets, and 46 are there"),
    (ethernet(0x0800, ipv4(17, UDP, length=8)), "IPv4", "it says 8 octets"),
    (ethernet(0x0800, ipv4(17, UDP, words=3)), "IPv4", "its header would have 12 octets"),
    (ethernet(0x0800, ipv4(6, bytes(12) + b"\xF0" + bytes(7))), "TCP", "its header of 60 octets ends behind it"),
    (ethernet(0x0800, ipv4(17, struct.pack(">HHHH", 1, 2, 3, 4))), "UDP", "it says 3 octets"),
    (ethernet(0x0800, ipv4(17, b"\0\1\0")), "UDP", "it ends before its to port"),
    (ethernet(0x0806, ARP)[:60] + b"", "", ""),
]


def arrivals(frames: list[bytes]) -> bytes:
    return "".join(f"{line}\n" for line in [*HEAD,
        *(f"arrive {frame.ljust(60, bytes(1)).hex()}" for frame in frames)]).encode()


def opened(browser, room: Path, frames: list[bytes]) -> list[dict]:
    """The frames as the page opens them, eight at a time as it shows them."""
    page, shown = room / "frames.html", []
    for at in range(0, len(frames), 8):
        page.write_bytes(page_of(record_of(arrivals(frames[at : at + 8]))))
        browser.open(page)
        shown += browser.run(OPENED)
    return shown


def worked(tally: Tally, browser, room: Path) -> None:
    for (frame, summary, layers, fields), shown in zip(WORKED, opened(browser, room, [one[0] for one in WORKED]),
        strict=True):
        found = {name: head.rpartition("octets ")[2] for name, head, _, _ in shown["layers"]}
        faults = [] if found == layers else [f"its protocols are {found}"]
        faults += [] if shown["summary"] == summary else [f"it is told as {shown['summary']}"]
        faults += [f"{name}: {trouble}" for name, _, trouble, _ in shown["layers"] if trouble]
        for name, wanted in fields.items():
            there = next(dict(rows) for layer, _, _, rows in shown["layers"] if layer == name)
            faults += [f"{name}, {field} is {there.get(field)}" for field, text in wanted.items()
                if there.get(field) != text]
        tally.check(f"a frame, {summary or frame[12:14].hex()}", faults)


def wrong(tally: Tally, browser, room: Path) -> None:
    for (_, name, words), shown in zip(WRONG, opened(browser, room, [one[0] for one in WRONG]), strict=True):
        troubles = [(layer, trouble.partition("\ufe0e ")[2]) for layer, _, trouble, _ in shown["layers"] if trouble]
        tally.check(f"a wrong frame, {name} {words}", [] if troubles[:1] == ([(name, words)] if name else [])
            else [f"{troubles} is told"])


def hostile(tally: Tally, browser, room: Path) -> None:
    """Frames with octets changed and cut: each is opened, its protocols lie one behind the other within it, to its end."""
    r = random.Random(82540)
    frames = []
    for _ in range(MUTATED):
        frame = bytearray(r.choice(WORKED)[0].ljust(60, bytes(1)))
        for _ in range(r.randint(1, 6)):
            frame[r.randrange(12, len(frame))] = r.choice([0, 1, 4, 6, 17, 0x45, 0x4F, 0x60, 0x81, 0xFF,
                r.randrange(256)])
        frames.append(bytes(frame[: r.randint(60, len(frame))]))
    frames.append(ethernet(0x8100, struct.pack(">HH", 1, 0x8100) * 300))
    frames.append(ethernet(0x86DD, ipv6(0, bytes(1200))))
    frames.append(ethernet(0x0800, ipv4(17, UDP + b"<img src=x onerror=window.ran=1>")))
    for frame, shown in zip(frames, opened(browser, room, frames), strict=True):
        at, faults = 0, []
        for name, head, _, _ in shown["layers"]:
            first, _, last = head.rpartition("octets ")[2].partition(" to ")
            if last:
                faults += [] if int(first) == at else [f"{name} begins at {first}, and not at {at}"]
                at = int(last) + 1
        size = max(60, len(frame))
        faults += [] if at == size else [f"it is opened up to {at}, and has {size} octets"]
        tally.check(f"a hostile frame, {frame[:40].hex()}", faults)
    tally.check("hostile frames", [] if browser.run("return window.ran ?? null") is None else ["a script ran"])


def check_frames(tally: Tally, browser, room: Path) -> None:
    for part in (worked, wrong, hostile):
        part(tally, browser, room)
    tally.check("frames, the console", browser.told())
