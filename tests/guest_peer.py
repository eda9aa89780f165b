"""A host at the other end of em_guest's wire, which is started by --peer: it answers ARP and pings by IPv4 and by IPv6, in
a VLAN too. It remembers nobody's IPv6 address: before each answer it asks for it, of the group that has it. And when
somebody pings 10.0.2.9, it asks that group instead of an answer, so that one sees who listens to it.
"""
import struct
import sys

OURS = bytes.fromhex("020000000002")
ADDRESS, ASKED = bytes.fromhex("fd000000000000000000000000000002"), bytes.fromhex("fd000000000000000000000000000015")
ARP, IPV4, IPV6, TAGGED = b"\x08\x06", b"\x08\x00", b"\x86\xdd", b"\x81\x00"
ICMP, ICMPV6 = 1, 58
SOLICITATION, ADVERTISEMENT, ECHO_REQUEST, ECHO_REPLY = 135, 136, 128, 129


def checksum(octets: bytes) -> bytes:
    """The Internet's: the ones' complement of the sum of its words."""
    octets += b"\0" * (len(octets) % 2)
    total = sum(struct.unpack(f">{len(octets) // 2}H", octets))
    while total >> 16:
        total = (total & 0xFFFF) + (total >> 16)
    return struct.pack(">H", total ^ 0xFFFF)


def arp(packet: bytes) -> bytes | None:
    """The answer to a question for one of our addresses."""
    hardware, operation, asker, asked = packet[:6], packet[6:8], packet[8:18], packet[24:28]
    if operation != b"\0\1" or asked[3] not in (2, 9):
        return None
    return hardware + b"\0\2" + OURS + asked + asker


def ping(packet: bytes) -> bytes | None:
    """The answer to an echo request by IPv4."""
    head = 4 * (packet[0] & 15)
    message = packet[head:int.from_bytes(packet[2:4], "big")]
    if packet[9] != ICMP or message[0] != 8:
        return None
    message = b"\0\0\0\0" + message[4:]
    return packet[:12] + packet[16:20] + packet[12:16] + packet[20:head] + message[:2] + checksum(message) + message[4:]


def ipv6(to: bytes, message: bytes) -> bytes:
    """A packet of ICMPv6, with its sum."""
    pseudo = ADDRESS + to + struct.pack(">II", len(message), ICMPV6)
    message = message[:2] + checksum(pseudo + message) + message[4:]
    return struct.pack(">IHBB", 6 << 28, len(message), ICMPV6, 255) + ADDRESS + to + message


class Peer:
    def __init__(self, wire) -> None:
        self.wire = wire
        self.waiting: list[tuple[bytes, bytes]] = []  # whom an answer waits for, and the answer

    def send(self, to: bytes, tag: bytes, kind: bytes, packet: bytes) -> None:
        frame = to + OURS + tag + kind + packet
        self.wire.write(len(frame).to_bytes(2, "big") + frame)
        self.wire.flush()

    def ask(self, address: bytes) -> None:
        """Asks the group of an IPv6 address who has it."""
        message = bytes([SOLICITATION]) + bytes(7) + address + b"\1\1" + OURS
        group = bytes.fromhex("ff0200000000000000000001ff") + address[13:]
        self.send(b"\x33\x33" + group[12:], b"", IPV6, ipv6(group, message))

    def take_ipv6(self, sender: bytes, packet: bytes) -> None:
        source, message = packet[8:24], packet[40:]
        if packet[6] != ICMPV6:
            return
        if message[0] == SOLICITATION and message[8:24] == ADDRESS:
            told = bytes([ADVERTISEMENT, 0, 0, 0, 0x60, 0, 0, 0]) + ADDRESS + b"\2\1" + OURS
            self.send(sender, b"", IPV6, ipv6(source, told))
        elif message[0] == ECHO_REQUEST:
            self.waiting.append((source, bytes([ECHO_REPLY, 0, 0, 0]) + message[4:]))
            self.ask(source)
        elif message[0] == ADVERTISEMENT:
            for to, answer in [one for one in self.waiting if one[0] == message[8:24]]:
                self.send(sender, b"", IPV6, ipv6(to, answer))
            self.waiting = [one for one in self.waiting if one[0] != message[8:24]]

    def take(self, frame: bytes) -> None:
        sender, tag = frame[6:12], frame[12:16] if frame[12:14] == TAGGED else b""
        kind, packet = frame[12 + len(tag):14 + len(tag)], frame[14 + len(tag):]
        if kind == IPV6:
            self.take_ipv6(sender, packet)
        elif kind == IPV4 and packet[19] == 9:
            self.ask(ASKED)
        elif answer := arp(packet) if kind == ARP else ping(packet) if kind == IPV4 else None:
            self.send(sender, tag, kind, answer)


def main() -> None:
    peer, wire = Peer(sys.stdout.buffer), sys.stdin.buffer
    while len(head := wire.read(2)) == 2:
        peer.take(wire.read(int.from_bytes(head, "big")))


if __name__ == "__main__":
    main()
