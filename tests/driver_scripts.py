#!/usr/bin/env python3
"""Writes the scripts of tests/data/drivers: drivers in four manners, right ones and such that have one fault each.

    tests/driver_scripts.py            writes tests/data/drivers anew

The manners are those of drivers that many people read: `xv6` as teaching kernels have it, `ixy` as drivers in user space, `linux`
and `bsd` as the systems' own. A script says what the driver did, access by access, with the line of a driver that we made up
behind `@`, and what happened around it: frames that arrive, and steps of the engines. A fault is a change of one place.

Where a driver is broken, its first lines say what is wrong, and which line of the script that is: `culprit`; `effect` is the
first line at which the adapter, or the driver, goes on otherwise because of it. Both follow from where the fault was put in,
and from the device's rules by hand; nothing here asks our own programs.
"""
from __future__ import annotations

import sys
from dataclasses import dataclass, field
from pathlib import Path

DATA = Path(__file__).resolve().parent / "data" / "drivers"
RX_RING, TX_RING, RX_BUFFERS, TX_BUFFERS = 0x1000, 0x2000, 0x4000, 0xD000
RX_BUFFER, TX_BUFFER, COUNT = 0x800, 0x100, 8
CTRL, STATUS, ICR, ICS, IMS, IMC, RCTL, TCTL, TIPG = 0x0, 0x8, 0xC0, 0xC8, 0xD0, 0xD8, 0x100, 0x400, 0x410
RDBAL, RDBAH, RDLEN, RDH, RDT = 0x2800, 0x2804, 0x2808, 0x2810, 0x2818
TDBAL, TDBAH, TDLEN, TDH, TDT = 0x3800, 0x3804, 0x3808, 0x3810, 0x3818
RAL0, RAH0, MTA0 = 0x5400, 0x5404, 0x5200
RST, ALL = 1 << 26, 0xFFFFFFFF
EN, BAM, BSIZE_4096, PSP, SECRC = 1 << 1, 1 << 15, 3 << 16 | 1 << 25, 1 << 3, 1 << 26
TX_CONTROL = EN | PSP | 0x10 << 4 | 0x40 << 12
TXDW, LSC, RXSEQ, RXDMT0, RXT0 = 1 << 0, 1 << 2, 1 << 3, 1 << 4, 1 << 7
EOP, IFCS, RS, DD = 1, 2, 8, 1
ADDRESS = "525400123456"


@dataclass
class Script:
    """The lines of a driver's run, and which of them a fault made."""

    manner: str
    fault: str = ""
    lines: list[str] = field(default_factory=list)
    culprit: int | None = None
    effect: int | None = None
    place: int = 0
    received: int = 0

    def has(self, fault: str) -> bool:
        return self.fault == fault

    def do(self, text: str, source: str = "") -> None:
        self.place += 1
        self.lines.append(f"{text} @ {self.manner}.c:{self.place}" if source != "wire" else text)

    def blame(self, text: str) -> None:
        """A line that is the fault itself."""
        self.do(text)
        self.culprit = self.culprit or len(self.lines)

    def follow(self) -> None:
        """The newest line is the first at which the fault shows."""
        self.effect = self.effect or len(self.lines)

    def write(self, register: int, value: int) -> None:
        self.do(f"w {register:X} {value:X}")

    def read(self, register: int) -> None:
        self.do(f"r {register:X}")

    def poke(self, address: int, octets: bytes) -> None:
        self.do(f"poke {address:X} {octets.hex().upper()}")

    def peek(self, address: int, length: int) -> None:
        self.do(f"peek {address:X} {length:X}")

    def arrive(self, steps: int = 1) -> None:
        """A frame to everyone, and as many steps of the receive engine."""
        self.received += 1
        self.do(f"arrive FFFFFFFFFFFF02AABBCCDDEE0800{self.received:04X} 60", "wire")
        for _ in range(steps):
            self.do("rx", "wire")

    def sends(self, steps: int) -> None:
        for _ in range(steps):
            self.do("tx", "wire")


def descriptor(address: int, length: int = 0, command: int = 0, status: int = 0) -> bytes:
    return address.to_bytes(8, "little") + length.to_bytes(2, "little") + bytes([0, command, status, 0, 0, 0])


def receive_descriptor(at: int, distance: int = RX_BUFFER) -> bytes:
    return descriptor(RX_BUFFERS + distance * at)


def packet(at: int) -> bytes:
    return bytes.fromhex(f"FFFFFFFFFFFF{ADDRESS}0800") + bytes([at]) * 46


def address_filter(s: Script) -> None:
    s.write(RAL0, 0x12005452)
    s.write(RAH0, 0x80005634)
    for at in range(4):
        s.write(MTA0 + 4 * at, 0)


# ---- as teaching kernels have it: one interrupt routine, and DD of every descriptor

def xv6_transmit(s: Script, at: int, number: int) -> None:
    """One packet into descriptor `at`; the driver waits for DD of what was there."""
    at %= COUNT
    slot, after = TX_RING + 16 * at, (at + 1) % COUNT
    s.read(TDT)
    s.peek(slot + 12, 1)
    s.poke(TX_BUFFERS + TX_BUFFER * at, packet(number))
    command = EOP if s.has("no-report") else RS if s.has("no-end-of-packet") else EOP | RS
    filled = descriptor(TX_BUFFERS + TX_BUFFER * at, 60, command)
    if s.has("tail-first"):
        s.blame(f"w {TDT:X} {after:X}")
        s.poke(slot, filled)
    elif s.has("tail-not-wrapped") and after == 0:
        s.poke(slot, filled)
        s.blame(f"w {TDT:X} {COUNT:X}")
    elif command != EOP | RS:
        s.blame(f"poke {slot:X} {filled.hex().upper()}")
        s.write(TDT, after)
    else:
        s.poke(slot, filled)
        s.write(TDT, after)
    s.sends(1)


def xv6_receive(s: Script, at: int) -> None:
    """The routine after an interrupt: one packet at `at`, and then none."""
    at %= COUNT
    slot = RX_RING + 16 * at
    s.write(ICR, ALL)
    s.read(RDT)
    s.peek(slot + 12, 1)
    s.poke(slot, (RX_BUFFERS + RX_BUFFER * at).to_bytes(8, "little"))
    if s.has("status-left"):
        # what the tail names is given with the next one
        if s.culprit:
            s.write(RDT, at)
            s.follow()
        else:
            s.blame(f"w {RDT:X} {at:X}")
    else:
        s.poke(slot + 12, b"\0")
        s.write(RDT, at)
    s.read(RDT)
    s.peek(RX_RING + 16 * ((at + 1) % COUNT) + 12, 1)


def xv6(s: Script) -> None:
    s.write(IMS, 0)
    s.read(CTRL)
    s.write(CTRL, RST)
    s.write(IMS, 0)
    if s.has("interrupts-first"):
        s.blame(f"w {IMS:X} {RXT0:X}")
    for at in range(COUNT):
        s.poke(TX_RING + 16 * at, descriptor(0, status=DD))
    if s.has("base-not-aligned"):
        s.blame(f"w {TDBAL:X} {TX_RING + 8:X}")
    else:
        s.write(TDBAL, TX_RING)
    s.write(TDLEN, 16 * COUNT)
    s.write(TDH, 0)
    s.write(TDT, 0)
    for at in range(COUNT):
        s.poke(RX_RING + 16 * at, receive_descriptor(at))
    if s.has("enabled-first"):
        s.blame(f"w {RCTL:X} {EN | BAM | SECRC:X}")
    s.write(RDBAL, RX_RING)
    s.write(RDH, 0)
    if s.has("tail-is-count"):
        s.blame(f"w {RDT:X} {COUNT:X}")
    else:
        s.write(RDT, COUNT - 1)
    if s.has("ring-of-nine"):
        s.blame(f"w {RDLEN:X} {16 * 9:X}")
    else:
        s.write(RDLEN, 16 * COUNT)
    address_filter(s)
    s.write(TCTL, TX_CONTROL)
    s.write(TIPG, 0x60200A)
    s.write(RCTL, EN | BAM | SECRC)
    if s.has("tail-is-count"):
        # from here on the receiver goes by the ring
        s.follow()
    s.write(IMS, RXT0)
    s.do("link up", "wire")
    for turn in range(COUNT + 3):
        s.arrive()
        xv6_receive(s, turn)
        xv6_transmit(s, turn, turn)


# ---- as drivers in user space have it: polled, in batches

def ixy_reset(s: Script) -> None:
    s.write(IMC, ALL)
    s.write(CTRL, RST)
    s.write(IMC, ALL)
    address_filter(s)


def ixy_start(s: Script) -> None:
    control = BAM | SECRC | (BSIZE_4096 if s.has("buffer-too-small") else 0)
    if s.has("buffer-too-small"):
        s.blame(f"w {RCTL:X} {control:X}")
    else:
        s.write(RCTL, control)
    for register, value in ((RDBAL, RX_RING), (RDBAH, 0), (RDLEN, 16 * COUNT), (RDH, 0), (RDT, 0)):
        s.write(register, value)
    for register, value in ((TDBAL, TX_RING), (TDBAH, 0), (TDLEN, 16 * COUNT), (TDH, 0), (TDT, 0)):
        s.write(register, value)
    s.write(TIPG, 0x60200A)
    if not s.has("ring-not-filled"):
        for at in range(COUNT):
            s.poke(RX_RING + 16 * at, receive_descriptor(at))
    s.write(RCTL, control | EN)
    if s.has("ring-not-filled"):
        s.blame(f"w {RDT:X} {COUNT - 1:X}")
    else:
        s.write(RDT, COUNT - 1)
        if s.has("buffer-too-small"):
            s.follow()
    s.write(TCTL, TX_CONTROL)
    s.do("link up", "wire")


def ixy_receive(s: Script, first: int, count: int) -> None:
    """A batch of packets, from descriptor `first` on; the tail is given back once."""
    last = (first + count - 1) % COUNT
    for at in (it % COUNT for it in range(first, first + count)):
        slot = RX_RING + 16 * at
        s.peek(slot + 12, 1)
        if s.has("descriptor-behind-tail"):
            continue
        s.poke(slot, receive_descriptor(at))
    s.peek(RX_RING + 16 * ((last + 1) % COUNT) + 12, 1)
    if s.has("tail-is-head"):
        s.blame(f"w {RDT:X} {(last + 1) % COUNT:X}")
    elif s.has("descriptor-behind-tail"):
        s.blame(f"w {RDT:X} {last:X}")
        for at in (it % COUNT for it in range(first, first + count)):
            s.poke(RX_RING + 16 * at, receive_descriptor(at))
            s.follow()
    else:
        s.write(RDT, last)


def ixy_transmit(s: Script, first: int, count: int, number: int, waits: int | None = None) -> None:
    """Packets are given to be sent; a driver that is not to look for room goes over the one that waits longest."""
    for at in (it % COUNT for it in range(first, first + count)):
        s.poke(TX_BUFFERS + TX_BUFFER * at, packet(number + at))
        if at == waits:
            s.follow()
        s.poke(TX_RING + 16 * at, descriptor(TX_BUFFERS + TX_BUFFER * at, 60, EOP | IFCS | RS))
    after = (first + count) % COUNT
    if waits is not None:
        s.blame(f"w {TDT:X} {after:X}")
    else:
        s.write(TDT, after)
    if s.has("freed-before-sent"):
        s.blame(f"poke {TX_BUFFERS + TX_BUFFER * (first % COUNT):X} {'DD' * 60}")


def ixy(s: Script, batch: int = 3) -> None:
    ixy_reset(s)
    ixy_start(s)
    first = 0
    for turn in range(5):
        for _ in range(batch):
            s.arrive()
        ixy_receive(s, first, batch)
        if s.has("tail-past-head") and turn == 1:
            # six wait already where only one place is free
            ixy_transmit(s, first, 6, 0)
            ixy_transmit(s, first + 6, 3, 10, waits=first)
            s.sends(1)
            return
        ixy_transmit(s, first, batch, 10 * turn + 1)
        s.sends(batch)
        for at in range(first, first + batch):
            s.peek(TX_RING + 16 * (at % COUNT) + 12, 1)
        first += batch


# ---- as Linux has it: causes are read, masked, and let through again; buffers are given back behind a poll

IMS_ENABLE = RXT0 | TXDW | RXDMT0 | RXSEQ | LSC


def linux_reset(s: Script) -> None:
    s.write(IMC, ALL)
    s.write(RCTL, 0)
    s.write(TCTL, PSP)
    s.write(CTRL, RST)
    s.write(IMC, ALL)
    s.read(ICR)
    address_filter(s)


def linux_fill(s: Script, first: int, count: int, distance: int) -> None:
    """New buffers from descriptor `first` on, and then the tail, which names the last of them."""
    for at in (it % COUNT for it in range(first, first + count)):
        s.poke(RX_RING + 16 * at, (RX_BUFFERS + distance * at).to_bytes(8, "little"))
    last = (first + count - 1) % COUNT
    if s.has("buffers-overlap"):
        s.blame(f"w {RDT:X} {last:X}")
    elif s.has("tail-not-wrapped") and first + count > COUNT:
        s.blame(f"w {RDT:X} {first + count - 1:X}")
    else:
        s.write(RDT, last)


def linux_up(s: Script, distance: int) -> None:
    for register, value in ((TDLEN, 16 * COUNT), (TDBAH, 0), (TDBAL, TX_RING), (TDT, 0), (TDH, 0), (TIPG, 0x602008)):
        s.write(register, value)
    for at in range(COUNT):
        s.poke(TX_RING + 16 * at, bytes(16))
        s.poke(RX_RING + 16 * at, bytes(16))
    s.write(TCTL, TX_CONTROL)
    s.read(RCTL)
    s.write(RCTL, BAM | SECRC)
    if s.has("length-in-descriptors"):
        s.blame(f"w {RDLEN:X} {COUNT:X}")
    else:
        s.write(RDLEN, 16 * COUNT)
    for register, value in ((RDBAH, 0), (RDBAL, RX_RING), (RDT, 0), (RDH, 0)):
        s.write(register, value)
    s.write(RCTL, EN | BAM | SECRC)
    linux_fill(s, 0, COUNT - 1, distance)
    if s.has("mask-to-IMC"):
        s.blame(f"w {IMC:X} {IMS_ENABLE:X}")
    else:
        s.write(IMS, IMS_ENABLE)
    s.write(ICS, LSC)
    s.do("link up", "wire")


def linux_interrupt(s: Script) -> None:
    if s.has("mask-to-IMC"):
        # no interrupt comes, so its routine never runs
        s.follow()
        return
    s.read(ICR)
    if s.has("read-again"):
        s.read(STATUS)
        s.blame(f"r {ICR:X}")
    s.write(IMC, ALL)


def linux_transmit(s: Script, at: int, number: int, count: int = 1) -> None:
    """One packet in `count` descriptors."""
    for part in range(count):
        slot = (at + part) % COUNT
        if s.has("second-part-forgotten") and part == 1:
            continue
        length, command = (60, EOP | IFCS | RS) if part == count - 1 else (14, IFCS | RS)
        s.poke(TX_BUFFERS + TX_BUFFER * slot, packet(number))
        s.poke(TX_RING + 16 * slot, descriptor(TX_BUFFERS + TX_BUFFER * slot, length, command))
    after = (at + count) % COUNT
    if s.has("second-part-forgotten") and count == 2:
        s.blame(f"w {TDT:X} {after:X}")
    else:
        s.write(TDT, after)


def linux(s: Script) -> None:
    distance = 0x400 if s.has("buffers-overlap") else RX_BUFFER
    linux_reset(s)
    linux_up(s, distance)
    taken = filled = sent = 0
    filled = COUNT - 1
    for turn in range(9):
        s.arrive()
        linux_interrupt(s)
        if s.has("mask-to-IMC"):
            continue
        slot = RX_RING + 16 * (taken % COUNT)
        s.peek(slot + 12, 1)
        s.poke(slot + 12, b"\0")
        taken += 1
        linux_fill(s, filled, 1, distance)
        filled += 1
        parts = 2 if turn % 3 == 2 else 1
        linux_transmit(s, sent, turn, parts)
        if s.has("reused-before-sent"):
            s.blame(f"poke {TX_BUFFERS + TX_BUFFER * (sent % COUNT):X} {packet(turn + 0x80).hex().upper()}")
        s.sends(parts)
        sent += parts
        s.write(IMS, IMS_ENABLE)
        if s.has("head-while-enabled") and turn == 3:
            # "the ring is stuck": the driver begins it again, and forgets to turn the receiver off
            s.blame(f"w {RDH:X} 0")
            s.write(RDT, COUNT - 1)


# ---- as the BSDs have it: a descriptor is set up whole and given at once; causes are read until there are none

def bsd_init_receive(s: Script, at: int, is_first: bool = False) -> None:
    at %= COUNT
    slot = RX_RING + 16 * at
    if s.has("tail-before-descriptor") and not is_first:
        # one too late: of the descriptor that this tail gives, and not of the one that it names
        if s.culprit:
            s.write(RDT, at)
            s.follow()
        else:
            s.blame(f"w {RDT:X} {at:X}")
        s.poke(RX_RING + 16 * ((at - 1) % COUNT), receive_descriptor((at - 1) % COUNT))
    else:
        s.poke(slot, receive_descriptor(at))
        s.write(RDT, at)


def bsd_reset(s: Script) -> None:
    s.write(IMC, ALL)
    s.write(CTRL, RST)
    s.write(IMC, ALL)
    address_filter(s)


def bsd_up(s: Script) -> None:
    if s.has("transmitter-enabled-first"):
        s.blame(f"w {TCTL:X} {TX_CONTROL:X}")
    for at in range(COUNT):
        s.poke(TX_RING + 16 * at, bytes(16))
    for register, value in ((TDBAH, 0), (TDBAL, TX_RING), (TDLEN, 16 * COUNT), (TDH, 0), (TDT, 0), (TIPG, 0x602008)):
        s.write(register, value)
    if s.has("base-in-the-high-half"):
        s.write(RDBAL, 0)
        s.blame(f"w {RDBAH:X} {RX_RING:X}")
    else:
        s.write(RDBAL, RX_RING)
        s.write(RDBAH, 0)
    for register, value in ((RDLEN, 16 * COUNT), (RDH, 0), (RDT, 0)):
        s.write(register, value)
    for at in range(COUNT):
        bsd_init_receive(s, at, is_first=True)
        if s.has("base-in-the-high-half") and at == 1:
            # the first descriptor that the adapter is given, which is nowhere
            s.follow()
    s.write(TCTL, TX_CONTROL)
    s.write(IMS, RXT0 | TXDW | LSC)
    if s.has("broadcast-not-accepted"):
        s.blame(f"w {RCTL:X} {EN | SECRC:X}")
    else:
        s.write(RCTL, EN | BAM | SECRC)
    s.do("link up", "wire")


def bsd_interrupt(s: Script, at: int) -> None:
    if s.has("acknowledged-unread"):
        s.blame(f"w {ICR:X} {ALL:X}")
    s.read(ICR)
    if s.has("acknowledged-unread"):
        # no cause is left to go by, so nothing is taken
        s.follow()
        return
    s.peek(RX_RING + 16 * (at % COUNT) + 12, 1)
    bsd_init_receive(s, at)
    s.peek(RX_RING + 16 * ((at + 1) % COUNT) + 12, 1)
    s.read(ICR)


def bsd_transmit(s: Script, at: int, number: int) -> None:
    at %= COUNT
    s.poke(TX_BUFFERS + TX_BUFFER * at, packet(number))
    filled = descriptor(TX_BUFFERS + TX_BUFFER * at, 60, EOP | IFCS | RS)
    s.poke(TX_RING + 16 * at, filled)
    s.write(TDT, (at + 1) % COUNT)
    if s.has("descriptor-filled-late"):
        s.blame(f"poke {TX_RING + 16 * at:X} {filled.hex().upper()}")


def bsd(s: Script) -> None:
    bsd_reset(s)
    bsd_up(s)
    for turn in range(COUNT + 2):
        s.arrive()
        if s.has("base-in-the-high-half") or s.has("broadcast-not-accepted"):
            s.follow()
            continue
        bsd_interrupt(s, turn)
        bsd_transmit(s, turn, turn)
        s.sends(1)


MANNERS = {"xv6": xv6, "ixy": ixy, "linux": linux, "bsd": bsd}
# by manner and fault: what is wrong, in the words of somebody who found it
FAULTS = {
    ("xv6", "ring-of-nine"): "RDLEN is no multiple of 128: a ring has a multiple of 8 descriptors.",
    ("xv6", "base-not-aligned"): "TDBAL is no multiple of 16.",
    ("xv6", "status-left"): "DD of a descriptor that is given back is not cleared.",
    ("xv6", "tail-is-count"): "RDT begins at the count of descriptors, and not at the last index.",
    ("xv6", "tail-not-wrapped"): "TDT is counted on, and not modulo the ring.",
    ("xv6", "tail-first"): "TDT is written before the descriptor.",
    ("xv6", "no-report"): "RS is forgotten: DD never comes, and the driver waits for it.",
    ("xv6", "no-end-of-packet"): "EOP is forgotten: nothing is sent, and all is gathered.",
    ("xv6", "enabled-first"): "RCTL.EN is set before there is a ring.",
    ("xv6", "interrupts-first"): "RXT0 is let through before there is a ring.",
    ("ixy", "tail-is-head"): "RDT is given the next index that is looked at, so the ring is empty once it was full.",
    ("ixy", "freed-before-sent"): "A packet's buffer is freed, and filled with DD, as soon as the tail is written.",
    ("ixy", "descriptor-behind-tail"): "The new buffers are written behind RDT's write.",
    ("ixy", "tail-past-head"): "More packets are given than there is room: TDT passes TDH.",
    ("ixy", "buffer-too-small"): "RCTL says 4,096 octets, and the buffers have 2,048.",
    ("ixy", "ring-not-filled"): "The descriptors are all zeros when the tail is written.",
    ("linux", "length-in-descriptors"): "RDLEN is given the number of descriptors, and not of octets.",
    ("linux", "buffers-overlap"): "Buffers of 2,048 octets lie 1,024 apart.",
    ("linux", "tail-not-wrapped"): "RDT is counted on past the ring's end.",
    ("linux", "mask-to-IMC"): "The mask is written to IMC, so no interrupt is let through.",
    ("linux", "read-again"): "ICR is read a second time, which gives none of the causes.",
    ("linux", "second-part-forgotten"): "Of a packet in two parts only the first descriptor is written.",
    ("linux", "reused-before-sent"): "The buffer of a packet is filled again before it was sent.",
    ("linux", "head-while-enabled"): "RDH is written while the receiver is on.",
    ("bsd", "transmitter-enabled-first"): "TCTL.EN is set before there is a ring.",
    ("bsd", "tail-before-descriptor"): "RDT is written before the descriptor that it gives.",
    ("bsd", "base-in-the-high-half"): "The ring's base is written to RDBAH.",
    ("bsd", "broadcast-not-accepted"): "RCTL lacks BAM, and frames to everyone are expected.",
    ("bsd", "acknowledged-unread"): "All causes are cleared before they are read.",
    ("bsd", "descriptor-filled-late"): "A transmit descriptor is written once more behind TDT's write.",
}


def down(s: Script) -> None:
    """The interface goes down: both units are turned off, and what they owned is the driver's again, which clears it."""
    s.write(IMC, ALL)
    s.write(RCTL, 0)
    s.write(TCTL, PSP)
    for at in range(COUNT):
        s.poke(RX_RING + 16 * at, bytes(16))
        s.poke(TX_RING + 16 * at, bytes(16))
        s.poke(RX_BUFFERS + RX_BUFFER * at, bytes(16))


def twice(s: Script, manner: str) -> None:
    """A driver that goes down and comes up again."""
    MANNERS[manner](s)
    down(s)
    s.do("link down", "wire")
    MANNERS[manner](s)


def one_packet_to_two(s: Script) -> None:
    """A packet that is sent twice out of one buffer, which nobody writes in between."""
    ixy_reset(s)
    ixy_start(s)
    s.poke(TX_BUFFERS, packet(1))
    for at in range(2):
        s.poke(TX_RING + 16 * at, descriptor(TX_BUFFERS, 60, EOP | IFCS | RS))
    s.write(TDT, 2)
    s.sends(2)
    s.peek(TX_RING + 16 + 12, 1)
    s.poke(TX_BUFFERS, packet(2))
    s.poke(TX_RING + 32, descriptor(TX_BUFFERS, 60, EOP | IFCS | RS))
    s.write(TDT, 3)
    s.sends(1)


def right() -> dict[str, Script]:
    """Drivers without a fault, by their names."""
    made = {}
    for manner, play in MANNERS.items():
        made[manner] = Script(manner)
        play(made[manner])
        made[f"{manner}-twice"] = Script(manner)
        twice(made[f"{manner}-twice"], manner)
    made["ixy-one-by-one"] = Script("ixy")
    ixy(made["ixy-one-by-one"], batch=1)
    made["ixy-one-buffer"] = Script("ixy")
    one_packet_to_two(made["ixy-one-buffer"])
    return made


def scripts() -> dict[str, str]:
    """The texts of all scripts by their names below tests/data/drivers."""
    made = {f"right/{name}.em": "".join(f"{line}\n" for line in s.lines) for name, s in right().items()}
    for (manner, fault), words in FAULTS.items():
        s = Script(manner, fault)
        s.lines += [f"# {words}", "#"]
        MANNERS[manner](s)
        assert s.culprit, (manner, fault)
        s.lines[1] = f"# culprit {s.culprit}" + (f", effect {s.effect}" if s.effect else "")
        made[f"broken/{manner}-{fault}.em"] = "".join(f"{line}\n" for line in s.lines)
    return made


def main() -> int:
    for name, text in scripts().items():
        (DATA / name).parent.mkdir(parents=True, exist_ok=True)
        (DATA / name).write_text(text)
    return 0


if __name__ == "__main__":
    sys.exit(main())
