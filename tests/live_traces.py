"""Drives QEMU's e1000 at random, within what the manual, the model and QEMU have in common.

Outside of that lie, by docs/device.md and docs/traces.md: bits of STATUS, values that no write has set yet, registers
that QEMU does not keep, a write of CTRL with RST, reads of ICS, upper halves of registers of 16 bits, and transmitting.
A receive ring keeps more descriptors than the threshold of RXDMT0, and a frame is accepted by the filters and followed
by a read of ICR.
"""
import struct

from qemu_adapter import Adapter, is_there
from record_traces import BROADCAST, BUFFER, BUFFERS, DONE, OURS, RX_RING, frame, pcap
from record_traces import CTRL, EERD, ICR, IMC, IMS, ITR, LEDCTL, MTA, PBA, RAH, RAL, RCTL, VFTA
from record_traces import RDBAH, RDBAL, RDH, RDLEN, RDT, RDTR, TDBAH, TDBAL, TDH, TDLEN, TDT

__all__ = ["is_there", "record"]

ICS, VET, TXDCTL, RADV, TADV = 0xC8, 0x38, 0x3828, 0x282C, 0x382C
WHOLE, HALF = 0xFFFFFFFF, 0xFFFF
# the bits that a write of each may have, and that all three then read back: of RAL 0 and RAH 0, which take frames, none
STORED = {
    CTRL: WHOLE & ~0x04000000 & ~0x40000000, VET: HALF, ITR: HALF, LEDCTL: WHOLE, PBA: WHOLE, TDBAL: WHOLE & ~0xF,
    TDBAH: WHOLE, TDLEN: 0xFFF80, TDH: HALF, TDT: HALF, TXDCTL: WHOLE, RDTR: HALF, RADV: HALF, TADV: HALF,
    **{MTA + 4 * k: WHOLE for k in range(128)}, **{VFTA + 4 * k: WHOLE for k in range(128)},
    **{RAL + 8 * k: WHOLE for k in range(1, 16)}, **{RAH + 8 * k: 0x0003FFFF for k in range(1, 16)},
}
CAUSES = 0x0001FFFF
RXT0 = 0x80
# those that frames count, and that reading clears
COUNTERS = [0x405C, 0x4060, 0x4064, 0x4068, 0x406C, 0x4070, 0x4074, 0x4078, 0x407C, 0x4088, 0x408C]
# and those that stay 0 where nothing is sent, missed or dropped
STILL = [0x4010, 0x4080, 0x4090, 0x4094, 0x40A0, 0x40A4, 0x40AC, *range(0x40D8, 0x40F8, 4)]
# of 16 descriptors a threshold of an eighth is 2
RING, LEAST_LEFT = 16, 3
EN_BAM_RDMTS = 0x00008202


class Driven:
    """The adapter, with what the next access may be."""

    def __init__(self, adapter, r):
        self.adapter, self.r, self.frames = adapter, r, []
        self.tail, self.head = RING - 1, 0

    def start(self):
        adapter = self.adapter
        adapter.write(IMC, WHOLE)
        for register, value in ((RDBAL, RX_RING), (RDBAH, 0), (RDLEN, 16 * RING), (RDH, 0), (RDT, self.tail)):
            adapter.write(register, value)
        for offset in [MTA + 4 * k for k in range(128)]:
            adapter.write(offset, 0)
        for index in range(RING):
            self.fill(index)
        adapter.write(RCTL, EN_BAM_RDMTS)
        for offset in STORED:
            adapter.write(offset, 0)

    def fill(self, index):
        self.adapter.poke(RX_RING + 16 * index, struct.pack("<QQ", BUFFERS + BUFFER * index, 0))

    def step(self):
        kind = self.r.random()
        if kind < 0.35:
            offset = self.r.choice([*STORED])
            self.adapter.write(offset, self.r.getrandbits(32) & STORED[offset])
        elif kind < 0.65:
            self.adapter.read(self.r.choice([*STORED, RDBAL, RDBAH, RDLEN, RDH, RDT, RCTL]))
        elif kind < 0.75:
            self.adapter.read(self.r.choice(COUNTERS + STILL))
        elif kind < 0.9:
            self.interrupts()
        elif kind < 0.95:
            self.eeprom()
        else:
            self.frame()

    def interrupts(self):
        register = self.r.choice([ICR, ICS, IMS, IMC, ICR, IMS])
        if register != ICS and self.r.random() < 0.5:
            self.adapter.read(register)
        else:
            # a read of ICR that tells of a frame is to tell of one
            self.adapter.write(register, self.r.getrandbits(32) & CAUSES & ~RXT0)

    def eeprom(self):
        """Words 0 to 2 hold the address; above word 63 there is none."""
        self.adapter.write(EERD, self.r.choice([0, 1, 2, 64, 255]) << 8 | 1)
        self.adapter.read(EERD)

    def frame(self):
        size = self.r.choice([60, 61, 123, 124, 251, 252, 507, 508, 1019, 1020, 1514, self.r.randrange(60, 1515)])
        octets = frame(self.r.choice([OURS, OURS, BROADCAST]), size)
        # by an address that is an exact one, whatever was written to the tables
        self.adapter.send(octets)
        self.frames.append(octets)
        self.adapter.wait_for(RX_RING + 16 * self.head + 12, DONE)
        self.adapter.read(ICR)
        self.head = (self.head + 1) % RING
        if (self.tail - self.head) % RING <= LEAST_LEFT + self.r.randrange(4):
            for index in range(RING):
                if index != self.head:
                    self.fill(index)
            self.tail = (self.head - 1) % RING
            self.fill(self.head)
            self.adapter.write(RDT, self.tail)


def record(log, capture, accesses, r):
    """Records so many accesses, and gives how many frames arrived among them."""
    with Adapter(str(log)) as adapter:
        driven = Driven(adapter, r)
        driven.start()
        for _ in range(accesses):
            driven.step()
    capture.write_bytes(pcap(driven.frames))
    return len(driven.frames)
