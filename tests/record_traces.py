"""Records what a driver does to QEMU's e1000: the log `driver.log` and the capture `driver.pcap` of a folder.

    python3 tests/record_traces.py FOLDER

Those of tests/data/traces were made so, with QEMU 7.2.22 of Debian 12. The driver sets the adapter up, takes five
frames, sends two, and reads its counters.
"""
import struct
import sys
from pathlib import Path

from qemu_adapter import Adapter

CTRL, STATUS, EERD, CTRL_EXT, MDIC = 0x0, 0x8, 0x14, 0x18, 0x20
ICR, ITR, IMS, IMC = 0xC0, 0xC4, 0xD0, 0xD8
RCTL, TCTL, TIPG, LEDCTL, PBA = 0x100, 0x400, 0x410, 0xE00, 0x1000
RDBAL, RDBAH, RDLEN, RDH, RDT, RDTR = 0x2800, 0x2804, 0x2808, 0x2810, 0x2818, 0x2820
TDBAL, TDBAH, TDLEN, TDH, TDT, TIDV = 0x3800, 0x3804, 0x3808, 0x3810, 0x3818, 0x3820
MTA, RAL, RAH, VFTA = 0x5200, 0x5400, 0x5404, 0x5600
STATISTICS = range(0x4000, 0x4100, 4)

RX_RING, TX_RING, BUFFERS, PACKETS = 0x8000, 0x9000, 0x20000, 0x40000
DESCRIPTORS, BUFFER = 16, 2_048
DONE = b"\x07"

OURS, OTHER = bytes.fromhex("525400123456"), bytes.fromhex("020000000001")
BROADCAST, GROUP = bytes.fromhex("ffffffffffff"), bytes.fromhex("01005e0000fb")


def frame(destination, size):
    return destination + OTHER + b"\x08\x00" + bytes(k % 251 for k in range(size - 14))


# that of 42 octets is padded to 60 on its way
FRAMES = [frame(BROADCAST, 60), frame(OURS, 590), frame(GROUP, 128), frame(OURS, 42), frame(BROADCAST, 1514)]


def pcap(frames):
    """A capture of these frames, a millisecond apart."""
    records = [struct.pack("<IIII", 0, 1_000 * k, len(octets), len(octets)) + octets for k, octets in enumerate(frames)]
    return struct.pack("<IHHiIII", 0xA1B2C3D4, 2, 4, 0, 0, 65_535, 1) + b"".join(records)


def set_up(adapter):
    """As drivers do: reset, identity, filters, rings, engines, interrupts."""
    write, read = adapter.write, adapter.read
    write(IMC, 0xFFFFFFFF)
    write(CTRL, read(CTRL) | 0x04000000)
    read(CTRL)
    write(IMC, 0xFFFFFFFF)
    read(ICR)
    for word in range(3):
        write(EERD, word << 8 | 1)
        read(EERD)
    for phy in (2, 3, 1):
        write(MDIC, 0x08200000 | phy << 16)
        read(MDIC)
    write(CTRL, read(CTRL) | 0x40)
    for word in range(128):
        write(MTA + 4 * word, 0)
    write(MTA + 4 * 0x7D, 1 << 16)
    write(RAL, int.from_bytes(OURS[:4], "little"))
    write(RAH, 0x80000000 | int.from_bytes(OURS[4:], "little"))
    for base, low, high, size, head, tail in (
        (RX_RING, RDBAL, RDBAH, RDLEN, RDH, RDT), (TX_RING, TDBAL, TDBAH, TDLEN, TDH, TDT)
    ):
        write(low, base)
        write(high, 0)
        write(size, 16 * DESCRIPTORS)
        write(head, 0)
        write(tail, 0)
    for index in range(DESCRIPTORS):
        adapter.poke(RX_RING + 16 * index, struct.pack("<QQ", BUFFERS + BUFFER * index, 0))
    write(RDTR, 0)
    write(TIDV, 8)
    write(TIPG, 0x0060200A)
    write(RDT, DESCRIPTORS - 1)
    write(RCTL, 0x00008202)
    write(TCTL, 0x0003F0FA)
    read(ICR)
    write(IMS, 0x9D)
    read(STATUS)


def receive(adapter):
    """A frame at a time: an interrupt's cause is read, and the descriptor is given back."""
    for index, octets in enumerate(FRAMES):
        adapter.send(octets)
        adapter.wait_for(RX_RING + 16 * index + 12, DONE)
        adapter.read(ICR)
        adapter.read(RDH)
        adapter.poke(RX_RING + 16 * index, struct.pack("<QQ", BUFFERS + BUFFER * index, 0))
        adapter.write(RDT, index)


def transmit(adapter):
    for index, size in enumerate((60, 1_000)):
        adapter.poke(PACKETS, frame(OTHER, size))
        adapter.poke(TX_RING + 16 * index, struct.pack("<QHBBBBH", PACKETS, size, 0, 0x0B, 0, 0, 0))
        adapter.write(TDT, index + 1)
        adapter.read(ICR)
        adapter.read(TDH)


def main():
    folder = Path(sys.argv[1])
    (folder / "driver.pcap").write_bytes(pcap(FRAMES))
    with Adapter(str(folder / "driver.log")) as adapter:
        set_up(adapter)
        receive(adapter)
        transmit(adapter)
        for offset in STATISTICS:
            adapter.read(offset)
        adapter.write(IMC, 0xFFFFFFFF)
        adapter.write(RCTL, 0)
    return 0


if __name__ == "__main__":
    sys.exit(main())
