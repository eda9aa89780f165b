"""em_guest with a QEMU that is played: rings, and the guest memory that they lie in."""
import fcntl
import os
import re
import socket
import struct
import termios
import time
from pathlib import Path

from guest_tools import (FRAME, RECEIVING, Guest, asked, captured, counted_run, differ, ended, frames_of,
                         set_up_rings)
from played_qemu import WINDOW, receive_descriptor, transmit_descriptor, until
from tally import Tally


def rings(tally: Tally, room: Path) -> None:
    """Frames both ways, with guest memory from address 0 on, above 4 GiB, and between."""
    for base in (0, 0x3_0000_0000, 0x0700_0000):
        wire = room / f"wire-{base:X}"
        own = socket.socket(socket.AF_UNIX, socket.SOCK_DGRAM)
        own.bind(str(wire))
        own.settimeout(60)
        guest = Guest(room, f"rings-{base:X}", "--net", f"unix:{wire}.guest:{wire}", "--pcap-out", str(wire) + ".pcap")
        qemu = guest.qemu(base=base)
        qemu.boot()
        set_up_rings(qemu, base)
        qemu.write(0xD0, 0x80)
        sent = [FRAME[:14] + bytes([i]) * (50 + i) for i in range(3)]
        for i, frame in enumerate(sent):
            qemu.poke(base + 0x20000 + 0x1000 * i, frame)
            qemu.poke(base + 0x2000 + 16 * i, transmit_descriptor(base + 0x20000 + 0x1000 * i, len(frame)))
        qemu.write(0x3818, 3)
        seen = {"sent": ([own.recv(2000) for _ in sent], sent),
                "done": ([qemu.peek(base + 0x200C + 16 * i, 1)[0] for i in range(4)], [1, 1, 1, 0]),
                "not interrupted yet": (qemu.interrupts(), 0)}
        own.sendto(bytes(30000), str(wire) + ".guest")
        own.sendto(FRAME, str(wire) + ".guest")
        seen["interrupted"] = (until(lambda: qemu.interrupts() > 0), True)
        seen["received"] = (qemu.peek(base + 0x10000, len(FRAME)), FRAME)
        seen["its descriptor"] = (qemu.peek(base + 0x1000, 16).hex(),
                                  struct.pack("<QHHBBH", base + 0x10000, len(FRAME), 0, 7, 0, 0).hex())
        os.eventfd_write(qemu.resample, 1)
        seen["asked whether it still interrupts"] = (until(lambda: qemu.interrupts() > 0), True)
        seen["INTx in STATUS"] = (qemu.config_read(6, 2), 0x0228)
        seen["ICR"] = (qemu.read(0xC0) & 0x80, 0x80)
        os.eventfd_write(qemu.resample, 1)
        time.sleep(0.1)
        seen["asked when it interrupts no more"] = (qemu.read(8) and qemu.interrupts(), 0)
        own.sendto(bytes(14), str(wire) + ".guest")
        seen["a short frame is padded"] = (until(lambda: qemu.peek(base + 0x1018, 2) == b"\x3c\x00"), True)
        tally.check(f"rings at {base:X}", differ(seen))
        qemu.close()
        ended(tally, f"rings at {base:X}, the end", guest, 0, r"2 frames arrived, 0 were dropped, 3 were sent")
        counted_run(tally, f"rings at {base:X}, played again", guest.kept, 8)
        own.close()
        lines = guest.kept.read_text().splitlines()
        stored = [line.split()[1] for line in lines[:lines.index("w 03818 00000003")] if line.startswith("poke")]
        # (the model had zeros; so the first octet that is another one is the lowest of the buffer's address)
        wanted = [f"{base + at:06X}" for i, first in enumerate((2, 1, 1))
                  for at in (0x2000 + 16 * i + first, 0x20000 + 0x1000 * i)]
        tally.check(f"rings at {base:X}, stores before the tail", differ({"pokes": (stored[-6:], wanted)}))
        told = asked(guest.kept, room, "who TDT", "wire")
        tally.check(f"rings at {base:X}, who", differ({
            "TDT": ("write TDT 00000003" in "\n".join(told), True),
            "the wire": ([line for line in told if re.fullmatch("[0-9A-F]{28,}", line)],
                         [frame.hex().upper() for frame in sent])}))
        captured(tally, Path(str(wire) + ".pcap"), [*sent, FRAME, bytes(60)][:4])


def standing_still(tally: Tally, room: Path) -> None:
    """Engines that may not, or cannot: without bus mastering, with rings outside memory, with what the model refuses."""
    guest = Guest(room, "still")
    qemu = guest.qemu()
    qemu.boot()
    set_up_rings(qemu, 0)
    qemu.poke(0x20000, FRAME)
    qemu.poke(0x2000, transmit_descriptor(0x20000, 60))
    qemu.config_write(4, 2, 3)
    qemu.write(0x3818, 1)
    seen = {"no bus master": (qemu.read(0x3810), 0)}
    qemu.config_write(4, 2, 7)
    seen["bus master"] = (qemu.read(0x3810), 1)
    qemu.poke(0x2010, transmit_descriptor(0x20000, 60, 0x2B))
    qemu.write(0x3818, 2)
    seen["extended"] = (qemu.read(0x3810), 1)
    qemu.poke(0x2010, transmit_descriptor(0x9000_0000, 60))
    qemu.write(0x3818, 2)
    seen["a buffer that is no memory"] = (qemu.read(0x3810), 1)
    qemu.poke(0x2010, transmit_descriptor(0x20000, 60))
    qemu.write(0x3818, 2)
    seen["a right one"] = (qemu.read(0x3810), 2)
    qemu.sync([(0, 1 << 22, 1 << 30, qemu.file), (1 << 40, 1 << 63, 0, qemu.file), (2**64 - 4096, 8192, 0, qemu.file)])
    qemu.write(0x3818, 3)
    seen["memory that its file does not hold"] = (qemu.read(0x3810), 2)
    qemu.sync()
    qemu.poke(0x2020, transmit_descriptor(0x20000, 60))
    qemu.write(0x3818, 3)
    seen["memory again"] = (qemu.read(0x3810), 3)
    # guest memory that can be read only: nothing is sent, since the status can't be written
    shut = os.open(f"/proc/self/fd/{qemu.file}", os.O_RDONLY)
    qemu.sync([(0, 1 << 22, 0, shut)])
    qemu.poke(0x2030, transmit_descriptor(0x20000, 60))
    qemu.write(0x3818, 4)
    seen["memory that can't be written"] = (qemu.read(0x3810), 3)
    os.close(shut)
    # two regions side by side, and a buffer that lies in both
    qemu.sync([(0, 1 << 21, 0, qemu.file), (1 << 21, 1 << 21, 1 << 21, qemu.file)])
    qemu.poke(0x1FFFE0, FRAME)
    qemu.poke(0x2030, transmit_descriptor(0x1FFFE0, 60) + transmit_descriptor(0x200000, 60))
    qemu.write(0x3818, 5)
    seen["a buffer in two regions"] = (qemu.read(0x3810), 5)
    os.ftruncate(qemu.file, 0)
    qemu.write(0x3818, 6)
    seen["memory that is cut off"] = (qemu.read(0x3810), 5)
    tally.check("engines that stand still", differ(seen))
    qemu.memory.close()
    qemu.socket.close()
    ended(tally, "engines that stand still, the end", guest, 0, "a buffer at 90000000 is no guest memory",
          "guest memory at 0 is left out", "at 10000000000 is left out", "at FFFFFFFFFFFFF000 is left out",
          "1 steps of engines refused")
    counted_run(tally, "engines that stand still, played again", guest.kept, 8)


def across(tally: Tally, room: Path) -> None:
    """Buffers up to 16 MiB, over that and behind it, all in one guest memory: they are sent as others are."""
    guest = Guest(room, "across", "--pcap-out", str(room / "across.pcap"))
    qemu = guest.qemu(base=0x00F0_0000)
    qemu.boot()
    set_up_rings(qemu, 0x00F0_0000)
    places = (0x00FF_FFC4, 0x00FF_FFE0, 0x0100_0000)
    sent = [bytes([i + 1]) * 60 for i in range(len(places))]
    seen = {}
    for i, (at, frame) in enumerate(zip(places, sent)):
        qemu.poke(at, frame)
        qemu.poke(0x00F0_2000 + 16 * i, transmit_descriptor(at, 60))
        qemu.write(0x3818, i + 1)
        seen[f"at {at:X}"] = (qemu.read(0x3810), i + 1)
    tally.check("buffers about 16 MiB", differ(seen))
    qemu.close()
    ended(tally, "buffers about 16 MiB, the end", guest, 0, "3 were sent; 0 steps of engines refused")
    counted_run(tally, "buffers about 16 MiB, played again", guest.kept, 4)
    captured(tally, room / "across.pcap", sent)


def overlaid(tally: Tally, room: Path) -> None:
    """A buffer that has its own descriptor in it is sent; and one that lies 16 MiB behind its descriptor has nothing of it."""
    for base, address in ((0, 0x1FF0), (0x0700_0000, 0x0700_1FF0), (0x0700_0000, 0x0800_1FF0)):
        name = f"overlaid-{address:X}"
        guest = Guest(room, name, "--pcap-out", str(room / f"{name}.pcap"))
        qemu = guest.qemu(base=base, octets=1 << 25)
        qemu.boot()
        set_up_rings(qemu, base)
        descriptor = transmit_descriptor(address, 60)
        qemu.poke(base + 0x1FF0, bytes([0xFF]) * 16 + descriptor)
        qemu.write(0x3818, 1)
        tally.check(f"a buffer at {address:X} on its descriptor", differ({"TDH": (qemu.read(0x3810), 1)}))
        qemu.close()
        ended(tally, f"a buffer at {address:X} on its descriptor, the end", guest, 0, "1 were sent")
        counted_run(tally, f"a buffer at {address:X} on its descriptor, played again", guest.kept)
        over = bytes([0xFF]) * 16 + descriptor + bytes(28)
        captured(tally, room / f"{name}.pcap", [over if address == base + 0x1FF0 else bytes(60)])


def received_across(tally: Tally, room: Path) -> None:
    """The same of a buffer to receive into, and one that is no guest memory."""
    (room / "one.pcap").write_bytes(struct.pack("<IHHiIIIIIII", 0xA1B23C4D, 2, 4, 0, 0, 65535, 1, 1, 0, 60, 60) + FRAME)
    guest = Guest(room, "received", "--pcap-in", str(room / "one.pcap"))
    qemu = guest.qemu(base=0x00F0_0000)
    qemu.boot()
    qemu.poke(0x00F0_1000, receive_descriptor(0x9000_0000))
    for offset, value in ((0x2800, 0x00F0_1000), (0x2808, 128), (0x2818, 1), (0x0100, RECEIVING)):
        qemu.write(offset, value)
    stored = until(lambda: qemu.read(0x4074) == 1)
    nowhere = qemu.read(0x2810)
    qemu.poke(0x00F0_1000, receive_descriptor(0x00FF_FFE0))
    qemu.write(0x2818, 1)
    tally.check("receiving about 16 MiB", differ({
        "stored": (stored, True), "nowhere": (nowhere, 0), "then": (qemu.read(0x2810), 1),
        "the frame": (qemu.peek(0x00FF_FFE0, 60), FRAME)}))
    qemu.close()
    ended(tally, "receiving about 16 MiB, the end", guest, 0, "1 frames arrived, 0 were dropped", "0 steps of engines refused",
          "the receive engine stands still: a buffer at 90000000 is no guest memory")
    counted_run(tally, "receiving about 16 MiB, played again", guest.kept, 4)


def many(tally: Tally, room: Path) -> None:
    """A full ring of 4,096 descriptors, in one access: the guest is answered, and all of it is sent."""
    guest = Guest(room, "many")
    qemu = guest.qemu()
    qemu.boot()
    qemu.poke(0x20000, FRAME)
    qemu.poke(0x100000, transmit_descriptor(0x20000, 60) * 4096)
    qemu.write(0x3800, 0x100000)
    qemu.write(0x3808, 65536)
    qemu.write(0x400, 2)
    qemu.write(0x3818, 4095)
    at_once = qemu.read(0x3810)
    # (the guest makes no access meanwhile)
    whole = until(lambda: qemu.peek(0x100000 + 16 * 4094 + 12, 1) == b"\x01")
    tally.check("4,095 frames at once", differ({"some are sent when the guest goes on": (0 < at_once < 4095, True),
                                               "all": (whole, True), "TDH": (qemu.read(0x3810), 4095)}))
    qemu.close()
    ended(tally, "4,095 frames at once, the end", guest, 0, "4095 were sent")
    text = guest.kept.read_text()
    before = text.partition("w 03818 00000FFF")[0].count("poke ")
    tally.check("4,095 frames at once, octets that are the same", differ({"the frame": (text.count("poke 020000 "), 1)}))
    tally.check("4,095 frames at once, what is looked at before", differ({"some of them": (100 < before < 4000, True)}))
    counted_run(tally, "4,095 frames at once, played again", guest.kept, 4095)


def lasting(tally: Tally, room: Path) -> None:
    """20,000 long frames are sent, each of which reaches the wire, and em_guest's memory does not grow with them."""
    captured_to = room / "lasting.pcap"
    guest = Guest(room, "lasting", "--pcap-out", captured_to,
                  env=dict(os.environ, ASAN_OPTIONS="quarantine_size_mb=1"))
    qemu = guest.qemu()
    qemu.boot()
    for offset, value in ((0x3800, 0x100000), (0x3808, 4096), (0x0400, 2)):
        qemu.write(offset, value)
    count, batch, sent, resident = 256, 200, [], []
    for turn in range(100):
        frame, first = FRAME[:14] + turn.to_bytes(2, "big") * 750, turn * batch
        qemu.poke(0x20000, frame)
        for i in range(first, first + batch):
            qemu.poke(0x100000 + 16 * (i % count), transmit_descriptor(0x20000, len(frame)))
        tail = (first + batch) % count
        qemu.write(0x3818, tail)
        if not until(lambda: qemu.read(0x3810) == tail):
            break
        sent += [frame] * batch
        resident.append(int(re.search(r"VmRSS:\s+(\d+)", Path(f"/proc/{guest.process.pid}/status").read_text())[1]))
    grew = resident[-1] - resident[len(resident) // 5]
    tally.check("20,000 frames", differ({
        "sent": (len(sent), 20_000), "KiB that it grew by, from the 4,000th on, below 2,048": (grew < 2048, True)})
        + ([] if grew < 2048 else [f"by {grew}"]))
    qemu.close()
    ended(tally, "20,000 frames, the end", guest, 0, "20000 were sent")
    tally.check("20,000 frames, on the wire", differ({"all": (frames_of(captured_to) == sent, True)}))
    counted_run(tally, "20,000 frames, played again", guest.kept, 20_000)


def waiting(tally: Tally, room: Path) -> None:
    """Frames wait in the adapter, and then on the wire; a reset loses those in the adapter; a frame in three buffers."""
    wire = room / "waiting-wire"
    own = socket.socket(socket.AF_UNIX, socket.SOCK_DGRAM)
    own.bind(str(wire))
    guest = Guest(room, "waiting", "--net", f"unix:{wire}.guest:{wire}")
    qemu = guest.qemu()
    qemu.boot()
    set_up_rings(qemu, 0)
    qemu.write(0x2818, 0)

    def arrived() -> int:
        return guest.kept.read_text().count("arrive ")

    for _ in range(24):
        own.sendto(FRAME, str(wire) + ".guest")
    sixteen = until(lambda: arrived() == 16)
    seen = {"it rests": (sixteen and guest.rests(), True), "in the adapter": (arrived(), 16)}
    qemu.reset()
    seen["the others, behind a reset"] = (until(lambda: arrived() == 24), True)
    qemu.boot()
    set_up_rings(qemu, 0)
    qemu.write(0x0100, RECEIVING | 3 << 16)
    long = FRAME * 10
    own.sendto(long, str(wire) + ".guest")
    seen["three buffers of 256 octets"] = (until(lambda: qemu.read(0x2810) == 3), True)
    seen["their descriptors"] = ([qemu.peek(0x1008 + 16 * i, 5).hex() for i in range(3)],
                                 ["0001000005", "0001000005", "5800000007"])
    seen["their octets"] = (qemu.peek(0x10000, 256) + qemu.peek(0x11000, 256) + qemu.peek(0x12000, 88), long)
    own.sendto(FRAME, str(wire) + ".guest")
    seen["the next"] = (until(lambda: qemu.read(0x2810) == 4), True)
    tally.check("frames that wait", differ(seen))
    qemu.close()
    ended(tally, "frames that wait, the end", guest, 0, "26 frames arrived, 8 were dropped")
    tally.check("no idle steps", differ({"idle": ("= idle" in guest.kept.read_text(), False)}))
    counted_run(tally, "frames that wait, played again", guest.kept, 30)
    own.close()


def is_taken(sender: socket.socket) -> bool:
    """Whether all that was sent was read."""
    return struct.unpack("i", fcntl.ioctl(sender, termios.TIOCOUTQ, bytes(4)))[0] == 0


def looping(tally: Tally, room: Path) -> None:
    """What is sent in loopback comes back, by RCTL.LBM and by the PHY's word 0, and nothing comes from the wire."""
    wire = room / "looping-wire"
    own = socket.socket(socket.AF_UNIX, socket.SOCK_DGRAM)
    own.bind(str(wire))
    guest = Guest(room, "looping", "--profile", "adapter", "--net", f"unix:{wire}.guest:{wire}")
    qemu = guest.qemu()
    qemu.boot()
    set_up_rings(qemu, 0)
    frames, seen = [FRAME[:14] + bytes([i]) * (50 + i) for i in range(3)], {}
    # SECRC, and then LBM; the PHY's loopback; neither
    settings = ((0x0100, RECEIVING | 1 << 26 | 1 << 6), (0x0020, 0x04204140), (0x0020, 0x04201140))
    for i, (offset, value) in enumerate(settings):
        if i == 1:
            qemu.write(0x0100, RECEIVING | 1 << 26)
        qemu.write(offset, value)
        if i < 2:
            own.sendto(bytes(60), str(wire) + ".guest")
            seen[f"what comes is lost, {i}"] = (until(lambda: is_taken(own)), True)
        qemu.poke(0x20000 + 0x1000 * i, frames[i])
        qemu.poke(0x2000 + 16 * i, transmit_descriptor(0x20000 + 0x1000 * i, len(frames[i])))
        qemu.write(0x3818, i + 1)
        if i < 2:
            seen[f"it came back, {i}"] = (until(lambda: qemu.read(0x2810) == i + 1), True)
            seen[f"its octets, {i}"] = (qemu.peek(0x10000 + 0x1000 * i, len(frames[i])), frames[i])
    own.settimeout(60)
    seen["on the wire"] = (own.recv(2000), frames[2])
    own.settimeout(0.3)
    try:
        seen["nothing else"] = (own.recv(2000), b"")
    except TimeoutError:
        pass
    seen["RDH"] = (qemu.read(0x2810), 2)
    tally.check("loopback", differ(seen))
    qemu.close()
    ended(tally, "loopback, the end", guest, 0, "2 frames arrived, 0 were dropped, 3 were sent")
    counted_run(tally, "loopback, played again", guest.kept, 10)
    own.close()


def again(tally: Tally, room: Path) -> None:
    """A machine that is reset while frames wait, and boots again: nothing of before is left."""
    guest = Guest(room, "again")
    qemu = guest.qemu(base=0x0700_0000)
    for i in range(2):
        qemu.boot()
        qemu.interrupts()
        seen = {"RDBAL": (qemu.read(0x2800), 0), "RDT": (qemu.read(0x2818), 0), "BAR 0": (qemu.config_read(0x10, 4), WINDOW)}
        set_up_rings(qemu, 0x0700_0000)
        qemu.write(0xD0, 2)
        qemu.write(0xC8, 2)
        qemu.poke(0x0702_0000, FRAME)
        qemu.poke(0x0700_2000, transmit_descriptor(0x0702_0000, 60))
        qemu.write(0x3818, 1)
        seen["interrupted"] = (qemu.interrupts(), 1)
        seen["sent"] = (qemu.read(0x3810), 1)
        tally.check(f"boot {i + 1}", differ(seen))
    qemu.close()
    ended(tally, "boots, the end", guest, 0, "2 were sent")
    lines = guest.kept.read_text().splitlines()
    tally.check("boots, what is kept", differ({"resets": (lines.count("w 00000 04000000 # the machine was reset"), 2)}))
    counted_run(tally, "boots, played again", guest.kept, 6)


PARTS = (rings, standing_still, across, overlaid, received_across, many, lasting, waiting, looping, again)
