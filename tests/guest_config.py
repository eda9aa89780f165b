"""em_guest with a QEMU that is played: configuration space, and accesses of registers."""
from pathlib import Path

import guest_packages
from guest_tools import Guest, counted_run, differ, ended
from played_qemu import PORTS, WINDOW, PlayedQemu
from tally import Tally, run

# of each register of configuration space that is not zero: what it is after power on, and which bits can be written
CONFIG = {
    0x00: (0x100E8086, 0), 0x04: (0x02200000, 0x00000557), 0x08: (0x02000002, 0), 0x0C: (0, 0x0000FFFF),
    0x10: (0, 0xFFFE0000), 0x18: (1, 0xFFFFFFC0), 0x2C: (0x001E8086, 0), 0x3C: (0x00FF0100, 0x000000FF),
}
SHOWN = [
    "00:03.0 Ethernet controller [0200]: Intel Corporation 82540EM Gigabit Ethernet Controller [8086:100e] (rev 02)",
    "Subsystem: Intel Corporation PRO/1000 MT Desktop Adapter [8086:001e]",
    "Control: I/O+ Mem+ BusMaster+ SpecCycle- MemWINV- VGASnoop- ParErr- Stepping- SERR- FastB2B- DisINTx-",
    "Status: Cap- 66MHz+ UDF- FastB2B- ParErr- DEVSEL=medium >TAbort- <TAbort- <MAbort- >SERR- <PERR- INTx-",
    "Interrupt: pin A routed to IRQ 11",
    "Region 0: Memory at feb00000 (32-bit, non-prefetchable)",
    "Region 2: I/O ports at c000",
]


def config(tally: Tally, room: Path) -> None:
    guest = Guest(room, "config")
    qemu = guest.qemu()
    qemu.set_interrupt()
    start = {at: qemu.config_read(at, 4) for at in range(0, 256, 4)}
    tally.check("configuration space", differ({f"{at:02X}": (start[at], CONFIG.get(at, (0, 0))[0]) for at in start}))
    for at in range(0, 256, 4):
        qemu.config_write(at, 4, 0xFFFFFFFF)
    wrote = {at: qemu.config_read(at, 4) for at in start}
    wanted = {at: start[at] | CONFIG.get(at, (0, 0))[1] for at in start}
    tally.check("what of it can be written", differ({f"{at:02X}": (wrote[at], wanted[at]) for at in start}))
    sizes = {f"BAR {bar}": (-(qemu.config_read(0x10 + 4 * bar, 4) & ~15) & 0xFFFFFFFF, size)
             for bar, size in enumerate((131072, 0, 64, 0, 0, 0))}
    qemu.reset()
    sizes["after a reset"] = ([qemu.config_read(at, 4) for at in range(0, 256, 4)], list(start.values()))
    qemu.config_write(0x3C, 1, 11)
    qemu.config_write(0x11, 1, 0xFF)
    qemu.config_write(0x12, 2, 0xFEB0)
    sizes["an octet"] = (qemu.config_read(0x3C, 1), 11)
    sizes["two octets"] = (qemu.config_read(0x10, 4), 0xFEB00000)
    for address, length in ((0x100, 1), (0xFE, 4), (0, 3), (0, 0), (0xFFFFFFFF, 4), (0, -4)):
        sizes[f"{length} octets at {address:X}"] = (qemu.config_read(address, length), 2**64 - 1)
    tally.check("sizes and resets", differ(sizes))
    shown(tally, room, qemu)
    qemu.close()
    ended(tally, "the end of a QEMU that only looked", guest, 0, r"0 accesses of registers, 0 refused")


def shown(tally: Tally, room: Path, qemu: PlayedQemu) -> None:
    """What lspci tells of a dump of it."""
    lspci = guest_packages.lspci()
    if not lspci:
        print("not run: configuration space by lspci, which is not here and apt has not", flush=True)
        return
    qemu.boot()
    qemu.config_write(0x3C, 1, 11)
    octets = [qemu.config_read(at, 1) for at in range(256)]
    rows = [f"{at:02x}: " + " ".join(f"{octet:02x}" for octet in octets[at:at + 16]) for at in range(0, 256, 16)]
    (room / "dump").write_text("00:03.0 Ethernet controller\n" + "\n".join(rows) + "\n")
    ran = run([lspci, "-F", room / "dump", "-nn", "-vvv"])
    told = [" ".join(line.split()) for line in ran.stdout.decode().splitlines()]
    tally.check("lspci -F", [f"{line!r} is not told: {told}" for line in SHOWN if line not in told])


def accesses(tally: Tally, room: Path) -> None:
    guest = Guest(room, "accesses", "--mac", "02:00:5e:10:00:01")
    qemu = guest.qemu()
    qemu.boot()
    seen = {
        "STATUS": (qemu.read(8), 0x83),
        "RAL 0": (qemu.read(0x5400), 0x105E0002),
        "no register": (qemu.read(0x10), 0),
        "two octets of four": (qemu.read(0x5402, 2), 0x105E),
        "an octet": (qemu.read(0x5403, 1), 0x10),
        "eight octets": (qemu.read(0x5400, 8), 0x80000100105E0002),
        "four octets across": (qemu.read(0x5402, 4), 0x0100105E),
        "below the window": (qemu.bar_read(WINDOW - 4), 0xFFFFFFFF),
        "behind the window": (qemu.bar_read(WINDOW + 0x20000, 2), 0xFFFF),
        "across its end": (qemu.bar_read(WINDOW + 0x1FFFE), 0xFFFFFFFF),
        "of no size": (qemu.bar_read(WINDOW, 3), 0xFFFFFF),
        "far away": (qemu.bar_read(2**64 - 1, 8), 2**64 - 1),
    }
    qemu.write(0x2800, 0x12345678)
    qemu.write(0x2804, 0x9ABCDEF0)
    seen["a ring's address"] = (qemu.read(0x2800) | qemu.read(0x2804) << 32, 0x9ABCDEF012345670)
    qemu.write(0x2810, 7)
    qemu.write(0x2810, 9, 2)
    qemu.write(0x2811, 9)
    seen["writes of two octets, and of four at odd places"] = (qemu.read(0x2810), 7)
    qemu.bar_write(PORTS, 0x2810, is_memory=False)
    seen["IOADDR"] = (qemu.bar_read(PORTS, is_memory=False), 0x2810)
    qemu.bar_write(PORTS + 4, 5, is_memory=False)
    seen["IODATA"] = (qemu.bar_read(PORTS + 4, is_memory=False), 5)
    seen["by the window"] = (qemu.read(0x2810), 5)
    qemu.bar_write(PORTS, 0x20000, is_memory=False)
    qemu.bar_write(PORTS + 4, 6, is_memory=False)
    seen["IODATA of no register"] = (qemu.bar_read(PORTS + 4, is_memory=False), 0)
    qemu.write(0, 0x04000000)
    seen["after a reset"] = (qemu.read(0x2800) | qemu.read(0x2804) << 32, 0)
    for offset in range(0x6000, 0x6040, 4):
        qemu.write(offset, 0)
    tally.check("accesses", differ(seen))
    qemu.close()
    ended(tally, "what is told of refused accesses", guest, 0, r"17 refused",
          r"has not: 00010 \(1 reads, 0 writes\), 06000 \(0 reads, 1 writes\), .*, and 5 more",
          r"\d+ accesses were of no register's four octets", r"lines: \./em_debug /.*\.em\n")
    lines = guest.kept.read_text().splitlines()
    tally.check("what is kept of accesses", differ({
        "the head": (lines[0], "# em_debug --memory 1024G --budget 16777216 --mac 02005E100001"),
        "a read": ("r 00008 = 00000083" in lines, True), "a refusal": ("r 00010 = refused NoRegister" in lines, True),
        "a ring's address": ("w 02800 12345678" in lines, True)}))
    counted_run(tally, "accesses, played again", guest.kept, 10)


def accesses_of_the_second_profile(tally: Tally, room: Path) -> None:
    guest = Guest(room, "second-profile", "--profile", "adapter")
    qemu = guest.qemu()
    qemu.boot()
    seen = {"EECD": (qemu.read(0x10), 0x118)}
    qemu.write(0x10, 0x42)
    seen["EECD with REQ and CS"] = (qemu.read(0x10), 0x1CA)
    qemu.write(0x20, 0x08220000)
    seen["the PHY's word 2"] = (qemu.read(0x20), 0x18220141)
    seen["no register"] = (qemu.read(0x180), 0)
    tally.check("accesses of the second profile", differ(seen))
    qemu.close()
    ended(tally, "what is told of accesses of the second profile", guest, 0, r"6 accesses of registers, 0 refused")
    lines = guest.kept.read_text().splitlines()
    tally.check("what is kept of accesses of the second profile", differ({
        "the head": (lines[0], "# em_debug --memory 1024G --budget 16777216 --profile adapter --mac 525400123456"),
        "a write": ("w 00020 08220000" in lines, True), "a read": ("r 00020 = 18220141" in lines, True)}))
    counted_run(tally, "accesses of the second profile, played again", guest.kept, 4)


PARTS = (config, accesses, accesses_of_the_second_profile)
