"""em_guest's --stop-at with a QEMU that is played: the guest is held, em_debug is asked, and the guest goes on."""
import os
import re
import select
import signal
import socket
import struct
import subprocess
from pathlib import Path

from guest_tools import FRAME, Guest, debugger, differ, ended, set_up_rings
from played_qemu import BAR_READ, BAR_WRITE, WINDOW, PlayedQemu, message, transmit_descriptor, until
from tally import TOP, Tally, run


def held(guest: Guest) -> str:
    """Waits until the guest is held; what is told of it."""
    return guest.process.stderr.readline().decode()


def answered(guest: Guest, until_it: str) -> str:
    """What em_debug prints up to a line that has this text."""
    told = ""
    while until_it not in told:
        line = guest.process.stdout.readline().decode()
        if not line:
            return told + "(it ended)"
        told += line
    return told


def type_line(guest: Guest, line: str) -> None:
    guest.process.stdin.write(f"{line}\n".encode())
    guest.process.stdin.flush()


def waits(qemu: PlayedQemu, seconds: float = 0.3) -> bool:
    """Whether no answer comes within some time."""
    return not select.select([qemu.socket], [], [], seconds)[0]


def write_only(qemu: PlayedQemu, offset: int, value: int) -> None:
    """A write whose answer is not waited for."""
    qemu.send(message(BAR_WRITE, struct.pack("<QQI?3x", WINDOW + offset, value, 4, True)))


def asking(tally: Tally, room: Path) -> None:
    """The access is not answered while em_debug is asked; `quit` lets the guest go on, and it is held again."""
    guest = Guest(room, "asking", "--stop-at", "access", "tdt", "--debugger", debugger(), stdin=subprocess.PIPE)
    qemu = guest.qemu()
    qemu.boot()
    set_up_rings(qemu, 0)
    qemu.poke(0x20000, FRAME)
    qemu.poke(0x2000, transmit_descriptor(0x20000, 60) * 2)
    for i in (1, 2):
        write_only(qemu, 0x3818, i)
        told = held(guest)
        number = re.search(r"the guest is held behind line (\d+) of the run: TDT is accessed", told)
        seen = {"told": (bool(number), True), "no answer": (waits(qemu), True),
                "played": (bool(number) and f"played {number[1]} lines" in answered(guest, "played"), True)}
        type_line(guest, "who TDT")
        type_line(guest, "ring tx")
        ring = answered(guest, f"at 0020{i}0 ")
        seen["who"] = (f"write TDT 0000000{i}" in ring, True)
        # (the engine has made its step: the descriptor is done)
        seen["done"] = (qemu.peek(0x2000 + 16 * i - 4, 1), b"\x01")
        seen["still no answer"] = (waits(qemu), True)
        type_line(guest, "quit")
        seen["the answer"] = (qemu.answer(), 0)
        tally.check(f"held at TDT {i}", differ(seen) + ([] if number else [told]))
    qemu.close()
    ended(tally, "held at TDT, the end", guest, 0, "2 were sent")


def reasons(tally: Tally, room: Path) -> None:
    """Each thing that a guest is held at, where nobody types anything: it goes on at once."""
    wire = room / "reasons-wire"
    own = socket.socket(socket.AF_UNIX, socket.SOCK_DGRAM)
    own.bind(str(wire))
    words = ["access 00024", "frame 4", "refused", "dropped 2", "access EERD", "tail-past-ring", "read-again"]
    stops = [word for what in words for word in ("--stop-at", *what.split())]
    guest = Guest(room, "reasons", *stops, "--debugger", debugger(), "--net", f"unix:{wire}.guest:{wire}",
                  stdin=subprocess.DEVNULL)
    qemu = guest.qemu()
    qemu.boot()
    qemu.write(0x14, 1)
    qemu.read(0x24)
    qemu.read(0x14, 8)
    qemu.write(0x6000, 1)
    for _ in range(3):
        own.sendto(FRAME, str(wire) + ".guest")
    until(lambda: guest.kept.read_text().count("arrive ") == 3)
    set_up_rings(qemu, 0)
    qemu.poke(0x20000, FRAME)
    qemu.poke(0x2000, transmit_descriptor(0x20000, 60) + transmit_descriptor(0x20000, 60, 0x2B))
    qemu.write(0x3818, 2)
    qemu.poke(0x2010, transmit_descriptor(0x9000_0000, 60))
    qemu.write(0x3818, 2)
    qemu.write(0x2818, 200)
    qemu.write(0x2818, 6)
    qemu.write(0x3800, 0x2008)
    qemu.close()
    told = ended(tally, "what it is held at, the end", guest, 0, "3 frames arrived, 3 were dropped, 1 were sent")
    why = re.findall(r"the guest is held behind line \d+ of the run: (.*)\. `quit` lets", told)
    lines = [int(number) for number in re.findall(r"held behind line (\d+) ", told)]
    refused = "an access or a step was refused"
    tally.check("what it is held at", differ({
        "reasons": (why, ["EERD is accessed", "00024 is accessed", "EERD is accessed", refused,
                          "frame 2 of those that are dropped", "frame 4 of the wire", refused,
                          "warning tail-past-ring: RDT 200 is past the ring of 8, write an index below that", refused]),
        "lines grow": (lines, sorted(lines))}))
    own.close()


def by_signals(tally: Tally, room: Path) -> None:
    """Ctrl-C holds it where that is wanted, and is em_debug's meanwhile; other signals end it, held or not."""
    guest = Guest(room, "key", "--stop-at", "Ctrl-C", "--debugger", debugger(), stdin=subprocess.PIPE)
    qemu = guest.qemu()
    qemu.boot()
    guest.process.send_signal(signal.SIGINT)
    told = held(guest)
    qemu.send(message(BAR_READ, struct.pack("<QQI?3x", WINDOW + 8, 0, 4, True)))
    played = answered(guest, "played")
    guest.process.send_signal(signal.SIGINT)
    seen = {"told": ("of the run: Ctrl-C." in told, True), "played": (played.startswith("played 3 lines"), True),
            "no answer": (waits(qemu), True)}
    type_line(guest, "quit")
    seen["the answer"] = (qemu.answer(), 0x83)
    guest.process.send_signal(signal.SIGINT)
    seen["again"] = ("of the run: Ctrl-C." in held(guest), True)
    answered(guest, "played")
    guest.process.send_signal(signal.SIGTERM)
    tally.check("Ctrl-C", differ(seen))
    ended(tally, "a signal while it is held", guest, 128 + signal.SIGTERM, "ended by signal 15")
    qemu.close()


def without(tally: Tally, room: Path) -> None:
    """A debugger that is not there, and one that ends while it is to warn."""
    guest = Guest(room, "none", "--stop-at", "refused", "--debugger", str(room / "no-debugger"))
    qemu = guest.qemu()
    qemu.boot()
    value = qemu.read(0x10)
    qemu.close()
    tally.check("no debugger", differ({"the answer": (value, 0)}))
    ended(tally, "no debugger, the end", guest, 0, "no-debugger can't be started: No such file", "the guest is held")
    ran = run([room / "em_guest", "--run", room / "w.em", "--listen", room / "w", "--stop-at", "warning", "--debugger",
               room / "no-debugger"])
    tally.check("no debugger that warns", differ({
        "status": (ran.returncode, 3), "told": (b"no-debugger can't be started: No such file" in ran.stderr, True)}))
    script = room / "ends"
    script.write_text("#!/bin/sh\nread line\n")
    script.chmod(0o755)
    guest = Guest(room, "ends-early", "--stop-at", "warning", "--debugger", str(script))
    qemu = guest.qemu()
    qemu.boot()
    values = [qemu.read(8) for _ in range(3)]
    qemu.close()
    told = ended(tally, "a debugger that ends, the end", guest, 0, "em_debug, which warns, has ended")
    tally.check("a debugger that ends", differ({"answers": (values, [0x83] * 3), "told": (told.count("has ended"), 1)}))


def frames(tally: Tally, room: Path) -> None:
    """`frame N` counts both ways; and any warning holds, each where it comes."""
    guest = Guest(room, "frames", "--stop-at", "frame", "3", "--stop-at", "warning", "--debugger", debugger(),
                  stdin=subprocess.DEVNULL)
    qemu = guest.qemu()
    qemu.boot()
    set_up_rings(qemu, 0)
    qemu.write(0x2808, 136)
    qemu.poke(0x20000, FRAME)
    qemu.poke(0x2000, transmit_descriptor(0x20000, 60) * 6)
    qemu.write(0x3818, 4)
    qemu.write(0x3818, 5)
    qemu.close()
    told = ended(tally, "frame 3, the end", guest, 0, "5 were sent")
    why = re.findall(r"the guest is held behind line \d+ of the run: (.*)\. `quit` lets", told)
    tally.check("frame 3 and any warning", differ({"reasons": (why, [
        "warning bits-dropped: RDLEN keeps 00000080 of 00000088, its bits are 000FFF80", "frame 3 of the wire"])}))


def words(tally: Tally, room: Path) -> None:
    """The words behind --stop-at; and the warnings that it knows are those of docs/debugger.md."""
    page = (TOP / "docs" / "debugger.md").read_text()
    rules = re.findall(r"^\| `([a-z-]+)` \|", page[page.index("\n## Warnings"):], re.M)
    known = re.search(r"rules\[\] = \{(.*?)\};", (TOP / "guest" / "stop.c").read_text(), re.S)[1]
    tally.check("the names of warnings", differ({"in guest/stop.c": (re.findall(r'"([a-z-]+)"', known), rules)}))
    for given, sentence in (
        (["--stop-at"], "its value is missing"), (["--stop-at", "--", "q"], "its value is missing"),
        (["--stop-at", "dropped"], "which one is wanted"), (["--stop-at", "dropped", "0"], "which one is wanted"),
        (["--stop-at", "frame", "x"], "which one is wanted"), (["--stop-at", "frame", "3x"], "which one is wanted"),
        (["--stop-at", "access"], "a register is wanted"), (["--stop-at", "access", "XYZ"], "a register is wanted"),
        (["--stop-at", "access", "20000"], "a register is wanted"), (["--stop-at", "access", "11"], "a register is wanted"),
        (["--stop-at", "tail"], "the name of a warning, or Ctrl-C is wanted"),
        (["--stop-at", "refused"] * 9, "more than eight times"),
        (["--debugger", "x", "--listen", "y"], "goes with --stop-at"),
    ):
        ran = run([room / "em_guest", *given], env=dict(os.environ, ASAN_OPTIONS="detect_leaks=1"))
        told = ran.stderr.decode()
        well = ran.returncode == 2 and sentence in told
        tally.check(f"em_guest {' '.join(given)}", [] if well else [f"status {ran.returncode}: {told}"])


PARTS = (asking, reasons, by_signals, without, frames, words)
