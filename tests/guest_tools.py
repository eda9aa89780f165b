"""What the parts of tests/guests share."""
import re
import struct
import subprocess
import time
from pathlib import Path

from played_qemu import PlayedQemu, receive_descriptor
from tally import CRATES, TOP, Tally, run

GUEST = TOP / "guest"
LIBRARY = TOP / "dist" / "x86_64-linux"
STRICT = ["-std=c11", "-D_GNU_SOURCE", "-pedantic", "-Wall", "-Wextra", "-Werror"]
SANITIZERS = ["-g", "-O1", "-fsanitize=address,undefined", "-fno-sanitize-recover=all", "-fno-omit-frame-pointer"]

RUBBISH = 0xFFFFFF00FFFFFFFF  # of a receive descriptor behind its address, without a status
RECEIVING = 0x0000801A  # RCTL: EN, UPE, MPE, BAM, buffers of 2,048 octets
FRAME = bytes.fromhex("FFFFFFFFFFFF52540000000108060001") + bytes(range(44))


def debugger() -> Path:
    built = CRATES / "em_debug" / "out" / "em_debug"
    return built if built.is_file() else LIBRARY / "em_debug"


def counted_run(tally: Tally, name: str, kept: Path, least: int = 1, warnings: str = r"\d+") -> None:
    """em_debug plays a run to the answers that it expects, at least so many of them, with so many warnings."""
    ran = run([debugger(), "--batch", kept], timeout=120)
    last = (ran.stdout.decode().splitlines() or ["nothing"])[-1]
    counts = re.match(r"agreed (\d+), differed 0, bad 0, warnings " + warnings + "$", last)
    tally.check(name, [] if counts and int(counts[1]) >= least else [f"em_debug says {last}"])


def asked(kept: Path, room: Path, *typed: str) -> list[str]:
    """What em_debug answers when these lines are typed behind a run."""
    commands = room / f"{kept.parent.name}-{kept.name}.typed"
    commands.write_text("".join(f"{line}\n" for line in typed))
    ran = run([debugger(), "-x", commands, kept], timeout=120)
    return ran.stdout.decode().splitlines()


def tail_asked(kept: Path, room: Path) -> tuple[int, str]:
    """The line of a run that wrote the transmit tail last (and not 0, as a driver's end does); and em_debug's `who`."""
    lines = kept.read_text().splitlines()
    number = max((i for i, line in enumerate(lines, 1) if re.match(r"w 03818 0*[1-9A-F]", line)), default=0)
    return number, "\n".join(asked(kept, room, f"back to {number + 1}", "who TDT"))


class Guest:
    """The sanitized em_guest, waiting for a QEMU, with files in a folder of its own."""

    started: list = []

    def __init__(self, room: Path, name: str, *words: str, **how) -> None:
        self.room = room / name
        self.room.mkdir()
        self.path = self.room / "qemu"
        self.kept = self.room / "run.em"
        self.process = subprocess.Popen(
            [room / "em_guest", "--run", self.kept, "--listen", self.path, *words], stdout=subprocess.PIPE,
            stderr=subprocess.PIPE, **how)
        Guest.started.append(self.process)

    def qemu(self, **how) -> PlayedQemu:
        return PlayedQemu(self.path, **how)

    def rests(self) -> bool:
        """Whether it mostly waits, at 20 moments of the next half second."""
        states = []
        for _ in range(20):
            time.sleep(0.025)
            states.append(Path(f"/proc/{self.process.pid}/stat").read_text().rpartition(")")[2].split()[0])
        return states.count("S") > 15

    def end(self) -> tuple[int, str]:
        out, err = self.process.communicate(timeout=120)
        return self.process.returncode, (out + err).decode()


def differ(what: dict) -> list[str]:
    """Of each name what is, and what is wanted."""
    return [f"{name}: {got!r}, and not {wanted!r}" for name, (got, wanted) in what.items() if got != wanted]


def ended(tally: Tally, name: str, guest: Guest, status: int, *sentences: str) -> str:
    got, told = guest.end()
    faults = differ({"the status": (got, status)})
    faults += [f"{sentence!r} is not told: {told}" for sentence in sentences if not re.search(sentence, told)]
    faults += [told] if "Sanitizer" in told or "runtime error" in told else []
    tally.check(name, faults)
    return told


def set_up_rings(qemu: PlayedQemu, base: int) -> None:
    for ring, at in ((0x2800, base + 0x1000), (0x3800, base + 0x2000)):
        qemu.write(ring, at & 0xFFFFFFFF)
        qemu.write(ring + 4, at >> 32)
        qemu.write(ring + 8, 128)
    for i in range(8):
        qemu.poke(base + 0x1000 + 16 * i, receive_descriptor(base + 0x10000 + 0x1000 * i, RUBBISH))
    qemu.write(0x2818, 7)
    qemu.write(0x0100, RECEIVING)
    qemu.write(0x0400, 2)


def frames_of(path: Path) -> list[bytes]:
    """The frames of a capture that em_guest wrote."""
    octets, at, frames = path.read_bytes(), 24, []
    while at < len(octets):
        length = struct.unpack_from("<I", octets, at + 8)[0]
        frames.append(octets[at + 16:at + 16 + length])
        at += 16 + length
    return frames


def captured(tally: Tally, path: Path, wanted: list[bytes]) -> None:
    tally.check("--pcap-out", differ({"the head": (path.read_bytes()[:4].hex(), "d4c3b2a1"),
                                      "frames": (frames_of(path)[:len(wanted)], wanted)}))
