#!/usr/bin/env python3
"""Measures the bench program beside a plain one, over eleven generated scripts of 1 to 4 MB.

    bench/measure.py [--peer PROGRAM] [--runs N] [--only NAME,NAME] [--most RATIO] [--table] [PROGRAM]

PROGRAM is crates/em_bench/out/em_bench where none is named, or that of dist/. The other one is `bench/plain`, which is
built by rustc, or any program that answers the same language. Both must write the same text. They run in turn, the best
of N runs (15) counts, start-up included, and the ratio of the two times is told: 1 is as fast, 2 takes twice as long.
Only ratios of one run compare, since a machine's speed changes. Memory is the greatest resident set, where Debian's `time`
is there.

    --most RATIO    ends with status 1 where a ratio is above it
    --table         writes the rows of a table in Markdown
"""
import argparse
import math
import random
import shutil
import subprocess
import sys
import tempfile
import time
from pathlib import Path

TOP = Path(__file__).resolve().parent.parent

PLAIN = [0x00018, 0x00028, 0x00038, 0x00100, 0x00400, 0x02800, 0x02808, 0x02810, 0x02818, 0x03800, 0x03810, 0x03818]
BROADCAST, MAC = "FFFFFFFFFFFF", "525400123456"
MOST = 4_194_304


def hexadecimal(r: random.Random, count: int) -> str:
    return r.randbytes(count).hex().upper()


def registers(r: random.Random) -> list[str]:
    """Reads and writes of registers, half of them words of the arrays."""
    offsets = [r.choice(PLAIN) if r.random() < 0.5 else 0x05200 + 4 * r.randrange(128) for _ in range(200_000)]
    return [f"r {o:05X}" if r.random() < 0.5 else f"w {o:05X} {r.getrandbits(32):08X}" for o in offsets]


def pokes(r: random.Random) -> list[str]:
    """Writes of 1 to 64 octets of guest memory, and looks at them."""
    lines = []
    for _ in range(25_000):
        count = r.randint(1, 64)
        at = r.randrange(65_536 - count)
        lines += [f"poke {at:X} {r.randbytes(count).hex()}", f"peek {at:X} {count}"]
    return lines


def steps_back(r: random.Random) -> list[str]:
    """Writes, of which most are taken back one by one."""
    return [line for i in range(40_000) for line in (f"w 5200 {i:X}", f"w 5204 {i:X}", "back", "r 5204", "back")]


def descriptors(at: int, halves: list[tuple[int, str]]) -> str:
    """A write of descriptors from this address on, each of a buffer's address and of eight octets behind it."""
    return f"poke {at:X} " + "".join(buffer.to_bytes(8, "little").hex().upper() + half for buffer, half in halves)


def receive_ring(count: int, buffer: int, rctl: int) -> list[str]:
    """The link up, and a ring at 0 with buffers of this size from 2000h on, all of them but one the adapter's."""
    ring = descriptors(0, [(0x2000 + buffer * i, "00" * 8) for i in range(count)])
    return ["link up", f"w 00100 {rctl:08X}", ring, f"w 02808 {16 * count:08X}", f"w 02818 {count - 1:08X}"]


def small_frames(r: random.Random) -> list[str]:
    """60 octets each, in a ring of 64 buffers: a frame arrives, is received, and its descriptor is given back."""
    lines = receive_ring(64, 512, 0x8002)
    for tail in range(23_000):
        to = BROADCAST if r.random() < 0.3 else MAC
        lines += [f"arrive {to}{hexadecimal(r, 6)}0800{hexadecimal(r, 46)}", "rx", f"w 02818 {tail % 64:08X}"]
    return lines


def large_frames(r: random.Random) -> list[str]:
    """1,518 octets each, in one buffer of 2,048."""
    lines = receive_ring(16, 2048, 0x8002)
    for tail in range(32_000):
        lines += [f"arrive {BROADCAST}{hexadecimal(r, 6)}0800 1518", "rx", f"w 02818 {tail % 16:08X}"]
    return lines


def large_frames_in_three(r: random.Random) -> list[str]:
    """1,518 octets each, in three buffers of 512."""
    lines = receive_ring(64, 512, 0x28002)
    for number in range(29_000):
        lines += [f"arrive {BROADCAST}{hexadecimal(r, 6)}0800 1518", "rx", "rx", "rx"]
        lines.append(f"w 02818 {(63 + 3 * (number + 1)) % 64:08X}")
    return lines


def transmit_ring(r: random.Random, octets: int) -> list[str]:
    """A ring at 0 whose 64 descriptors, with EOP and RS, all send the same frame of so many octets."""
    frame = f"poke 2000 {BROADCAST}{MAC}0800{hexadecimal(r, 1486)}"
    half = octets.to_bytes(2, "little").hex().upper() + "000900000000"
    return [frame, descriptors(0, [(0x2000, half)] * 64), "w 03808 00000400", "w 00400 0000000A"]


def transmit_60(r: random.Random) -> list[str]:
    """Frames of 60 octets: the tail one further, and a step."""
    return transmit_ring(r, 60) + [line for i in range(1, 110_000) for line in (f"w 03818 {i % 64:08X}", "tx")]


def transmit_1500(r: random.Random) -> list[str]:
    """Frames of 1,500 octets: the wire grows to 75 MB."""
    return transmit_ring(r, 1500) + [line for i in range(1, 50_000) for line in (f"w 03818 {i % 64:08X}", "tx")]


def driver_calls(r: random.Random) -> list[str]:
    """A driver is started; a packet is sent, a frame arrives and is taken: 60 to 1,500 octets, half of them by LEN."""
    lines = ["link up", "init"]
    for _ in range(17_000):
        head = f"{BROADCAST}{hexadecimal(r, 6)}0800"
        for name, step in (("send", "tx"), ("arrive", "rx")):
            octets = hexadecimal(r, 46) if r.random() < 0.5 else f" {r.choice([60, 128, 256, 576, 1024, 1500])}"
            lines += [f"{name} {head}{octets}", step]
        lines.append("recv 4")
    return lines


def mixed_event(r: random.Random) -> str:
    kind = r.random()
    if kind < 0.20:
        return f"w {0x05200 + 4 * r.randrange(128):05X} {r.getrandbits(32):08X}"
    if kind < 0.30:
        return f"r {r.choice([*PLAIN, 0x000C0, 0x04074, 0x0408C]):05X}"
    if kind < 0.50:
        return f"poke {r.randrange(0xA000, 0xFF00):X} {hexadecimal(r, r.randint(1, 32))}"
    if kind < 0.65:
        return f"arrive {BROADCAST}{hexadecimal(r, 6)}0800 {r.randint(60, 700)}"
    if kind < 0.85:
        return "rx"
    return "tx" if kind < 0.97 else f"w 000C8 {r.getrandbits(17):08X}"


def hundreds_back(r: random.Random) -> list[str]:
    """Blocks of 100 events of all kinds, each block taken back at once."""
    lines = receive_ring(64, 256, 0x38002) + [f"poke 6000 {BROADCAST}{MAC}0800{hexadecimal(r, 500)}"]
    lengths = [(60 + 4 * i).to_bytes(2, "little").hex().upper() for i in range(64)]
    halves = [f"{length}00{r.choice(['09', '08', '01'])}00000000" for length in lengths]
    lines.append(descriptors(0x400, [(0x6000 + 8 * i, half) for i, half in enumerate(halves)]))
    lines += ["w 03800 00000400", "w 03808 00000400", "w 03818 0000003F", "w 00400 00000002", "w 000D0 0001FFFF"]
    for _ in range(1_400):
        lines += [*(mixed_event(r) for _ in range(100)), "back 100"]
    return lines


def resets(r: random.Random) -> list[str]:
    """Resets over a full packet buffer, taken back at once; after each twentieth it is filled anew."""
    reset, fill = "w 00000 04000000", ["w 00100 00008002"] + [f"arrive {BROADCAST}{MAC} 1518"] * 33
    lines = ["link up", *fill]
    for number in range(1, 17_001):
        reads = [f"r {r.choice(PLAIN):05X}" for _ in range(r.randint(0, 3))]
        if number % 20:
            lines += [reset, *reads, f"back {len(reads) + 1}"]
        else:
            lines += [reset, *fill, reset, "back 36"]
    return lines


WORKLOADS = (
    registers, pokes, steps_back, small_frames, large_frames, large_frames_in_three, transmit_60, transmit_1500,
    driver_calls, hundreds_back, resets,
)


WHAT = {
    registers: "reads and writes of registers",
    pokes: "writes of guest memory, and looks at it",
    steps_back: "writes, most of them taken back",
    small_frames: "frames of 60 octets that are received",
    large_frames: "frames of 1,518 octets, each into one buffer",
    large_frames_in_three: "frames of 1,518 octets, each into three buffers",
    transmit_60: "frames of 60 octets that are sent",
    transmit_1500: "frames of 1,500 octets that are sent",
    driver_calls: "a driver that sends and receives",
    hundreds_back: "a hundred events and a hundred steps back, over and over",
    resets: "resets over waiting frames, and steps back over them",
}


def script_of(make) -> bytes:
    """The script of a workload: the same in each run."""
    script = ("\n".join(make(random.Random(82540))) + "\n").encode()
    assert len(script) <= MOST, f"{make.__name__}: {len(script)} octets"
    return script


def seconds(program: str, script: Path) -> float:
    with script.open("rb") as given:
        start = time.monotonic()
        subprocess.run([program], stdin=given, stdout=subprocess.DEVNULL, check=False)
        return time.monotonic() - start


def text_of(program: str, script: Path) -> bytes:
    return subprocess.run([program], stdin=script.open("rb"), stdout=subprocess.PIPE, check=False).stdout


def memory_of(program: str, script: Path) -> str:
    """The greatest resident set in MB, as `time` tells it: what Python tells of a child has Python's own in it."""
    if not shutil.which("time"):
        return "-"
    words = [shutil.which("time"), "-f", "%M", program]
    with script.open("rb") as given:
        told = subprocess.run(words, stdin=given, stdout=subprocess.DEVNULL, stderr=subprocess.PIPE, check=False)
    return f"{int(told.stderr.split()[-1]) / 1024:.1f}"


def built(folder: Path) -> str:
    """The plain program, built into this folder."""
    program = folder / "plain"
    source = TOP / "bench/plain/main.rs"
    flags = ["--edition", "2021", "-O", "-C", "lto", "-C", "target-cpu=x86-64"]
    subprocess.run(["rustc", *flags, "-o", program, source], check=True)
    return str(program)


def options() -> argparse.Namespace:
    parser = argparse.ArgumentParser(description=__doc__.splitlines()[0])
    parser.add_argument("--peer")
    parser.add_argument("--runs", type=int, default=15)
    parser.add_argument("--only", default=",".join(make.__name__ for make in WORKLOADS))
    parser.add_argument("--most", type=float, default=math.inf)
    parser.add_argument("--table", action="store_true")
    places = [TOP / "crates/em_bench/out/em_bench", TOP / "dist/x86_64-linux/em_bench"]
    parser.add_argument("program", nargs="?", default=str(next((p for p in places if p.exists()), places[0])))
    return parser.parse_args()


def main() -> int:
    asked = options()
    ratios = {}
    with tempfile.TemporaryDirectory() as folder:
        peer = asked.peer or built(Path(folder))
        script = Path(folder) / "script"
        if asked.table:
            print("| Script | Million lines a second | Time, of the plain program's | Memory, and the plain program's, MB |")
            print("|---|---|---|---|")
        for make in (make for make in WORKLOADS if make.__name__ in asked.only.split(",")):
            text = script_of(make)
            script.write_bytes(text)
            programs = [asked.program, peer]
            assert len({text_of(program, script) for program in programs}) == 1, f"{make.__name__}: the texts differ"
            times = [[seconds(program, script) for program in programs] for _ in range(asked.runs)]
            own, other = (min(column) for column in zip(*times))
            ratios[make.__name__] = own / other
            speed, sizes = text.count(b"\n") / own / 1e6, ", ".join(memory_of(program, script) for program in programs)
            if asked.table:
                print(f"| {WHAT[make]} | {speed:.1f} | {own / other:.2f} | {sizes} |", flush=True)
            else:
                print(f"{make.__name__:22} {speed:6.2f} million lines a second   {own / other:.2f}   {sizes} MB", flush=True)
    mean = math.exp(sum(map(math.log, ratios.values())) / len(ratios))
    print(f"| geometric mean | | {mean:.2f} | |" if asked.table else f"{'geometric mean':22} {'':27} {mean:.2f}")
    slow = [name for name, ratio in ratios.items() if ratio > asked.most]
    if slow:
        print(f"above {asked.most}: {', '.join(slow)}", file=sys.stderr)
    return 1 if slow else 0


if __name__ == "__main__":
    sys.exit(main())
