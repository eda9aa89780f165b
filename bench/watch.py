#!/usr/bin/env python3
"""Measures what scripts don't show: a search for the last change, and a trail of notes.

    bench/watch.py [--runs N] [--no-instructions] [PROGRAM]

PROGRAM is what bench/speed makes. Where none is named it is proved and built as a crate in a copy of the others, with
the libraries that stand built in this tree (by `rt ci`, or by `rt lib` in crates/em_watch and crates/em_trail); one that
is not there is proved first. Each number is the difference of two runs, one of which
does the same more often, so that start-up and preparation fall out. Times are seconds of the processor, the best of N
runs (7) of each; instructions are counted by valgrind's callgrind.
"""
import argparse
import os
import re
import shutil
import subprocess
import sys
import tempfile
from pathlib import Path

TOP = Path(__file__).resolve().parent.parent
SOURCES = TOP / "bench" / "speed"
NAME = "em_speed"
# What the copy is made of.
COPIED = ("src", "specs", "proofs", "out/rlib")
WATCHES = ("register", "line", "octets", "frames")
# by kind how many events fill the greatest journal with as many records as it holds, or 500,000
GREATEST = {"registers": 500_000, "memory": 500_000, "idle": 500_000, "frames": 174_000}
USUAL = 30_000
TASKS = ("perform", "note")
# frames come and go with each of these records, so that the first is found
NEVER_STAYS = {("frames", "frames")}
KINDS = {"registers": "register accesses", "memory": "memory writes", "frames": "arrivals and receive steps",
         "idle": "idle receive steps"}


def build(room: Path) -> str:
    """Proves and builds the program in a copy of the crates; where it lies."""
    sys.path.insert(0, str(TOP / "tests"))
    from built import QUICK_RT, mark_built
    from tally import below

    for name in below():
        for part in COPIED:
            if (TOP / "crates" / name / part).is_dir():
                shutil.copytree(TOP / "crates" / name / part, room / "crates" / name / part)
    shutil.copy2(TOP / "HANDLES", room)
    shutil.copy2(TOP / "crates.txt", room)
    mark_built(room)
    crate = room / "crates" / NAME
    (crate / "src").mkdir(parents=True)
    for file in SOURCES.glob("*.rtt"):
        (crate / "src" / f"{file.stem}.rt").write_text(file.read_text())
    with open(room / "crates.txt", "a", encoding="ascii") as table:
        table.write(f"\n{NAME}: {(SOURCES / 'uses').read_text()}")
    # it is run once besides
    subprocess.run([QUICK_RT, "run", "--", "perform", "registers", "2"], cwd=crate, check=True)
    return str(crate / "out" / NAME)


class Measured:
    """Runs the program."""

    def __init__(self, program: str, runs: int) -> None:
        self.program, self.runs = program, runs

    def seconds(self, *words) -> float:
        """The least time of the processor that a run takes."""
        return min(self.once([self.program, *map(str, words)]) for _ in range(self.runs))

    def once(self, words: list[str]) -> float:
        started = subprocess.Popen(words, stdout=subprocess.DEVNULL)
        _, status, used = os.wait4(started.pid, 0)
        started.returncode = os.waitstatus_to_exitcode(status)
        if started.returncode:
            raise SystemExit(f"{' '.join(words)}: status {started.returncode}")
        return used.ru_utime + used.ru_stime

    def instructions(self, *words) -> int:
        count = ["valgrind", "--tool=callgrind", "--callgrind-out-file=/dev/null", self.program, *map(str, words)]
        ran = subprocess.run(count, capture_output=True, text=True, check=True)
        return int(re.search(r"Collected : (\d+)", ran.stderr)[1])


def searches(measured: Measured, counts: bool) -> None:
    print("last_change where no record changes the thing: microseconds (instructions a record)")
    print(f"{'records':>28} {'how many':>9} " + " ".join(f"{watch:>18}" for watch in WATCHES))
    for kind, greatest in GREATEST.items():
        for events in (USUAL, greatest):
            few, many = 10, 10 + 30_000_000 // events
            cells = []
            for watch in WATCHES:
                if (kind, watch) in NEVER_STAYS:
                    cells.append(f"{'-':>18}")
                    continue
                spent = measured.seconds("search", kind, events, watch, many)
                spent -= measured.seconds("search", kind, events, watch, few)
                text = f"{spent / (many - few) * 1e6:.0f}"
                if counts:
                    more = measured.instructions("search", kind, events, watch, 4)
                    more -= measured.instructions("search", kind, events, watch, 2)
                    text += f" ({more / 2 / events:.1f})"
                cells.append(f"{text:>18}")
            print(f"{KINDS[kind]:>28} {events:>9} " + " ".join(cells), flush=True)


def more(measure, few: tuple, many: tuple) -> float:
    """What an event more costs, of two runs whose last word is a number of events."""
    return (measure(*many) - measure(*few)) / (many[-1] - few[-1])


def against(plain: float, noted: float, unit: str) -> str:
    return f"{plain:7.1f} {noted:7.1f} {unit} ({100 * (noted / plain - 1):+.1f} percent)"


def trails(measured: Measured, counts: bool) -> None:
    print("an event without a trail and with one")
    for kind in KINDS:
        times = [1e9 * more(measured.seconds, (task, kind, 100_000), (task, kind, 2_100_000)) for task in TASKS]
        cells = [against(*times, "ns")]
        if counts:
            cells += [
                against(*(more(measured.instructions, (task, kind, few), (task, kind, many)) for task in TASKS), what)
                for what, few, many in (("instructions", 100_000, 300_000), ("while it fills", 2_000, 10_000))
            ]
        print(f"{KINDS[kind]:>28}: " + "; ".join(cells), flush=True)


def main() -> None:
    parser = argparse.ArgumentParser(description=__doc__.split("\n", maxsplit=1)[0])
    parser.add_argument("program", nargs="?")
    parser.add_argument("--runs", type=int, default=7)
    parser.add_argument("--no-instructions", action="store_true")
    parser.add_argument("--only", choices=["searches", "trails"])
    words = parser.parse_args()
    with tempfile.TemporaryDirectory() as room:
        measured = Measured(words.program or build(Path(room)), words.runs)
        if words.only != "trails":
            searches(measured, not words.no_instructions)
        if words.only != "searches":
            trails(measured, not words.no_instructions)


if __name__ == "__main__":
    main()
