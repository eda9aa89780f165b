"""What the parts of tests/page share: pages out of records, scripts, and the steps of a run as a page counts them."""
import random
import subprocess
import sys
from pathlib import Path

import recorded
from random_lines import driven, over_rings
from tally import CRATES, TOP, run

BUDGET = 16_777_216
# in which the record of the longest run is made, and the page of it, beside much other work
SECONDS = 600
# whether the page shows all of a run, or what is wrong, within a second
READY = """
const is = () => document.getElementById('reading').hidden
  && ['run', 'broken'].some((id) => !document.getElementById(id).hidden);
return new Promise((done) => {
  let left = 20;
  const ask = () => (is() || left-- === 0 ? done(is()) : setTimeout(ask, 50));
  ask();
});
"""
EXAMPLES = sorted((TOP / "examples").glob("*.em")) + sorted((TOP / "examples" / "broken").glob("*.em"))


def program(name: str) -> str:
    """A program that was built here, or that of dist/."""
    built = CRATES / name / "out" / name
    return str(built if built.is_file() else TOP / "dist" / "x86_64-linux" / name)


def record_of(script: bytes, budget: int = BUDGET) -> bytes:
    """The record of a script: by the program that the command line names, or else by tests/recorded.py."""
    if not sys.argv[1:]:
        return recorded.recording(script, budget=budget)
    ran = run([Path(sys.argv[1]).resolve(), "--budget", budget], script, timeout=SECONDS)
    if not ran.stdout:
        sys.exit(f"{sys.argv[1]} made no record: {ran.stderr.decode(errors='replace')}")
    return ran.stdout


def page_of(record: bytes) -> bytes:
    ran = subprocess.run([TOP / "em_page", "--record", "-"], input=record, stdout=subprocess.PIPE, check=True,
        timeout=SECONDS)
    return ran.stdout


def ready(browser) -> None:
    """Waits until a page whose record is packed shows it, or says what is wrong."""
    for _ in range(SECONDS):
        if browser.run(READY):
            return
    sys.exit("a page shows nothing")


class Frame:
    """A page without its record, so that many records can be put in at once, as em_page puts them in."""

    MARK = b"THE RECORD"

    def __init__(self) -> None:
        self.before, self.behind = page_of(self.MARK).split(self.MARK)

    def around(self, record: bytes) -> bytes:
        return self.before + record.replace(b"<", b"\\u003c") + self.behind


def scripts_at_random(seed: int) -> list[tuple[str, str]]:
    """One over rings and one with a driver, with a name for each."""
    return [(f"{name} {seed}", "".join(f"{line}\n" for line in make(random.Random(seed))))
            for name, make in (("rings", over_rings), ("driver", driven))]


class Step:
    """A step of the timeline: the newest event that stands behind it, its line, and whether it performed that event."""

    def __init__(self, event: recorded.Event, line: int, performs: bool, later: int = 0) -> None:
        self.event, self.line, self.performs = event, line, performs
        # how many events of its line come behind it
        self.later = later


def steps_of(root: recorded.Event, played: list[recorded.Played]) -> list[Step]:
    steps = [Step(root, 0, False)]
    for line in played:
        if line.back is not None:
            steps.append(Step(line.newest, line.number, False))
        steps += [Step(event, line.number, True, len(line.events) - at) for at, event in enumerate(line.events, 1)]
        if line.back is None and not line.events and line.words and not line.words[0].startswith("#"):
            steps.append(Step(line.newest, line.number, False))
    return steps
