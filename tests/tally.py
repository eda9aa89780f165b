"""What the parts of ./check share: where things lie, one run of the program, and the count of what passed."""
import re
import subprocess
import sys
from pathlib import Path

TOP = Path(__file__).resolve().parent.parent
CRATES = TOP / "crates"
# The program of tests/tried, which tests/tried_program makes.
TRIED = TOP / "tests" / "tried" / "out" / "em_tried"
# Where a crate's wrong bodies lie.
FOLDERS = ("must-fail", "alone", "wrong")


def below() -> dict[str, list[str]]:
    """The crates of crates.txt with the crates of this repository that each names, lowest first."""
    lines = [line.partition("#")[0] for line in (TOP / "crates.txt").read_text().splitlines()]
    named = {head.split()[0]: deps.split() for head, colon, deps in (line.partition(":") for line in lines) if colon}
    return {name: [dep for dep in deps if dep in named] for name, deps in named.items()}


def kits(top: Path = TOP) -> set[str]:
    """The kits that README.md names, each by its line of `rt version`."""
    readme = top / "README.md"
    return set(re.findall(r"rattle-kit-\S+ logic [0-9a-f]+", readme.read_text())) if readme.is_file() else set()


def program(crate: str = "em_bench") -> str:
    """The program that a part is told to run, or the crate's that was built last."""
    named = sys.argv[1] if sys.argv[1:] else str(CRATES / crate / "out" / crate)
    if not Path(named).is_file():
        built_by = "./em_bench --build" if crate == "em_bench" else f"rt run in crates/{crate}"
        sys.exit(f"{named} is not there: {built_by} builds it")
    # a part may run it from another folder
    return str(Path(named).resolve())


def tried() -> str:
    """The program that a part is told to run, or that of tests/tried."""
    named = Path(sys.argv[1] if sys.argv[1:] else TRIED)
    if not named.is_file():
        sys.exit(f"{named} is not there: tests/tried_program makes it")
    return str(named.resolve())


def run(words: list, script: bytes | None = None, **how) -> subprocess.CompletedProcess:
    """Runs a program to its end, for at most a minute, with the script on its standard input."""
    how = {"stdout": subprocess.PIPE, "stderr": subprocess.PIPE, "timeout": 60} | how
    if script is not None:
        how["input"] = script
    return subprocess.run([str(word) for word in words], check=False, **how)


def short(octets: bytes) -> str:
    return repr(octets) if len(octets) < 100 else f"{octets[:80]!r}.. of {len(octets)} octets"


class Tally:
    """Counts the checks of one part, and names those that failed."""

    def __init__(self) -> None:
        self.passed = self.failed = 0

    def check(self, name: str, faults: list[str]) -> None:
        self.passed, self.failed = self.passed + (not faults), self.failed + bool(faults)
        for fault in faults:
            print(f"{name}: {fault}", flush=True)

    def ended(
        self, name: str, ran: subprocess.CompletedProcess, status: int, out: bytes | None, err: bytes | None
    ) -> None:
        """Checks a run's status and what it wrote; None stands for what can't be seen, or is not compared."""
        faults = [] if ran.returncode == status else [f"status {ran.returncode}, and not {status}"]
        for what, is_there, wanted in (("standard output", ran.stdout, out), ("standard error", ran.stderr, err)):
            if wanted is not None and is_there is not None and is_there != wanted:
                faults.append(f"on {what} {short(is_there)}, and not {short(wanted)}")
        self.check(name, faults)

    def close(self) -> int:
        """Prints the count on a line alone; the status of the part."""
        print(f"{self.passed} passed, {self.failed} failed")
        return 1 if self.failed else 0
