"""The program of tests/tried as a crate: its files, with those of tests/library that it calls. It is run without a proof."""
from pathlib import Path

from library_crate import CALLING
from tally import TRIED

LIES_IN = TRIED.parent.parent
FILES = [*sorted(LIES_IN.glob("*.rtt")), *CALLING]
# The cases to which memory can be refused.
CASES = [file for file in FILES if file.parent == LIES_IN and file.stem.split("_")[0] in ("cases", "refused")]


def uses() -> list[str]:
    """The crates that it names."""
    return (LIES_IN / "uses").read_text().split()


def copied(crate: Path) -> Path:
    """The crate's folder, with its files."""
    (crate / "src").mkdir(parents=True)
    for file in FILES:
        (crate / "src" / f"{file.stem}.rt").write_text(file.read_text())
    return crate
