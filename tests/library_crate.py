"""The tests of the libraries from outside, as a crate: tests/library holds its files. They are run without a proof, and
so they are no `.rt` files, each of which rt wants proved."""
from pathlib import Path

from tally import TOP

LIBRARY = TOP / "tests" / "library"
EXAMPLES = TOP / "examples"
FILES = sorted(LIBRARY.glob("*.rtt"))
NAME = "em_tests"
# What the tests of the driver's calls stand on, which tests/tried calls too.
CALLING = [LIBRARY / f"{name}.rtt" for name in "digest driven plan same setup".split()]
# What these tests need of a crate that none of its calls gives, by the crate's name and file.
INSIDE = sorted(LIBRARY.glob("inside/*/*.rtt"))
# The crates of which these tests print values. Nothing else does, and so their types derive Debug only in the copy.
PRINTED = ["em_prompt"]
# What bench/watch.py measures, whose tests are in `speed`.
MEASURED = [TOP / "bench" / "speed" / f"{name}.rtt" for name in ("kind", "performs", "words")]
# The lines that the test `shown` plays, and in `stdout` what they must give.
SHOWN = LIBRARY / "shown"


def uses() -> list[str]:
    """The crates that the tests name."""
    return (LIBRARY / "uses").read_text().split()


def literal(octets: bytes) -> str:
    """The octets as a byte string of the language."""
    kept = {10: "\\n", 34: '\\"', 92: "\\\\"}
    return 'b"' + "".join(kept.get(one) or (chr(one) if 32 <= one < 127 else f"\\x{one:02X}") for one in octets) + '"'


def examples() -> str:
    """The scripts of examples/ as constants, for the tests that play them: that of broken/ring.em is RING_OF_BROKEN."""
    text = "//! The scripts of examples/, as they stand there.\n"
    for file in sorted(EXAMPLES.glob("**/*.em")):
        name = "_OF_".join([file.stem, *file.relative_to(EXAMPLES).parts[:-1]]).replace("-", "_").upper()
        text += f"\npub const {name}: &[u8] = {literal(file.read_bytes())};\n"
    return text


def shown_lines(told: Path) -> str:
    """The lines that the test `shown` plays, as a constant, and the name of the file into which it writes what they give."""
    lines = literal((SHOWN / "stdin").read_bytes())
    return f'//! The lines of shown/stdin.\n\npub const LINES: &[u8] = {lines};\n\npub const TOLD: &str = "{told}";\n'


def told_in(crate: Path) -> Path:
    """The file into which the test `shown` writes."""
    return crate / "told"


def opened(crates: Path) -> list[tuple[Path, str]]:
    """Puts what these tests need of a crate behind its file, in copies of the crates; the files, and their text then."""
    made = []
    for inner in INSIDE:
        file = crates / inner.parent.name / "src" / f"{inner.stem}.rt"
        made.append((file, f"{file.read_text()}\n{inner.read_text()}"))
        file.write_text(made[-1][1])
    return made


def printed(crates: Path) -> None:
    """Lets the types of those crates be printed, in copies of the crates."""
    for file in (file for name in PRINTED for file in (crates / name / "src").glob("*.rt")):
        file.write_text(file.read_text().replace("#[derive(Clone, Copy)]", "#[derive(Clone, Copy, Debug)]"))


def copied(crate: Path) -> Path:
    """The crate's folder, with its files."""
    (crate / "src").mkdir(parents=True)
    for file in (*FILES, *MEASURED):
        (crate / "src" / f"{file.stem}.rt").write_text(file.read_text())
    (crate / "src" / "examples.rt").write_text(examples())
    (crate / "src" / "shown_lines.rt").write_text(shown_lines(told_in(crate)))
    return crate
