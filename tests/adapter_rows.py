"""The worked rows of the second profile: tests/adapter/ROW.em, a script whose first line is the head. Behind each other
line but comments stands the answer that it must have, worked out by hand from docs/device.md.

em_debug plays such a script with `--batch`, as tests/debugger does, and the second reading reads its lines here.
"""
import re
from typing import NamedTuple

from second_language import parts_of, words_in
from second_reading import IN_WORDS, NAMES_BESIDES
from tally import TOP

FOLDER = TOP / "tests" / "adapter"
HEAD = re.compile(r"# em_debug( .*)? --profile adapter")
OFFSETS = {name: offset for offset, name in (IN_WORDS | NAMES_BESIDES).items()}


class AdapterRow(NamedTuple):
    """Its name, the other words of its head, its lines as em_bench has them, and the answers that they must have."""

    name: str
    words: list[str]
    lines: list[str]
    answers: list[str]


def in_offsets(said: str) -> str:
    """What a line says, with an offset for a register's name."""
    words = words_in(said)
    if words[0] in ("r", "w"):
        words[1] = f"{OFFSETS[words[1]]:X}" if words[1] in OFFSETS else words[1]
    return " ".join(words)


def adapter_rows() -> list[AdapterRow]:
    found = []
    for path in sorted(FOLDER.glob("*.em")):
        head, *others = path.read_text().splitlines()
        words = (HEAD.fullmatch(head)[1] or "").split()
        parts = [parts_of(line) for line in others if not line.startswith("#")]
        assert all(part.expected for part in parts), f"{path.name}: a line without an answer"
        lines = [in_offsets(part.said) for part in parts]
        found.append(AdapterRow(path.stem, words, lines, [part.expected for part in parts]))
    return found
