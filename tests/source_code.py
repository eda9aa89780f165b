"""A source file as the prover takes it: without comments and blank lines.

Comments that document (`///`, `//!`) stay, since a macro can read them. So does all that stands in quotes.
"""
import re
from pathlib import Path

RUST = re.compile(
    r"""(?P<kept>(?<!\w)b?r(?P<hashes>\#*)".*?"(?P=hashes)|b?"(?:[^"\\]|\\.)*"|b?'(?:[^'\\]|\\.[^']*)'|//[/!][^\n]*)
    |^[ \t]*(?://(?![/!])[^\n]*)?(?:\n|\Z)|[ \t]*//(?![/!])[^\n]*|[ \t]*/\*.*?\*/""",
    re.M | re.S | re.X,
)
# (there a comment has a line of its own)
DEFINITIONS = re.compile(r"^[ \t]*(?:--(?:[ \t][^\n]*)?)?(?:\n|\Z)", re.M)


def code_of(file: Path) -> str:
    """What is left of a file of code or of definitions; of any other all of it."""
    text = file.read_text()
    if file.suffix == ".rt":
        return RUST.sub(lambda found: found["kept"] or "", text)
    return DEFINITIONS.sub("", text) if file.suffix == ".antt" else text
