#!/usr/bin/env python3
"""Writes tools/em_debug.words: what one types into em_debug, for the completion of ./em_debug at a terminal.

    tests/debug_words.py > tools/em_debug.words

The commands are those of crates/em_prompt, the registers, bits and fields those of crates/em_names. Of the registers that stand
in arrays the first is named: nobody completes MTA[77]. tests/debugger holds the file to the code.
"""
import re
import sys

from page_names import ARRAYED, of_code, registers
from second_reading import NAMES_BESIDES
from tally import CRATES

# words that stand behind a command's name
BEHIND = "PHY again all changes differs down dropped frames line link off on refused rx sent tx until wrote".split()


def commands() -> list[str]:
    """The names of commands, without those that overwrite a file: these are typed on purpose."""
    text = (CRATES / "em_prompt" / "src" / "command.rt").read_text()
    looks = (CRATES / "em_line" / "src" / "look.rt").read_text()
    return re.findall(r'^ +\w+, "(\w+)",?\s', text, re.M) + re.findall(r'^ +\w+, b"(\w+)"', looks, re.M)


def words() -> list[str]:
    names = [name for _, name in registers()] + list(NAMES_BESIDES.values())
    kept = [name for name in names if not ARRAYED.fullmatch(name) or re.search(r"^(MTA|VFTA)\[0\]$|^RA[LH]0$", name)]
    bits = {row[0] for rows in of_code().values() for row in rows}
    return sorted({*commands(), *BEHIND, *kept, *bits})


def text() -> str:
    return "".join(f"{word}\n" for word in words())


if __name__ == "__main__":
    sys.stdout.write(text())
