#!/usr/bin/env python3
"""Writes page/names.js: the registers by offset with their bits and fields, out of the tables of crates/em_names.

    tests/page_names.py > page/names.js

`of_code()` reads crates/em_names/src/bits.rt, and `of_docs()` the table of docs/library.md.
tests/page compares the two with the file.
"""
import json
import re
import sys

from second_reading import IN_ORDER, IN_WORDS, NAMES_BESIDES
from tally import CRATES, TOP

ARRAYED = re.compile(r"(MTA|VFTA)\[\d+\]|(RAL|RAH)\d+")


def stem(name: str) -> str:
    """A register's name without its index."""
    found = ARRAYED.fullmatch(name)
    return (found[1] or found[2]) if found else name


def of_code() -> dict[str, list[list]]:
    """By a register's name, of an array without the index: name, high bit, low bit, form of each bit and field."""
    text = (CRATES / "em_names" / "src" / "bits.rt").read_text()
    tables = {}
    for name, body in re.findall(r"static (\w+): \[Field; \d+\] = \[(.*?)\];", text, re.S):
        rows = re.findall(r'bit!\("(\w+)", (\d+)\)|field!\("(\w+)", (\d+), (\d+), (\w+)\)', body)
        tables[name] = [[bit, int(at), int(at), "bit"] if bit else [field, int(high), int(low), form.lower()]
                        for bit, at, field, high, low, form in rows]
    arms = re.findall(r"((?:Reg::\w+(?:\(_\))?(?: \| )?)+) => &(\w+),", text)
    return {reg.upper(): tables[table] for regs, table in arms for reg in re.findall(r"Reg::(\w+)", regs)}


def of_docs() -> dict[str, list[list]]:
    """The same out of docs/library.md, without the forms, each register's from the lowest bit on."""
    text = (TOP / "docs" / "library.md").read_text().partition("| Register | Bits | Fields |")[2].partition("\n\n")[0]
    found = {}
    for line in text.splitlines()[2:]:
        names, bits, fields = [cell.strip() for cell in line.strip().strip("|").split("|")]
        rows = [[name, int(at), int(at)] for name, at in re.findall(r"(\w+) (\d+)(?:,|$)", bits)]
        rows += [[name, int(high), int(low)] for name, high, low in re.findall(r"(\w+) (\d+):(\d+)", fields)]
        found |= {name: sorted(rows, key=lambda row: row[2]) for name in names.split(", ")}
    return found


def registers() -> list[tuple[int, str]]:
    return [(offset, IN_WORDS[offset]) for offset in IN_ORDER]


def text() -> str:
    lines = ["// The registers by offset, and the bits and fields of those that have them. Written by "
             "tests/page_names.py.", "",
             "/** @type {[number, string][]} offset and name of each register, of either profile */", "const REGISTERS = ["]
    line = " "
    for offset, name in sorted([*registers(), *NAMES_BESIDES.items()]):
        item = f" [0x{offset:x}, {json.dumps(name)}],"
        if len(line) + len(item) > 118:
            lines.append(line)
            line = " "
        line += item
    besides = ", ".join(json.dumps(name) for _, name in sorted(NAMES_BESIDES.items()))
    lines += [line, "];", "", "/** The names of those that the second profile alone has. */",
              f"const BESIDES = new Set([{besides}]);", "",
        "/** @type {Object<string, [string, number, number, string][]>} name, high bit, low bit, form; by name",
              " *  without index */", "const FIELDS = {"]
    for name, rows in of_code().items():
        line = f"  {name}: ["
        for row in rows:
            item = f"[{json.dumps(row[0])}, {row[1]}, {row[2]}, {json.dumps(row[3])}], "
            if len(line) + len(item) > 118:
                lines.append(line.rstrip())
                line = "    "
            line += item
        lines.append(line.rstrip(", ") + "],")
    return "\n".join(lines + ["};", ""])


if __name__ == "__main__":
    sys.stdout.write(text())
