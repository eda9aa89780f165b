#!/usr/bin/env python3
"""Writes the manual's pages of the C library, of what stands in its header: bunjelav.3, and one for each call.

    bindings/manual.py HEADER FOLDER      into FOLDER
    bindings/manual.py HEADER --list      only says which they are, a name a line

A call's page has its declaration, the types that it takes, and the comment before it. Calls that share a comment share a
page.
"""
import re
import sys
from pathlib import Path
from typing import NamedTuple

SECTION = 3
CALL = re.compile(r"^(?:EM_CHECKED em_code |void |const char \*)(em_\w+)\(.*?\);", re.M | re.S)
# All that is declared, in whatever form.
DECLARED = re.compile(r"^(?!static|typedef)\w[\w *]*?\b(em_\w+)\(", re.M)
TYPE = re.compile(r"^typedef (?:struct|enum) (em_\w+) \{.*?^\} \1;", re.M | re.S)
# Types of which bunjelav.3 tells.
COMMON = {"em_machine", "em_code", "em_pcap"}


class Part(NamedTuple):
    """A comment of the header, and the code behind it up to the next blank line."""

    said: str
    code: str


class Header(NamedTuple):
    version: str
    parts: list
    types: dict
    calls: list


def read(file: Path) -> Header:
    text = file.read_text()
    version = re.search(r'^#define EM_VERSION "(.*)"$', text, re.M)
    found = re.findall(r"^/\*(.*?)\*/\n(.*?)(?=\n\n|^/\*|\Z)", text, re.M | re.S)
    parts = [Part(unindented(said), code) for said, code in found]
    types = {found[1]: found[0] for found in TYPE.finditer(text)}
    calls = [found[1] for found in CALL.finditer(text)]
    if not version or not calls or calls != DECLARED.findall(text):
        raise SystemExit(f"{file} can't be read: its form has changed, and bindings/manual.py has to follow it")
    return Header(version[1], parts, types, calls)


def names_of(part: Part) -> list[str]:
    return [found[1] for found in CALL.finditer(part.code)]


def unindented(said: str) -> str:
    """A comment without the blanks under its opening."""
    return "\n".join(line.removeprefix("   ") for line in said.strip(" \n").split("\n"))


# ---- roff


def escaped(text: str) -> str:
    text = text.replace("\\", "\\e").replace("-", "\\-")
    return re.sub(r"^([.'])", r"\\&\1", text, flags=re.M)


def code(text: str) -> list[str]:
    return [".nf", *escaped(text).split("\n"), ".fi"]


def prose(text: str, calls: list[str]) -> str:
    """A paragraph, in which calls are bold."""
    def bold(found: re.Match) -> str:
        return f"\\fB{found[1]}\\fR" if found[1] in calls else found[1]

    words = re.sub(r"\b(em_\w+)\b", bold, escaped(" ".join(text.split())))
    return words.replace("`", "\"").strip()


def described(said: str, calls: list[str]) -> list[str]:
    """A comment's paragraphs, points and examples."""
    lines = []
    for block in re.split(r"\n\n", said):
        if block.startswith("    "):
            lines += [".PP", ".RS 4", *code(re.sub(r"^    ", "", block, flags=re.M)), ".RE"]
        elif block.startswith("- "):
            for point in re.split(r"\n(?=- )", block):
                lines += [".IP \\(bu 2", prose(point[2:], calls)]
        else:
            head, _, rest = block.partition("\n")
            if head.startswith("---- "):
                lines += [f".SS {escaped(head[5:])}", *([prose(rest, calls)] if rest.strip() else [])]
            else:
                lines += [".PP", prose(block, calls)]
    return lines


def page(name: str, header: Header, parts: list[str]) -> str:
    head = [".\\\" Written by bindings/manual.py, of bunjelav.h.",
            f'.TH {name} {SECTION} "" "Bunjelav {header.version}"']
    return "\n".join([*head, *parts, ""])


def first_sentence(said: str) -> str:
    words = " ".join(said.split())
    return re.split(r"(?<=[^.][a-z0-9)])[.:;] |\.$", words)[0].rstrip(".")


def call_page(header: Header, part: Part, before: str) -> str:
    """The page of a part's calls; what says that it is the same as a call does, says so of the one before it."""
    names = names_of(part)
    is_same = part.said.startswith("The same ")
    name = re.sub("^The same", f"as {before},", first_sentence(part.said))
    kinds = [it for it in dict.fromkeys(re.findall(r"\bem_\w+\b", part.code))
             if it in header.types and it not in COMMON and f"typedef struct {it} " not in part.code]
    shown = ["#include <bunjelav.h>", *(header.types[kind] for kind in kinds), part.code.strip("\n")]
    lines = [".SH NAME", f"{', '.join(names)} \\- {escaped(name)}", ".SH SYNOPSIS",
             *code("\n\n".join(shown)), ".SH DESCRIPTION", *described(part.said, header.calls)]
    if "EM_CHECKED" in part.code:
        lines += [".SH RETURN VALUE", "EM_OK, or the number of the reason why it did nothing, whose text",
                  ".BR em_strerror (3)", "gives."]
    others = [f".BR {before} (3)," if is_same else "", ".BR bunjelav (3)"]
    return page(names[0], header, [*lines, ".SH SEE ALSO", *filter(None, others)])


def overview(header: Header) -> str:
    name, rest = header.parts[0].said.removeprefix("Bunjelav: ").split("\n\n", 1)
    lines = [".SH NAME", f"bunjelav \\- {escaped(name.rstrip('.'))}", ".SH SYNOPSIS",
             *code("#include <bunjelav.h>\n\ncc program.c $(pkg-config --cflags --libs bunjelav)"),
             ".SH DESCRIPTION", *described(rest, header.calls)]
    for part in header.parts[1:]:
        if part.said.startswith("----") and "\n" in part.said:
            lines += described(part.said, header.calls)
    lines.append(".SH CALLS")
    for part in header.parts:
        for at in names_of(part)[:1]:
            listed = ", ".join(f"\\fB{name}\\fR({SECTION})" for name in names_of(part))
            lines += [".TP", listed, escaped(first_sentence(part.said)) + "."]
    shown = (*sorted(COMMON), "em_kind", "em_watched", "em_rings")
    lines += [".SH TYPES", *code("\n\n".join(header.types[it] for it in shown))]
    return page("bunjelav", header, lines)


def pages(header: Header) -> dict[str, str]:
    made, before = {"bunjelav": overview(header)}, "bunjelav"
    for part in header.parts:
        if names := names_of(part):
            made[names[0]] = call_page(header, part, before)
            made |= {name: f".so man{SECTION}/{names[0]}.{SECTION}\n" for name in names[1:]}
            before = names[0]
    if made.keys() - {"bunjelav"} != set(header.calls):
        raise SystemExit(f"no comment stands before {', '.join(sorted(set(header.calls) - made.keys()))}")
    return {f"{name}.{SECTION}": text for name, text in made.items()}


def main(words: list[str]) -> int:
    if len(words) != 2:
        print(__doc__, file=sys.stderr)
        return 64
    made = pages(read(Path(words[0])))
    for name, text in made.items():
        if words[1] == "--list":
            print(name)
        else:
            file = Path(words[1]) / name
            file.write_text(text)
            file.chmod(0o644)
    return 0


if __name__ == "__main__":
    sys.exit(main(sys.argv[1:]))
