"""What the crate em_c has for its callers in C: its numbers, layouts and calls, read out of its sources.

These sources are proved to be what the crate's specs say. Whatever can't be read stops the program: a table is never
written by halves.
"""
import re
from pathlib import Path
from typing import NamedTuple

TOP = Path(__file__).resolve().parent.parent
# Of a machine, and of a capture.
HANDLES = ("EmMachine", "EmPcap")


class Refusal(NamedTuple):
    """A reason why a call did nothing: its name, its number, its sentence, and its variant in the crate."""

    name: str
    number: int
    sentence: str
    docs: str


class Field(NamedTuple):
    """A field of a layout, or a parameter of a call: its name, its type as the crate has it, and what is said of it."""

    name: str
    kind: str
    docs: str = ""


class Layout(NamedTuple):
    name: str
    fields: list
    docs: str


class Call(NamedTuple):
    """A call; `looks` says that its contract leaves what the handle holds."""

    name: str
    parameters: list
    gives: bool
    looks: bool


class Crate(NamedTuple):
    """All of it; `sizes` are those of the arrays in the layouts, by the names of their constants."""

    version: str
    refusals: list
    kinds: list
    watches: list
    rings: list
    profiles: list
    rules: list
    warnings: list
    troubles: list
    layouts: list
    calls: list
    registers: int
    most_sent: int
    sizes: dict


def words_of(name: str) -> list[str]:
    """ReceiveIdle: receive, idle."""
    return [word.lower() for word in re.findall(r"[A-Z][a-z]*", name)]


def text_of(top: Path, name: str) -> str:
    return (top / "crates" / name).read_text()


def found(pattern: str, text: str, what: str) -> list:
    """All that is found, which is something."""
    matches = re.findall(pattern, text, re.M | re.S)
    if not matches:
        raise SystemExit(f"{what} can't be read: its form has changed, and bindings/crate.py has to follow it")
    return matches


def number(text: str) -> int:
    return int(text.replace("_", ""), 0)


def docs_of(lines: str) -> str:
    return " ".join(re.findall(r"///\s*(.*)", lines))


def refusals(top: Path) -> list[Refusal]:
    body = found(r"pub enum Refused \{(.*?)\n\}", text_of(top, "em_c/src/refused.rt"), "the refusals")[0]
    rows = re.findall(r"((?:\s*///.*\n)+)\s*(\w+) = (\d+),", body)
    numbers = {name: (number(n), docs_of(docs)) for docs, name, n in rows}
    said = found(r'Refused::(\w+) =>\s*"(\w+): ([^"]*)"', text_of(top, "em_c/src/refusal_text.rt"), "their texts")
    if {variant for variant, _, _ in said} != numbers.keys():
        raise SystemExit("some refusal has a number and no text, or a text and no number")
    return [Refusal(name, numbers[variant][0], sentence, numbers[variant][1]) for variant, name, sentence in said]


def kinds(top: Path) -> list[tuple[str, int]]:
    """Each kind of event by the words that tell it; a frame that was dropped by `dropped` and the reason."""
    text = text_of(top, "em_c/src/note.rt")
    rows = found(r"Kind::(\w+) => (\d+),", text, "the kinds")
    dropped = found(r"Reason::(\w+) => (\d+),", text, "the reasons")
    told = [(" ".join(words_of(name)), number(n)) for name, n in rows]
    return told + [("dropped: " + " ".join(words_of(name)), number(n)) for name, n in dropped]


def watches(top: Path) -> list[tuple[str, int]]:
    rows = found(r"^IsWatch w s \(?watch\.(\w+)[^=]*=\s*\(?w\.kind ≡ (\d+)", text_of(top, "em_c/specs/Watch.antt"), "the watches")
    return [(name.lower(), number(n)) for name, n in rows]


def rings(top: Path) -> list[tuple[str, int]]:
    rows = found(r"(\d+) => Ok\(SidedRing::(\w+)\(", text_of(top, "em_c/src/rings.rt"), "the rings")
    return [(name, number(n)) for n, name in rows]


def profiles(top: Path) -> list[tuple[str, int, str]]:
    """Each profile, and what is said of it."""
    rows = found(r"(\d+) => Some\(Profile::(\w+)\)", text_of(top, "em_c/src/profile.rt"), "the profiles")
    return sentences([(name, n) for n, name in rows], documented(text_of(top, "em_regs/src/profile.rt"), "Profile"))


def sentences(names: list, docs: dict) -> list[tuple[str, int, str]]:
    """Each name with its number, and what is said of it, without its full stop."""
    return [(name, number(n), re.sub(r"^`[a-z-]+`: |\.$", "", docs[name])) for name, n in names]


def documented(text: str, enum: str) -> dict:
    """What is said of each variant of an enum."""
    body = found(rf"pub enum {enum} \{{(.*?)\n\}}", text, f"the enum {enum}")[0]
    return {name: docs_of(docs) for docs, name in re.findall(r"((?:\s*///.*\n)+)\s*(\w+)", body)}


def rules(top: Path) -> list[tuple[str, int, str]]:
    """Each rule by which an event does nothing."""
    text = text_of(top, "em_c/src/rule.rt")
    return sentences(found(r"^    (\w+) = (\d+),", text, "the rules"), documented(text, "Rule"))


def warnings(top: Path) -> list[tuple[str, int, str]]:
    """Each rule by which an access has a warning."""
    rows = found(r"Warning::(\w+) \{ \.\. \} => (\d+),", text_of(top, "em_c/src/warning.rt"), "the warnings")
    return sentences(rows, documented(text_of(top, "em_warnings/src/warning.rt"), "Warning"))


def troubles(top: Path) -> list[tuple[str, int, str]]:
    """Each thing that can be wrong with a descriptor."""
    rows = found(r"Trouble::(\w+)(?:\(_\))?\) => (\d+),", text_of(top, "em_c/src/entry.rt"), "the troubles")
    return sentences(rows, documented(text_of(top, "em_inspect/src/trouble.rt"), "Trouble"))


def layouts(top: Path) -> list[Layout]:
    """What is laid out as in C, but for the handles, whose inner is nobody's business, and the text of a kept run's
    lines, which no caller sees."""
    made, wanted = [], 0
    for file in sorted((top / "crates/em_c/src").glob("*.rt")):
        wanted += file.read_text().count("#[repr(C)]")
        pattern = r"((?:^///[^\n]*\n)*)#\[repr\(C\)\]\n(?:#\[[^\n]*\n)*pub struct (Em\w+) \{(.*?)\n\}"
        for docs, name, body in re.findall(pattern, file.read_text(), re.M | re.S):
            fields = re.findall(r"((?:\s*///[^\n]*\n)*)\s*pub (\w+): ([^,]+),", body)
            if name not in HANDLES:
                made.append(Layout(name, [Field(it, kind, docs_of(said)) for said, it, kind in fields], docs_of(docs)))
    # (each handle with its inner, and that text, callers see nothing of)
    if len(made) != wanted - 2 * len(HANDLES) - 1:
        raise SystemExit("some layout can't be read: its form has changed, and bindings/crate.py has to follow it")
    return made


def calls(top: Path) -> list[Call]:
    made = []
    pattern = r'pub extern "C" fn (em_\w+)\((.*?)\)( -> u32)?\n(.*?)\n\{'
    for file in sorted((top / "crates/em_c/src").glob("*.rt")):
        for name, inside, gives, contract in re.findall(pattern, file.read_text(), re.S):
            parameters = [Field(*it) for it in re.findall(r"(\w+): ([^,]+)", inside) if it[1] != "Global"]
            looks = "machine.new.sealed.held ≡ machine.old.sealed.held" in contract
            made.append(Call(name, parameters, bool(gives), looks))
    if not made:
        raise SystemExit("the calls can't be read")
    return made


def registers(top: Path) -> int:
    """How many registers there are in either profile: one a row, or as many as the row's array."""
    rows = found(r"^named_row_of \(?named\.\w+[^=]*= called \(codes \"\w+\"\) \((?:(?:later|narrowed) \()?(\w+) \w+ (\d*)",
                 text_of(top, "em_regs/specs/Table.antt"), "the registers")
    return sum(number(count) if form == "array" else 1 for form, count in rows)


def constant(top: Path, name: str, file: str) -> int:
    return number(found(rf"const {name}: \w+ = ([\w]+);", text_of(top, file), name)[0])


def read(top: Path = TOP) -> Crate:
    return Crate(
        version=found(r'VERSION: &str = "([\d.]+)"', text_of(top, "em_options/src/help.rt"), "the version")[0],
        refusals=refusals(top),
        kinds=kinds(top),
        watches=watches(top),
        rings=rings(top),
        profiles=profiles(top),
        rules=rules(top),
        warnings=warnings(top),
        troubles=troubles(top),
        layouts=layouts(top),
        calls=calls(top),
        registers=registers(top),
        most_sent=constant(top, "ROOM", "em_tx/src/gather.rt"),
        sizes={
            "MOST_OCTETS": constant(top, "MOST_OCTETS", "em_c/src/watch.rt"),
            "DESCRIPTOR_OCTETS": constant(top, "DESCRIPTOR_OCTETS", "em_regs/src/ring.rt"),
            "ADDRESS": constant(top, "ADDRESS", "em_c/src/reason.rt"),
            "LINE": constant(top, "LINE", "em_c/src/line.rt"),
            "NAME": constant(top, "NAME", "em_c/src/fields.rt"),
            "RULES": constant(top, "RULES", "em_warnings/src/rules.rt"),
        },
    )
