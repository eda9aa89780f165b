"""A second reading of em_bench's lines as they may be typed into em_debug, or stand in a script for it and em_record: with
names of registers and bits, and with an expected answer, a source and a comment behind them. It is read from
docs/language.md and docs/language.md, and not from the code.
"""
import re
from functools import cache
from typing import NamedTuple

import page_names
from second_reading import FORMS, IN_WORDS, Session

NUMBERS = {name: offset for offset, name in IN_WORDS.items()}
BLANKS = " \t\r"
# what stands behind each name: how many words must, and what each is
WORDS = {
    "r": (1, ["OFF"]), "w": (2, ["OFF", "VAL"]), "poke": (2, ["ADDR", "DATA"]), "peek": (2, ["ADDR", "LEN"]),
    "arrive": (1, ["DATA", "zeros"]), "rx": (0, []), "tx": (0, []), "link": (1, ["up or down"]), "line": (0, []),
    "regs": (0, []), "wire": (0, []), "init": (0, []), "send": (1, ["DATA", "zeros"]), "recv": (1, ["N"]), "stats": (0, []),
    "mac": (0, ["address"]),
}
CALLED = {"zeros": "LEN", "address": "DATA"}
RULES = {
    "VAL": " is 1 to 8 hexadecimal digits, or names of bits", "ADDR": " is 1 to 16 hexadecimal digits",
    "DATA": " is octets, of two hexadecimal digits each", "LEN": " is 1 to 16384", "N": " is 0 to 1024",
    "zeros": " is at most 32768, and not below DATA's octets", "address": " is 6 octets", "up or down": " is wanted",
}
KINDS = {"r": "read", "w": "write", "peek": "look", "line": "look", "regs": "look", "wire": "look", "init": "driver",
         "send": "driver", "recv": "driver", "stats": "driver", "mac": "driver", "turns": "plan"}


def words_in(text: str) -> list[str]:
    return [word for word in re.split("[ \t\r]+", text) if word]


# ---- what stands behind a line


class Parts(NamedTuple):
    said: str
    expected: str
    source: str


def cut_at(mark: str, text: str) -> tuple[str, str]:
    """What stands before the first word that begins so, and what behind that octet."""
    found = re.search(rf"(?:^|(?<=[ \t\r])){mark}", text)
    return (text, "") if found is None else (text[: found.start()], text[found.end() :].strip(BLANKS))


def parts_of(line: str) -> Parts:
    words = words_in(line)
    if words and words[0].startswith("#"):
        return Parts(line, "", "")
    before_comment = cut_at("#", line)[0]
    before_source, source = cut_at("@", before_comment)
    said = cut_at("[=@#]", line)[0]
    return Parts(line if said == line else said.rstrip(BLANKS), cut_at("=", before_source)[1], source)


def agrees(is_read: bool, expected: str, answer: str) -> bool:
    """Whether an answer is the expected one: of a read as a number, else as a text; `-` stands for any digit."""
    if is_read and re.fullmatch("[0-9A-F]{8}", answer):
        digits = re.sub("^0[xX]", "", expected)
        if not digits or set(digits[:-8]) - {"0"}:
            return False
        expected = digits[-8:].rjust(8, "0")
    return bool(expected) and len(expected) == len(answer) and all(
        one.lower() == other.lower() or one == "-" and re.fullmatch("[0-9a-fA-F]", other)
        for one, other in zip(expected, answer))


# ---- its words


@cache
def bits() -> dict[str, dict[str, int]]:
    """By the name of a register, of an array without the index: its bits, in upper case."""
    return {reg: {name.upper(): 1 << low for name, high, low in rows if high == low}
            for reg, rows in page_names.of_docs().items()}


def is_hex(word: str, most: int) -> bool:
    return bool(re.fullmatch(f"(?:0[xX])?[0-9a-fA-F]{{1,{most}}}", word))


def bare(word: str) -> str:
    return word[2:] if word[:2] in ("0x", "0X") else word


def offset_in(word: str) -> int | None:
    return NUMBERS.get(word.upper(), int(bare(word), 16) if is_hex(word, 8) else None)


def bits_in(register: str, word: str) -> int | None:
    """The bits that a word names, of the register that another word means."""
    names = bits().get(page_names.stem(IN_WORDS.get(offset_in(register), "")), {})
    found = [names.get(name.upper()) for name in word.split("|")]
    return None if None in found else sum(set(found))


def octets_in(word: str) -> int | None:
    """How many octets DATA is; None where it is none."""
    digits = without_colons(word)
    return len(digits) // 2 if re.fullmatch("(?:[0-9a-fA-F]{2})+", digits) else None


def without_colons(word: str) -> str:
    return word.replace(":", "") if re.fullmatch("(?:[0-9a-fA-F]{2}:){5}[0-9a-fA-F]{2}", word) else word


def fits(kind: str, word: str, before: str) -> bool:
    """Whether a word is what stands at its place, behind another word."""
    if kind == "OFF":
        return offset_in(word) is not None
    if kind == "VAL":
        return is_hex(word, 8) or bits_in(before, word) is not None
    if kind == "ADDR":
        return is_hex(word, 16)
    if kind in ("DATA", "address"):
        return octets_in(word) is not None if kind == "DATA" else octets_in(word) == 6
    if kind == "up or down":
        return word in ("up", "down")
    low, high = (octets_in(before), 32768) if kind == "zeros" else {"LEN": (1, 16384), "N": (0, 1024)}[kind]
    return bool(re.fullmatch("[0-9]{1,7}", word)) and low <= int(word) <= high


def fault_of(name: str, kind: str, word: str) -> str:
    if kind == "OFF":
        return f"no register {word}"
    if kind == "DATA" and len(word) % 2 and re.fullmatch("[0-9a-fA-F]+", word):
        return f"{name}: {len(word)} digits are no octets"
    return f"{name}: {CALLED.get(kind, kind)}{RULES[kind]}"


def wrong_in(line: str) -> str | None:
    """What is wrong with a typed line of these: the first fault from the left. None where nothing is."""
    name, *words = words_in(line)
    if name == "turns":
        is_plan = FORMS[name].fullmatch(" ".join(words)) and Session().planned(words) is not None
        return None if is_plan else "turns: a turn is rx, tx, ., arrive:DATA or arrive:DATA:LEN"
    must, kinds = WORDS[name]
    for at, word in enumerate(words):
        if at == len(kinds):
            return f"{name}: {word} is too much"
        if not fits(kinds[at], word, words[at - 1]):
            return fault_of(name, kinds[at], word)
    return f"{name}: {CALLED.get(kinds[len(words)], kinds[len(words)])} is missing" if len(words) < must else None


def kept(kind: str, word: str, before: str) -> str:
    if kind == "OFF" and word.upper() in NUMBERS:
        return f"{NUMBERS[word.upper()]:08X}"
    if kind == "VAL" and not is_hex(word, 8):
        return f"{bits_in(before, word):08X}"
    if kind in ("OFF", "VAL", "ADDR"):
        return bare(word)
    return without_colons(word) if kind in ("DATA", "address") else word


def is_read(said: str) -> bool:
    """Whether em_bench reads a line that says this, of which nothing is wrong."""
    name, *words = words_in(said) or ["#"]
    return name.startswith("#") or name in FORMS and bool(FORMS[name].fullmatch(" ".join(words)))


def played(said: str) -> str:
    """What is played of a line that says this: one of em_bench's in the words that em_bench reads, any other as it stands."""
    words = words_in(said.removeprefix("\xef\xbb\xbf"))
    if not words or words[0] not in WORDS or wrong_in(" ".join(words)) is not None:
        return said
    kinds = WORDS[words[0]][1]
    return " ".join([words[0], *(kept(kind, word, before) for kind, word, before in zip(kinds, words[1:], words))])
