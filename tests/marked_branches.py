"""Finds the branches of functions: the arms of `match`, both ways of `if`, `while` and `let .. else`, and of `?`. It
puts into each a call that counts it, as tests/unreached asks for.

Ways that hold `unreachable!` alone are left out: they are proved never to be run.
"""
from dataclasses import dataclass
from pathlib import Path

from items import OPEN, Function, Token, past

# The crate whose calls count a branch: `hit`, and of what a `?` looks at `looked`.
MARKS = "em_marks"
MOST_OF_A_NAME = 70


@dataclass
class Branch:
    function: str  # its label
    text: str  # what leads there, as it stands in the code

    @property
    def name(self) -> str:
        return f"{self.function}, {self.text}"


class Marker:
    """Marks the branches of one file's functions; their numbers follow those that are there already."""

    def __init__(self, path: Path, branches: list[Branch]) -> None:
        self.text, self.branches = path.read_text(), branches
        self.function = ""
        self.put: list[tuple[int, str]] = []  # what is put into the text, and where

    def marked(self, functions: list[Function]) -> str:
        for function in functions:
            self.function = function.label
            self.walk(function.body)
        text, end = [], len(self.text)
        # (of two at one place the later one stands behind)
        for at, what in sorted(self.put, key=lambda one: one[0], reverse=True):
            text[:0] = [what, self.text[at:end]]
            end = at
        whole = "".join([self.text[:end], *text])
        return whole if not self.put else self.with_import(whole)

    def with_import(self, text: str) -> str:
        lines = text.split("\n")
        at = next(i for i, line in enumerate(lines) if not line.startswith("//!") and not line.startswith("#!"))
        return "\n".join([*lines[:at], f"use {MARKS}::Looked;", *lines[at:]])

    def name_of(self, tokens: list[Token]) -> str:
        """The code of these tokens on one line, cut where it is long."""
        if not tokens:
            return ""
        text = " ".join(self.text[tokens[0].at : tokens[-1].at + len(tokens[-1].text)].split()).replace(": ", ":")
        return text if len(text) <= MOST_OF_A_NAME else text[: MOST_OF_A_NAME - 2] + ".."

    def number(self, text: str) -> int:
        self.branches.append(Branch(self.function, text))
        return len(self.branches) - 1

    def hit(self, at: int, text: str) -> None:
        self.put.append((at, f" {MARKS}::hit({self.number(text)}); "))

    def block(self, tokens: list[Token], at: int, text: str) -> int:
        """Marks the block that begins here, and those in it; the place behind it."""
        stop = past(tokens, at)
        inner = tokens[at + 1 : stop - 1]
        if not inner or inner[0].text != "unreachable":
            self.hit(tokens[at].at + 1, text)
        self.walk(inner)
        return stop

    def walk(self, tokens: list[Token]) -> None:
        at = statement = depth = 0
        while at < len(tokens):
            text = tokens[at].text
            after = tokens[at + 1].text if at + 1 < len(tokens) else ""
            depth += (text in ("(", "[")) - (text in (")", "]"))
            if text in ("{", "}") or text == ";" and depth == 0:
                statement = at + 1
            if text == "match":
                at = statement = self.match(tokens, at)
            elif text in ("if", "while"):
                at = statement = self.condition(tokens, at)
            elif text == "else" and after == "{":
                at = statement = self.let_else(tokens, statement, at)
            elif text == "?":
                self.question(tokens, statement, at)
                at += 1
            elif text == "prove" and after == "!":
                at = past(tokens, at + 2)
            else:
                at += 1

    def up_to_block(self, tokens: list[Token], at: int) -> int:
        """The place of the `{` behind a condition, or behind what a `match` looks at."""
        while tokens[at].text != "{":
            at = past(tokens, at) if tokens[at].text in OPEN else at + 1
        return at

    def condition(self, tokens: list[Token], at: int) -> int:
        word, opens = tokens[at].text, self.up_to_block(tokens, at)
        asked = tokens[at + 1 : opens]
        self.walk(asked)
        what = f"{word} {self.name_of(asked)}"
        stop = self.block(tokens, opens, what)
        if word == "while":
            return stop
        otherwise = "else of " + what
        if stop >= len(tokens) or tokens[stop].text != "else":
            end = tokens[stop - 1].at + 1
            self.put.append((end, f" else {{ {MARKS}::hit({self.number(otherwise)}); }}"))
            return stop
        if tokens[stop + 1].text == "if":
            return self.condition(tokens, stop + 1)
        return self.block(tokens, stop + 1, otherwise)

    def let_else(self, tokens: list[Token], statement: int, at: int) -> int:
        what = self.name_of(tokens[statement:at])
        inner = tokens[at + 2]
        stop = self.block(tokens, at + 1, f"else of {what}")
        if inner.text != "unreachable":
            self.hit(tokens[stop].at + 1, what)
        return stop + 1

    def question(self, tokens: list[Token], statement: int, at: int) -> None:
        what = self.name_of(tokens[statement : at + 1])
        # (where it is refused, `looked` counts the next number)
        self.put.append((tokens[at].at, f".looked({self.number(what)})"))
        self.number(f"refused in {what}")

    def match(self, tokens: list[Token], at: int) -> int:
        opens = self.up_to_block(tokens, at)
        asked = tokens[at + 1 : opens]
        self.walk(asked)
        stop = past(tokens, opens)
        self.arms(tokens[opens + 1 : stop - 1], self.name_of(asked), tokens[stop - 1].at)
        return stop

    def arms(self, tokens: list[Token], asked: str, end: int) -> None:
        at = 0
        while at < len(tokens):
            arrow = at
            while tokens[arrow].text != "=>":
                arrow = past(tokens, arrow) if tokens[arrow].text in OPEN else arrow + 1
            what = f"{self.name_of(tokens[at:arrow])} of {asked}"
            at = arrow + 1
            if tokens[at].text == "{":
                at = self.block(tokens, at, what)
            else:
                first = at
                while at < len(tokens) and tokens[at].text != ",":
                    at = past(tokens, at) if tokens[at].text in OPEN else at + 1
                if tokens[first].text != "unreachable":
                    self.put.append((tokens[first].at, f"{{ {MARKS}::hit({self.number(what)}); "))
                    self.walk(tokens[first:at])
                    last = tokens[at - 1]
                    self.put.append((last.at + len(last.text), " }"))
            if at < len(tokens) and tokens[at].text == ",":
                at += 1
