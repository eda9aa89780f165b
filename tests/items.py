"""Reads the .rt files of the crates: their functions, types, traits and imports, as tests/unreached asks for them.

It is no compiler: clauses are skipped, and what it does not know it leaves out.
"""
import re
from dataclasses import dataclass, field
from pathlib import Path

TOKEN = re.compile(
    r"""(?P<comment>//[^\n]*|/\*.*?\*/)|(?P<string>b?"(?:[^"\\]|\\.)*")|(?P<char>b?'(?:[^'\\]|\\.[^']*)')
    |(?P<life>'\w+)|(?P<word>[^\W\d]\w*)|(?P<number>\d[\w]*(?:\.\d\w*)?)|(?P<sign>::|->|=>|\S)""",
    re.X | re.S,
)
WITHOUT = {"&", "mut", "dyn", "impl", "*", "const"}
ENDS_OF_TYPE = {"{", ";", "requires", "ensures", "decreases", "where", "ghost"}
OPEN, CLOSE = {"(": ")", "[": "]", "{": "}"}, {")", "]", "}"}


@dataclass
class Token:
    kind: str
    text: str
    at: int


@dataclass
class Type:
    """A type by its name, without `&`, `mut` and `Box`; `?` where it is not known."""

    name: str = "?"
    args: list = field(default_factory=list)

    def arg(self, at: int):
        return self.args[at] if at < len(self.args) else Type()


@dataclass
class Function:
    crate: str
    path: Path
    owner: str  # the type or trait that it belongs to, or nothing
    trait: str  # the trait that it implements or belongs to, or nothing; `const` and `derived` are no functions
    name: str
    is_test: bool = False
    is_export: bool = False  # a caller outside the crates, in C, calls it
    generics: dict = field(default_factory=dict)  # by type parameter its bounds
    params: list = field(default_factory=list)  # patterns with types
    gives: Type = field(default_factory=lambda: Type("tuple"))
    span: tuple = (-1, -1)  # from its first character to its last
    body: list = field(default_factory=list)  # its tokens
    has_body: bool = True
    changes: bool = True  # something that it is lent

    def __hash__(self) -> int:
        return id(self)

    @property
    def is_law(self) -> bool:
        """It gives and changes nothing: only its clauses matter."""
        calls = [token.text for token in self.body]
        is_empty = not calls or calls[0] == "let" and calls[1].startswith("_") and calls.count(";") == 1
        return self.has_body and is_empty and not self.changes and self.gives.name == "tuple" and not self.gives.args

    @property
    def label(self) -> str:
        return f"{self.crate} {self.owner + '::' if self.owner else ''}{self.name}"


@dataclass
class Head:
    """What stands before an item."""

    first: int = -1
    attributes: list = field(default_factory=list)

    def has(self, word: str) -> bool:
        return word in [token.text for token in self.attributes]


@dataclass
class Within:
    """What an item stands in: a type or a trait, or neither."""

    owner: str = ""
    trait: str = ""
    generics: dict = field(default_factory=dict)
    for_tests: bool = False


@dataclass
class Crate:
    name: str
    stands_on: set
    functions: list = field(default_factory=list)
    fields: dict = field(default_factory=dict)  # by struct, or by enum and variant, the type of each field
    parameters: dict = field(default_factory=dict)  # by struct its type parameters
    aliases: dict = field(default_factory=dict)  # by file and name the last name of what it imports
    traits: set = field(default_factory=set)


def tokens_of(text: str) -> list[Token]:
    found = (Token(it.lastgroup, it.group(), it.start()) for it in TOKEN.finditer(text))
    return [token for token in found if token.kind != "comment"]


def past(tokens: list[Token], at: int) -> int:
    """The place behind the bracket that closes the one here."""
    depth = 0
    while at < len(tokens):
        text = tokens[at].text
        depth += (text in OPEN) - (text in CLOSE)
        at += 1
        if depth == 0:
            return at
    return at


def past_angles(tokens: list[Token], at: int) -> int:
    """The place behind the `>` that closes the `<` here, or here where there is none."""
    if at >= len(tokens) or tokens[at].text != "<":
        return at
    depth = 0
    while at < len(tokens):
        depth += (tokens[at].text == "<") - (tokens[at].text == ">")
        at += 1
        if depth == 0:
            return at
    return at


def split(tokens: list[Token], by: str = ",") -> list[list[Token]]:
    """The parts between these signs, outside of all brackets."""
    parts, depth, angles = [[]], 0, 0
    for token in tokens:
        depth += (token.text in OPEN) - (token.text in CLOSE)
        angles = max(0, angles + (token.text == "<") - (token.text == ">"))
        if token.text == by and depth == 0 and angles == 0:
            parts.append([])
        else:
            parts[-1].append(token)
    return [part for part in parts if part]


def type_of(tokens: list[Token]) -> Type:
    at = 0
    while at < len(tokens) and (tokens[at].text in WITHOUT or tokens[at].kind == "life"):
        at += 1
    if at == len(tokens):
        return Type()
    if tokens[at].text == "(":
        return Type("tuple", [type_of(part) for part in split(tokens[at + 1 : past(tokens, at) - 1])])
    if tokens[at].text == "[":
        inner = split(tokens[at + 1 : past(tokens, at) - 1], ";")
        return Type("Vec", [type_of(inner[0])] if inner else [])
    name = ""
    while at < len(tokens) and (tokens[at].kind == "word" or tokens[at].text == "::"):
        name, at = tokens[at].text if tokens[at].kind == "word" else name, at + 1
    args = []
    if at < len(tokens) and tokens[at].text == "<":
        args = [type_of(part) for part in split(tokens[at + 1 : past_angles(tokens, at) - 1]) if part[0].kind != "life"]
    if at < len(tokens) and tokens[at].text == "(":  # a bound of a closure
        args = [type_of(part) for part in split(tokens[at + 1 : past(tokens, at) - 1])]
    if name == "Box" and args:
        return args[0]
    return Type(name or "?", args)


def generics_of(tokens: list[Token]) -> dict:
    """By type parameter the types that bound it, out of what stands between `<` and `>`."""
    found = {}
    for part in split(tokens):
        if part[0].kind == "word" and part[0].text != "const":
            bounds = split(part[2:], "+") if len(part) > 2 and part[1].text == ":" else []
            found[part[0].text] = [type_of(bound) for bound in bounds]
    return found


class Reader:
    """Reads one file's items into its crate."""

    def __init__(self, crate: Crate, path: Path, in_tests: bool) -> None:
        self.crate, self.path = crate, path
        self.tokens = tokens_of(path.read_text())
        self.modules = []  # of files that it names, and whether they are for tests alone
        self.aliases = crate.aliases.setdefault(path, {})
        self.items(0, len(self.tokens), Within(for_tests=in_tests))

    def items(self, at: int, end: int, within: Within) -> None:
        """Reads the items from one place to another."""
        head = Head()
        while at < end:
            token = self.tokens[at]
            after = self.tokens[at + 1].text
            head.first = token.at if head.first < 0 else head.first
            if token.text == "#":
                stop = past(self.tokens, at + 1 if after == "[" else at + 2)
                head.attributes += self.tokens[at:stop]
                at = stop
            elif token.text == "pub":
                at = past(self.tokens, at + 1) if after == "(" else at + 1
            elif token.text == "extern":
                at += 2  # and the name of its calls, "C"
            elif token.text == "unsafe" or (token.text, after) == ("const", "fn"):
                at += 1
            else:
                at = self.item(at, head, within)
                head = Head()

    def item(self, at: int, head: Head, within: Within) -> int:
        token, after = self.tokens[at], self.tokens[at + 1]
        for_tests = within.for_tests or head.has("test")
        if token.text == "fn":
            return self.function(at, head, within)
        if token.text in ("impl", "trait"):
            return self.block(at, for_tests)
        if token.text in ("struct", "enum"):
            self.derived(after.text, head)
            return self.data(at)
        if token.text == "mod" and self.tokens[at + 2].text == ";":
            self.modules.append((after.text, for_tests))
            return at + 3
        if token.text == "use":
            return self.imports(at)
        if token.kind == "word" and after.text == "!":
            return past(self.tokens, at + 2)
        if token.text in ("const", "static") and after.kind == "word":
            return self.constant(at, head, within)
        return self.past_item(at)

    def past_item(self, at: int) -> int:
        while at < len(self.tokens) and self.tokens[at].text != ";":
            at = past(self.tokens, at) if self.tokens[at].text in OPEN else at + 1
        return at + 1

    def constant(self, at: int, head: Head, within: Within) -> int:
        """A constant is a function without parameters to whoever names it."""
        stop = self.past_item(at)
        made = Function(self.crate.name, self.path, within.owner, "const", self.tokens[at + 1].text)
        made.span, made.body = (head.first, self.tokens[stop - 1].at), self.tokens[at + 2 : stop]
        self.crate.functions.append(made)
        return stop

    def derived(self, owner: str, head: Head) -> None:
        """What a derived method of a type calls by its attributes, as `#[error("{}", self.name())]`."""
        made = Function(self.crate.name, self.path, owner, "derived", "derived")
        made.params, made.body = [([Token("word", "self", head.first)], Type("Self"))], head.attributes
        self.crate.functions.append(made)

    def imports(self, at: int) -> int:
        stop = self.past_item(at)
        words = self.tokens[at:stop]
        for place, token in enumerate(words):
            if token.text == "as" and words[place - 1].kind == "word":
                self.aliases[words[place + 1].text] = words[place - 1].text
        return stop

    def data(self, at: int) -> int:
        kind, name = self.tokens[at].text, self.tokens[at + 1].text
        stop = past_angles(self.tokens, at + 2)
        self.crate.parameters[name] = list(generics_of(self.tokens[at + 3 : stop - 1]))
        at = stop
        if self.tokens[at].text == ";":
            self.crate.fields[name] = {}
            return at + 1
        end = past(self.tokens, at)
        inner = self.tokens[at + 1 : end - 1]
        if kind == "struct":
            self.crate.fields[name] = self.fields(inner, self.tokens[at].text)
            return end + (end < len(self.tokens) and self.tokens[end].text == ";")
        self.crate.fields[name] = {}
        for variant in split(inner):
            variant = self.bare(variant)
            if variant:
                opens = variant[1].text if len(variant) > 1 else ""
                found = self.fields(variant[2:-1], opens) if opens in ("(", "{") else {}
                self.crate.fields[f"{name}::{variant[0].text}"] = found
        return end

    def bare(self, tokens: list[Token]) -> list[Token]:
        """Without attributes and `pub`."""
        while tokens and tokens[0].text in ("#", "pub"):
            if tokens[0].text == "#":
                tokens = tokens[past(tokens, 1) :]
            else:
                tokens = tokens[past(tokens, 1) if len(tokens) > 1 and tokens[1].text == "(" else 1 :]
        return tokens

    def fields(self, tokens: list[Token], opens: str) -> dict:
        parts = [self.bare(part) for part in split(tokens)]
        if opens == "(":
            return {str(place): type_of(part) for place, part in enumerate(parts)}
        return {part[0].text: type_of(part[2:]) for part in parts if part and part[0].text != "ghost"}

    def block(self, at: int, for_tests: bool) -> int:
        """An impl or a trait."""
        is_trait = self.tokens[at].text == "trait"
        stop, generics = at + 1, {}
        if self.tokens[stop].text == "<":
            stop = past_angles(self.tokens, stop)
            generics = generics_of(self.tokens[at + 2 : stop - 1])
        opens = stop
        while self.tokens[opens].text != "{":
            opens += 1
        end = past(self.tokens, opens)
        head = self.tokens[stop:opens]
        at_for = next((place for place, token in enumerate(head) if token.text == "for"), None)
        if is_trait:
            owner = trait = head[0].text
            self.crate.traits.add(trait)
        else:
            trait = "" if at_for is None else type_of(head[:at_for]).name
            owner = type_of(head if at_for is None else head[at_for + 1 :]).name
        self.items(opens + 1, end - 1, Within(owner, trait, generics, for_tests))
        return end

    def function(self, at: int, head: Head, within: Within) -> int:
        made = Function(self.crate.name, self.path, within.owner, within.trait, self.tokens[at + 1].text)
        opens = past_angles(self.tokens, at + 2)
        made.generics = within.generics | generics_of(self.tokens[at + 3 : opens - 1])
        ends = past(self.tokens, opens)
        made.params = [self.parameter(part) for part in split(self.tokens[opens + 1 : ends - 1])]
        made.changes = "mut" in [token.text for token in self.tokens[opens:ends]]
        made.is_test = head.has("test") and not head.has("cfg")
        made.is_export = head.has("no_mangle")
        at = ends
        if self.tokens[at].text == "->":
            stop = at = at + 1
            while self.tokens[stop].text not in ENDS_OF_TYPE:
                stop = past(self.tokens, stop) if self.tokens[stop].text in "([" else stop + 1
            made.gives, at = type_of(self.tokens[at:stop]), stop
        while self.tokens[at].text not in ("{", ";"):  # the clauses
            while self.tokens[at].text != "{":
                at += 1
            at = past(self.tokens, at)
        made.has_body = self.tokens[at].text == "{"
        end = past(self.tokens, at) if made.has_body else at + 1
        made.body, made.span = self.tokens[at + 1 : end - 1], (head.first, self.tokens[end - 1].at)
        self.crate.functions.append(made)
        return end

    def parameter(self, part: list[Token]) -> tuple[list[Token], Type]:
        """A parameter's pattern, with its type."""
        texts = [token.text for token in part]
        if ":" not in texts:
            return [part[-1]], Type("Self")
        colon = texts.index(":")
        return [token for token in part[:colon] if token.text != "mut"], type_of(part[colon + 1 :])


def read_crate(folder: Path, stands_on: set) -> Crate:
    crate = Crate(folder.name, stands_on)
    todo = [(path, False) for path in (folder / "src" / "lib.rt", folder / "src" / "main.rt") if path.is_file()]
    while todo:
        path, in_tests = todo.pop()
        below = path.parent if path.name in ("lib.rt", "main.rt") else path.parent / path.stem
        for name, for_tests in Reader(crate, path, in_tests).modules:
            todo.append((below / f"{name}.rt", in_tests or for_tests))
    return crate
