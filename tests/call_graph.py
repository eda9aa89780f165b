"""Which function of the crates calls which, as far as types can be read off without a compiler.

A call by a type's name, of a field's method and of a variable whose type is written or made by a known call goes to
that one function; where a receiver's type is not known, it goes to every method of that name in the crates that the
caller's crate stands on. A name that is written without a call counts as called. What std calls (From, Iterator, Read
..) runs.
"""
from collections import defaultdict

from items import CLOSE, OPEN, Crate, Function, Token, Type, past, past_angles, split, type_of

UNKNOWN = Type()
SAME = set(
    "as_ref as_mut take cloned copied map_err or_else or clone iter iter_mut into_iter drain rev skip by_ref filter "
    "take_while skip_while chain peekable to_vec as_slice as_mut_slice replace borrow borrow_mut".split()
)
INNER = set("unwrap unwrap_or unwrap_or_default unwrap_or_else expect".split())
PIECE = set("get get_mut first last first_mut last_mut pop pop_front pop_back front back next nth find peek".split())
WRAPPED = {"Result", "Option"}
MANY = {"Vec", "VecDeque", "HeapCircularBuffer"}
CLOSURES = {"Fn", "FnMut", "FnOnce"}


# words that end no value: a closure may begin behind them
NO_VALUE = ("move", "return", "in", "else", "match", "if", "while")


def ends_value(text: str) -> bool:
    """Whether a `|` behind this word stands between two values or patterns."""
    return text not in NO_VALUE and (text[-1].isalnum() or text[-1] in "_)]\"'")


class Graph:
    """The functions of all crates, by name and by type, and what each calls."""

    def __init__(self, crates: list[Crate]) -> None:
        self.crates = {crate.name: crate for crate in crates}
        self.functions = [function for crate in crates for function in crate.functions]
        self.by_owner, self.by_trait, self.by_name = defaultdict(list), defaultdict(list), defaultdict(list)
        self.fields, self.parameters, self.traits = {}, {}, set()
        for crate in crates:
            self.fields |= crate.fields
            self.parameters |= crate.parameters
            self.traits |= crate.traits
        for function in self.functions:
            if function.owner:
                self.by_owner[function.owner, function.name].append(function)
            if function.trait in self.traits:
                self.by_trait[function.trait, function.name].append(function)
            self.by_name[function.name].append(function)
        self.calls = {function: Body(self, function).calls for function in self.functions}

    def is_root(self, function: Function) -> bool:
        of_std = function.trait and function.trait not in self.traits and function.trait != "const"
        is_main = function.name == "main" and not function.owner
        return function.is_test or function.is_export or function.is_law or is_main or bool(of_std)

    def reached(self) -> set[Function]:
        """What a program or a test runs."""
        todo = [function for function in self.functions if self.is_root(function)]
        found = set(todo)
        while todo:
            for called in self.calls[todo.pop()] - found:
                found.add(called)
                todo.append(called)
        return found


class Body:
    """Reads one function's body: the types of its variables, and its calls."""

    def __init__(self, graph: Graph, function: Function) -> None:
        self.graph, self.function, self.calls = graph, function, set()
        crate = graph.crates[function.crate]
        self.seen = crate.stands_on | {crate.name}
        self.aliases = crate.aliases.get(function.path, {})
        self.scopes = [{}]
        for pattern, kind in function.params:
            self.bind(pattern, kind)
        self.run(function.body)

    # names and types

    def bind(self, pattern: list[Token], kind: Type) -> None:
        """Gives the variables of a pattern their types."""
        pattern = [token for token in pattern if token.text not in ("&", "mut", "ref")]
        if not pattern:
            return
        if len(pattern) == 1:
            if pattern[0].kind == "word":
                self.scopes[-1][pattern[0].text] = kind
            return
        opens = next((at for at, token in enumerate(pattern) if token.text in ("(", "{")), None)
        if opens is None:
            return
        inner = pattern[opens + 1 : past(pattern, opens) - 1]
        name = [token.text for token in pattern[:opens] if token.kind == "word"]
        if not name:
            for at, part in enumerate(split(inner)):
                self.bind(part, kind.arg(at) if kind.name == "tuple" else UNKNOWN)
        elif name[-1] in ("Ok", "Some", "Err"):
            self.bind(inner, kind.arg(1 if name[-1] == "Err" else 0) if kind.name in WRAPPED else UNKNOWN)
        else:
            fields = self.fields_of(name)
            for at, part in enumerate(split(inner)):
                key = str(at) if pattern[opens].text == "(" else part[0].text if part[0].text != "mut" else part[1].text
                value = part[2:] if pattern[opens].text == "{" and len(part) > 2 and part[1].text == ":" else part
                self.bind(value, fields.get(key, UNKNOWN))

    def fields_of(self, names: list[str]) -> dict:
        names = [self.function.owner if name == "Self" else self.aliases.get(name, name) for name in names]
        for key in ("::".join(names[-2:]), names[-1]):
            if key in self.graph.fields:
                return self.graph.fields[key]
        return {}

    def variable(self, name: str) -> Type | None:
        return next((scope[name] for scope in reversed(self.scopes) if name in scope), None)

    def own(self, kind: Type) -> Type:
        """A type, with Self as what it stands for."""
        if kind.name != "Self":
            return kind
        return Type(self.function.owner, [Type(name) for name in self.function.generics])

    def field(self, kind: Type, name: str) -> Type:
        kind = self.own(kind)
        if kind.name == "tuple":
            return kind.arg(int(name)) if name.isdigit() else UNKNOWN
        found = self.graph.fields.get(kind.name, {}).get(name, UNKNOWN)
        return self.put_in(found, dict(zip(self.graph.parameters.get(kind.name, []), kind.args)))

    def put_in(self, kind: Type, given: dict) -> Type:
        """A type with its parameters replaced."""
        if kind.name in given:
            return given[kind.name]
        return Type(kind.name, [self.put_in(arg, given) for arg in kind.args])

    # calls

    def call(self, found: list[Function], kind: Type = UNKNOWN) -> Type:
        """Notes calls of these functions, and what a call gives where it is one function."""
        for function in found:
            self.calls.add(function)
            if function.owner == function.trait:  # a trait's method runs that of any type
                self.calls.update(self.graph.by_trait[function.trait, function.name])
            elif function.trait in self.graph.traits:  # and a type's is the trait's
                self.calls.update(one for one in self.graph.by_owner[function.trait, function.name] if not one.has_body)
        if len(found) != 1:
            return UNKNOWN
        one, kind = found[0], self.own(kind)
        given = dict(zip(self.graph.parameters.get(one.owner, []), kind.args))
        if one.owner:
            given["Self"] = kind if kind.name == one.owner else Type(one.owner)
        gives = self.put_in(one.gives, given)
        return UNKNOWN if gives.name in one.generics and gives.name not in given else gives

    def method(self, kind: Type, name: str) -> tuple[Type, list[Function]]:
        """What a method's call gives, and the functions that it may be."""
        kind = self.own(kind)
        bounds = self.function.generics.get(kind.name)
        if bounds is not None:
            found = [one for bound in bounds for one in self.graph.by_owner.get((bound.name, name), [])]
            return self.call(found), found
        if kind.name == "?":
            found = [one for one in self.graph.by_name[name] if one.owner and one.crate in self.seen]
            return self.call(found), found
        found = self.graph.by_owner.get((kind.name, name), [])
        if found:
            return self.call(found, kind), found
        if kind.name in self.graph.fields:  # a method of a trait that the type has, with a body of its own there
            found = [one for trait in self.graph.traits for one in self.graph.by_owner.get((trait, name), [])]
            return self.call(found), found
        return self.of_std(kind, name), []

    def of_std(self, kind: Type, name: str) -> Type:
        if name in SAME:
            return kind
        if name in INNER and kind.name in WRAPPED:
            return kind.arg(0)
        if name in PIECE and kind.name in MANY:
            return Type("Option", [kind.arg(0)])
        if name in ("ok_or", "ok_or_else") and kind.name == "Option":
            return Type("Result", [kind.arg(0)])
        return Type("Option", [kind.arg(0)]) if name == "ok" and kind.name == "Result" else UNKNOWN

    # expressions

    def run(self, tokens: list[Token]) -> None:
        """Goes over statements."""
        at = 0
        while at < len(tokens):
            at = self.statement(tokens, at)

    def statement(self, tokens: list[Token], at: int) -> int:
        text = tokens[at].text
        if text in ("let", "for"):
            return self.let(tokens, at)
        if text == "match":
            return self.match(tokens, at)
        if text == "{":
            end = past(tokens, at)
            self.scopes.append({})
            self.run(tokens[at + 1 : end - 1])
            self.scopes.pop()
            return end
        if text == "|" and tokens[at + 1 : at + 2] and tokens[at + 1].text == "=":
            # `a |= b` begins no closure
            return at + 2
        if text == "|" and at > 0 and ends_value(tokens[at - 1].text):
            # `a | b`, of patterns or numbers, or `a || b`
            return at + (2 if tokens[at + 1].text == "|" else 1)
        if text == "|":
            return self.closure(tokens, at, [])
        return self.chain(tokens, at)[0]

    def let(self, tokens: list[Token], at: int) -> int:
        """`let PATTERN = ..`, also in an `if` or a `while`, and `for PATTERN in ..`."""
        stop, depth = at + 1, 0
        while stop < len(tokens) and not (depth == 0 and tokens[stop].text in ("=", "in", ";")):
            depth += (tokens[stop].text in OPEN) - (tokens[stop].text in CLOSE)
            stop += 1
        pattern, written = tokens[at + 1 : stop], None
        names = [token.text for token in pattern]
        colon = names.index(":") if ":" in names and "{" not in names[: names.index(":")] else None
        if colon is not None:
            pattern, written = pattern[:colon], type_of(pattern[colon + 1 :])
        if stop >= len(tokens) or tokens[stop].text == ";":
            self.bind(pattern, written or UNKNOWN)
            return stop + 1
        end, kind = self.value(tokens, stop + 1)
        is_condition = at > 0 and tokens[at - 1].text in ("if", "while", "&")
        while not is_condition and end < len(tokens) and tokens[end].text not in (";", "else", "{"):
            end = self.statement(tokens, end)
        if tokens[stop].text == "in":
            kind = kind.arg(0) if kind.name in MANY else UNKNOWN
        self.bind(pattern, written or kind)
        return end

    def value(self, tokens: list[Token], at: int) -> tuple[int, Type]:
        """The place behind an expression's first chain, and its type where that is all of it."""
        while at < len(tokens) and (tokens[at].text in ("&", "mut", "*", "move") or tokens[at].kind == "life"):
            at += 1
        if at >= len(tokens) or tokens[at].text in ("match", "if", "loop", "{", "|", "unsafe"):
            return at, UNKNOWN
        end, kind = self.chain(tokens, at)
        is_all = end >= len(tokens) or tokens[end].text in (";", "else", "{", ",", ")", "}", "&")
        return end, kind if is_all else UNKNOWN

    def match(self, tokens: list[Token], at: int) -> int:
        end, kind = self.value(tokens, at + 1)
        while end < len(tokens) and tokens[end].text != "{":
            end = self.statement(tokens, end)
        stop = past(tokens, end)
        arms, at = tokens[end + 1 : stop - 1], 0
        while at < len(arms):
            arrow = at
            while arrow < len(arms) and arms[arrow].text != "=>":
                arrow = past(arms, arrow) if arms[arrow].text in OPEN else arrow + 1
            pattern = arms[at:arrow]
            guard = next((i for i, token in enumerate(pattern) if token.text == "if"), len(pattern))
            self.scopes.append({})
            for part in split(pattern[:guard], "|"):
                self.bind(part, kind)
            self.run(pattern[guard:])
            at = arrow + 1
            if at < len(arms) and arms[at].text == "{":
                at = self.statement(arms, at)
            while at < len(arms) and arms[at].text != ",":
                at = self.statement(arms, at)
            self.scopes.pop()
            at += 1
        return stop

    def closure(self, tokens: list[Token], at: int, kinds: list[Type]) -> int:
        """`|a, b: T|`: its variables; what follows is read as any other text."""
        stop = at + 1
        while stop < len(tokens) and tokens[stop].text != "|":
            stop += 1
        for place, part in enumerate(split(tokens[at + 1 : stop])):
            colon = next((i for i, token in enumerate(part) if token.text == ":"), None)
            if colon is not None:
                self.bind(part[:colon], type_of(part[colon + 1 :]))
            else:
                self.bind(part, kinds[place] if place < len(kinds) else UNKNOWN)
        return stop + 1

    def given(self, tokens: list[Token], found: list[Function], kind: Type) -> None:
        """The words of a call; a closure among them gets its types from the function's bounds, or what it goes over."""
        for place, part in enumerate(split(tokens)):
            part = part[1:] if part[0].text == "move" else part
            if part and part[0].text == "|" and not (len(part) > 1 and part[1].text == "|"):
                kinds = [kind.arg(0)] if not found and kind.name in WRAPPED | MANY else []
                if len(found) == 1:
                    params = [p for p in found[0].params if p[1].name != "Self"]
                    bound = params[place][1] if place < len(params) else UNKNOWN
                    bounds = [bound, *found[0].generics.get(bound.name, [])]
                    kinds = next((one.args for one in bounds if one.name in CLOSURES), [])
                self.scopes.append({})
                end = self.closure(part, 0, kinds)
                self.run(part[end:])
                self.scopes.pop()
            else:
                self.run(part)

    def chain(self, tokens: list[Token], at: int) -> tuple[int, Type]:
        """One name with what hangs on it: calls, fields, `?`, places. Gives the place behind it and its type."""
        token = tokens[at]
        if token.text == "(":
            end = past(tokens, at)
            inner = tokens[at + 1 : end - 1]
            parts = split(inner)
            if len(parts) == 1:
                stop, kind = self.value(inner, 0)
                self.run(inner[stop:])
            else:
                self.run(inner)
                kind = UNKNOWN
            return self.tail(tokens, end, kind)
        if token.text == "[":
            end = past(tokens, at)
            self.run(tokens[at + 1 : end - 1])
            return self.tail(tokens, end, Type("Vec"))
        if token.kind == "string":
            return self.tail(tokens, at + 1, Type("str"))
        if token.kind == "number":
            return self.tail(tokens, at + 1, Type("number"))
        if token.kind != "word":
            return at + 1, UNKNOWN
        return self.path(tokens, at)

    def path(self, tokens: list[Token], at: int) -> tuple[int, Type]:
        names, end = [tokens[at].text], at + 1
        while end + 1 < len(tokens) and tokens[end].text == "::":
            if tokens[end + 1].text == "<":
                end = past_angles(tokens, end + 1)
            elif tokens[end + 1].kind == "word":
                names.append(tokens[end + 1].text)
                end += 2
            else:
                break
        after = tokens[end].text if end < len(tokens) else ""
        if after == "!" and end + 1 < len(tokens) and tokens[end + 1].text in OPEN:
            stop = past(tokens, end + 1)
            self.run(tokens[end + 2 : stop - 1])
            return self.tail(tokens, stop, UNKNOWN)
        if len(names) == 1 and (kind := self.variable(names[0])) is not None:
            return self.tail(tokens, end, kind)
        found = self.named(names)
        kind = self.call(found)
        if after == "(" and (found or names[-1][0].isupper() or not found):
            stop = past(tokens, end)
            self.given(tokens[end + 1 : stop - 1], found, UNKNOWN)
            if not found:
                kind = self.made(names)
            return self.tail(tokens, stop, kind)
        if found:
            constant = len(found) == 1 and found[0].trait == "const"
            return self.tail(tokens, end, found[0].gives if constant and found[0].gives.name != "tuple" else UNKNOWN)
        return self.tail(tokens, end, self.made(names))

    def made(self, names: list[str]) -> Type:
        """The type of a struct or a variant of this name."""
        names = [self.function.owner if name == "Self" else self.aliases.get(name, name) for name in names]
        for name in (names[-1], names[-2] if len(names) > 1 else ""):
            if name in self.graph.fields:
                return Type(name)
        return UNKNOWN

    def named(self, names: list[str]) -> list[Function]:
        names = [self.function.owner if name == "Self" else self.aliases.get(name, name) for name in names]
        if len(names) > 1 and names[-2] in self.function.generics:
            bounds = self.function.generics[names[-2]]
            return [one for bound in bounds for one in self.graph.by_owner.get((bound.name, names[-1]), [])]
        if len(names) > 1 and names[-2][0].isupper():
            return self.graph.by_owner.get((names[-2], names[-1]), [])
        found = [one for one in self.graph.by_name[names[-1]] if not one.owner and one.crate in self.seen]
        here = [one for one in found if one.path == self.function.path] if len(names) == 1 else []
        own = [one for one in found if one.crate == self.function.crate] if len(names) == 1 else []
        return here or own or found

    def tail(self, tokens: list[Token], at: int, kind: Type) -> tuple[int, Type]:
        while at < len(tokens):
            text = tokens[at].text
            if text == "?":
                kind, at = kind.arg(0) if kind.name in WRAPPED else UNKNOWN, at + 1
            elif text == "." and at + 1 < len(tokens) and tokens[at + 1].kind in ("word", "number"):
                name, end = tokens[at + 1].text, at + 2
                if end + 1 < len(tokens) and tokens[end].text == "::":
                    end = past_angles(tokens, end + 1)
                if end < len(tokens) and tokens[end].text == "(":
                    stop = past(tokens, end)
                    gives, found = self.method(kind, name)
                    self.given(tokens[end + 1 : stop - 1], found, kind)
                    kind, at = gives, stop
                else:
                    kind, at = self.field(kind, name), end
            elif text == "[":
                stop = past(tokens, at)
                self.run(tokens[at + 1 : stop - 1])
                kind, at = kind.arg(0) if kind.name in MANY and not is_range(tokens[at + 1 : stop - 1]) else kind, stop
            elif text == "as" and at + 1 < len(tokens) and tokens[at + 1].kind == "word":
                kind, at = Type("number"), at + 2
            elif text == "(":  # a call of what a variable holds
                stop = past(tokens, at)
                self.run(tokens[at + 1 : stop - 1])
                kind, at = UNKNOWN, stop
            else:
                break
        return at, kind


def is_range(tokens: list[Token]) -> bool:
    return any(a.text == "." and b.text == "." for a, b in zip(tokens, tokens[1:]))
