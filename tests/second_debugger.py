"""A second reading of a debugging session: slow, plain, and apart from the code and its definitions.

Behind each line a whole copy of the machine is kept, with the events that stand there: each with its number, its line, and
the states before it and after it. A place is behind so many lines, and so many of their newest events are taken back.
"""
import copy
import re
from collections.abc import Callable
from functools import cache
from typing import NamedTuple

from second_language import is_read, parts_of
from second_notes import spoken
from second_reading import ICR, IMS, IN_ORDER, IN_WORDS, Refused, Session, State, receive, transmit

MOST_BACK = 65_536
# a comment that is a time
TIME = re.compile(r"(?:^|[ \t])#[ \t]*[0-9]{1,9}\.[0-9]{6}[ \t]*$")
SHORT = 72
# what asks something of a driver, or sets its plan: steps back leave both as they are
OF_DRIVER = ("init", "send", "recv", "stats", "mac", "turns")
NUMBERS = {name: offset for offset, name in IN_WORDS.items()}


class Event(NamedTuple):
    """An event that stands: the `access`th of the `of` events that its line performed, what it was, and what it led from
    and to."""

    number: int
    line: int
    access: int
    of: int
    was: dict
    before: State
    after: State


class Noted(Session):
    """A machine that notes what each event led from, and to."""

    led = ()

    def event(self, action, **what) -> str:
        before, performed = self.now, self.performed
        said = super().event(action, **what)
        if self.performed > performed:
            self.led = (*self.led, (dict(self.was), before, self.now))
        return said

    def copied(self) -> "Noted":
        other = copy.copy(self)
        other.past = list(self.past)
        return other


class Behind(NamedTuple):
    """What is there behind so many lines: the machine, the events that stand, how many were performed, and of the last
    line its answer, how many it performed, how many it took back (None where it says nothing of that), and whether its name
    is that of a line for a driver."""

    machine: Noted
    standing: tuple[Event, ...]
    performed: int
    answer: list[str]
    did: int
    took: int | None
    of_driver: bool


def words_of(line: str) -> list[str]:
    words = [word for word in re.split("[ \t\r]+", line) if word]
    return [] if words and words[0].startswith("#") else words


def after_line(before: Behind, number: int, line: str) -> Behind:
    machine, words = before.machine.copied(), words_of(line)
    machine.led = ()
    machine.begins(number)
    held = len(machine.past)
    said = machine.line(words) if words else []
    is_bad = said is None
    took = held - len(machine.past) if words and words[0] == "back" and not is_bad else None
    standing = before.standing[: len(before.standing) - (took or 0)] + tuple(
        Event(before.performed + access, number, access, len(machine.led), *led)
        for access, led in enumerate(machine.led, 1)
    )
    return Behind(
        machine, standing, before.performed + len(machine.led), [f"bad line {number}"] if is_bad else said,
        len(machine.led), took, bool(words) and words[0] in OF_DRIVER,
    )


class Debugger:
    """A session that one types into."""

    def __init__(self, **settings) -> None:
        machine = Noted(**settings)
        # what is played of the lines; how each is shown, and where it comes from
        self.lines: list[str] = []
        self.shown: list[str] = []
        self.sources: list[str] = []
        # the answer that each expects
        self.wanted: list[str] = []
        self.behind = [Behind(machine, (), 0, [], 0, None, False)]
        self.whole = self.back = 0
        # which event a name means
        self.marks: dict[str, int] = {}

    # ---- the place

    def standing(self) -> tuple[Event, ...]:
        all_events = self.behind[self.whole].standing
        return all_events[: len(all_events) - self.back]

    def event(self) -> int:
        standing = self.standing()
        return standing[-1].number if standing else 0

    def state(self) -> State:
        standing = self.standing()
        return standing[-1].after if standing else self.behind[0].machine.now

    def reach(self) -> int:
        """How many steps back the journal still holds."""
        return max(0, len(self.behind[self.whole].machine.past) - self.back)

    def reached(self) -> int:
        """How many events were performed up to the place."""
        standing, line = self.standing(), self.line_here()
        return standing[-1].number if standing and standing[-1].line == line else self.behind[line].performed

    def left_out(self, stops: bool) -> tuple[int, int]:
        """The place with fewer lines, where it is not whole: those are left out that lie ahead with all that they did, if
        they did anything. It may stop at a line that asks something of a driver."""
        line, back = self.whole, self.back
        while self.back > 0 and line > 0:
            last = self.behind[line]
            if stops and last.of_driver or last.did > back or last.took is not None and back == 0:
                break
            line, back = line - 1, back - last.did + (last.took or 0)
        return line, back

    def line_here(self) -> int:
        return self.left_out(False)[0]

    def place(self) -> str:
        return f"at line {self.line_here()}, event {self.event()}"

    # ---- lines

    def put(self, line: str, given: str = "") -> None:
        """A line stands behind the last one: what is played of it, and the line as it was given. It is shown as it was given
        where it says more than what is played."""
        parts = parts_of(given)
        says_more = parts.source or TIME.search(given) or given and not is_read(parts.said)
        self.lines.append(line)
        self.shown.append(parts.said if says_more else line)
        self.sources.append(parts.source)
        self.wanted.append(parts.expected)

    def named(self, line: int) -> str:
        """A line by its number, with where it comes from."""
        source = self.sources[line - 1]
        return f"line {line} @ {source}" if source else f"line {line}"

    def given(self, line: int) -> str:
        """A line as it was given, without a comment behind it."""
        wanted, source = self.wanted[line - 1], self.sources[line - 1]
        return (short(self.shown[line - 1]) + (f" = {short(wanted)}" if wanted else "")
                + (f" @ {source}" if source else ""))

    def listed(self, first: int | None = None, last: int | None = None) -> list[str]:
        """Ten lines around the place or around a line, or those from one to another."""
        count, here = len(self.lines), self.line_here()
        if first is not None and first > count:
            return [f"no line {first}: the script has {count} line{'s' * (count != 1)}"]
        if last is None:
            first = (here if first is None else first) - 5
            while first + 9 > count:
                first -= 1
            first = max(first, 1)
            last = first + 9
        start = ["> at the start"] if here == 0 and first == 1 else []
        return start + [f"{'>' if line == here else ' '} {line:5}  {self.given(line)}"
                        for line in range(first, min(last, count) + 1)]

    def performed_next(self) -> None:
        """Performs the line behind the place, whose own line is whole then."""
        self.whole, self.back = self.line_here(), 0
        if self.whole + 1 == len(self.behind):
            self.behind.append(after_line(self.behind[self.whole], self.whole + 1, self.lines[self.whole]))
        self.whole += 1

    def cut(self) -> int:
        """Drops what lies ahead, and gives how many lines that were; what is shown stays."""
        line, back = self.left_out(True)
        dropped = len(self.lines) - line
        shown = self.state(), len(self.standing())
        del self.lines[line:], self.shown[line:], self.sources[line:], self.wanted[line:], self.behind[line + 1 :]
        self.marks = {name: event for name, event in self.marks.items() if event <= self.behind[-1].performed}
        self.whole, self.back = line, 0
        while back > 0:
            step = min(back, MOST_BACK)
            self.put(f"back {step}")
            self.performed_next()
            back -= step
        assert shown == (self.state(), len(self.standing())), "a line that is typed is performed where the place is"
        return dropped

    def lines_to_the_place(self) -> list[str]:
        return self.lines[: self.line_here()]

    def typed(self, line: str, given: str) -> tuple[int, list[str]]:
        """A line of a script is typed: how many lines are dropped, and the answer."""
        dropped = self.cut()
        self.put(line, given)
        self.performed_next()
        return dropped, self.behind[self.whole].answer

    def ran(self) -> None:
        while self.line_here() < len(self.lines):
            self.performed_next()

    # ---- moves

    def taken_back(self, most: int) -> tuple[int, Event | None]:
        """How many events were taken back, and the last of them."""
        standing, taken = self.standing(), min(most, self.reach())
        self.back += taken
        return taken, standing[-taken] if taken else None

    def before_line(self, line: int) -> None:
        self.whole, self.back = min(max(line - 1, 0), len(self.behind) - 1), 0

    def line_of(self, number: int) -> int:
        return next((line for line, behind in enumerate(self.behind) if behind.performed >= number), len(self.behind) - 1)

    def gone_to(self, number: int) -> None:
        ahead = [event.number for event in self.standing() if event.number > number]
        if (number == 0 or number in (event.number for event in self.standing())) and len(ahead) <= self.reach():
            self.back += len(ahead)
            return
        self.whole, self.back = self.line_of(number), 0
        ahead = [event.number for event in self.standing() if event.number > number]
        self.back = min(len(ahead), self.reach())

    # ---- questions

    def newest_change(self, watch: "Watch", below: int) -> Event | None:
        """The newest event with a smaller number, of those that stand at the place, which changed what is watched."""
        return next((one for one in reversed(self.standing()) if one.number < below and watch.is_changed(one)), None)

    def newest_access(self, watch: "Watch", below: int) -> Event | None:
        """The newest event with a smaller number, of those that the journal holds, which read or wrote this register."""
        held = self.standing()[-self.reach():] if self.reach() else ()
        return next((one for one in reversed(held) if one.number < below and watch.offset is not None
                     and one.was.get("offset") == watch.offset), None)

    def writes(self, offset: int) -> list[Event]:
        """The events that stand and wrote a register, the newest first."""
        return [one for one in reversed(self.standing()) if one.was["kind"] == "write" and one.was["offset"] == offset]

    def accesses(self, target: "Watch") -> list[Event]:
        """The events that stand and read or wrote a register or an octet of guest memory, the newest first."""
        reads = touches if target.count else lambda was, _: was.get("offset") == target.offset
        return [one for one in reversed(self.standing()) if reads(one.was, target.at)]

    def unchanged(self, watch: "Watch", below: int) -> str:
        """What is told where no event with a smaller number changed what is watched."""
        is_before = any(one.number >= below for one in self.standing())
        access = self.newest_access(watch, below)
        by = "" if access is None else f"; {self.told(access)}{came(access)}"
        return f"nothing changed {watch.shown}{' before that' if is_before else ''}{by}"

    def told(self, event: Event) -> str:
        which = f" ({event.access} of {event.of})" if event.of > 1 else ""
        return f"{self.named(event.line)}, event {event.number}{which}: {self.spoken(event)}"

    def spoken(self, event: Event) -> str:
        """What an event was, behind its line, if that has more than one."""
        line = f"{short(self.shown[event.line - 1])}: " if event.of > 1 else ""
        return f"{line}{spoken(event.was)}"

    def opened(self, most: int) -> list[str]:
        """The newest events that stand at the place, those of one line."""
        standing = self.standing()[-min(most, self.reach()):] if min(most, self.reach()) else ()
        return [f"    event {one.number}{f' ({one.access} of {one.of})' if one.of > 1 else ''}: {spoken(one.was)}"
                for one in standing if one.line == standing[-1].line]

    def would_be(self, side: str) -> str:
        """How a step of an engine at the place would do nothing, as one does that is made on a copy; or that it would not."""
        try:
            answer = {"rx": receive, "tx": transmit}[side](copy.copy(self.state()))[0]
        except Refused:
            return "refused: "
        return "idle: " if answer == "idle" else "neither idle nor refused"

    def newest_such(self, is_such: Callable[[list[str]], bool]) -> int:
        """The newest line up to the place whose answer is such a one; 0 where none is."""
        return next((line for line in range(self.line_here(), 0, -1) if is_such(self.behind[line].answer)), 0)


def came(access: Event) -> str:
    """What came of an access that changed nothing."""
    if access.was["kind"] == "read":
        return ""
    value, held = access.was["value"], access.after.look(access.was["offset"])
    if value == held:
        return ", which it held"
    return ", which left it as it was" if value & held else ", of which no bit is kept"


def touches(was: dict, at: int) -> bool:
    """Whether an event read or wrote an octet: of a memory write, of an engine's descriptor, or of its buffer."""
    pieces = [(was["address"], was["length"])] if was["kind"] == "poke" else []
    if "at" in was:
        pieces += [(was["at"], 16), (was["buffer"], was["octets"])]
    return any(first <= at < first + length for first, length in pieces)


def is_undone(answer: list[str]) -> bool:
    return bool(answer) and (answer[0] == "idle" or answer[0].startswith(("dropped ", "refused ")))


def is_dropped(answer: list[str]) -> bool:
    return bool(answer) and answer[0].startswith("dropped ")


def short(text: str) -> str:
    return text if len(text) <= SHORT else text[:SHORT] + ".."


@cache
def changed_registers(before: State, after: State) -> set[int]:
    return {offset for offset in IN_ORDER if before.look(offset) != after.look(offset)}


class Watch(NamedTuple):
    """What is watched: how that is typed, how it is shown, and what is seen of it in a state."""

    typed: str
    shown: str
    offset: int | None = None
    at: int = 0
    count: int = 0

    def sight(self, s: State) -> str:
        if self.offset is not None:
            return f"{s.look(self.offset):08X}"
        if self.count:
            return s.octets(self.at, self.count).hex().upper()
        return SIGHTS[self.typed](s)

    def is_changed(self, event: Event) -> bool:
        if self.offset is not None:
            return self.offset in changed_registers(event.before, event.after)
        return self.sight(event.before) != self.sight(event.after)


def register(offset: int) -> Watch:
    return Watch(IN_WORDS[offset], IN_WORDS[offset], offset=offset)


def octets(at: int, count: int) -> Watch:
    return Watch(f"{at:X} {count}", f"{at:06X}", at=at, count=count)


# what else is watched, by its name
SIGHTS = {
    "line": lambda s: "1" if s.at(ICR) & s.at(IMS) else "0",
    "link": lambda s: "up" if s.link else "down",
    "frames": lambda s: str(len(s.fifo)),
    "sent": lambda s: str(len(s.wire)),
}
REGISTERS = [register(offset) for offset in IN_ORDER]
OTHERS = [Watch(name, name) for name in SIGHTS]
