"""A debug adapter (DAP, the Debug Adapter Protocol) upon em_debug: editors step back and forth in a script or a kept run.

    python3 -m bunjelav.dap          speaks the protocol on standard input and output; ./em_dap runs it in a checkout

launch takes `program` (the script), and may take `args` (words of em_debug's command line), `stopOnEntry` (true, unless it is
said otherwise) and `sourceRoot` (the folder that the names of the driver's files begin in; otherwise that of the script).

The run is stopped before the line that it shows, as in other debuggers: `next` performs that line. At the end it is behind
the last one, and may step back. docs/debugger.md says how editors are pointed to it.
"""
from __future__ import annotations

import json
import re
import sys
from pathlib import Path
from typing import IO, Any, Callable, Dict, List, NamedTuple, Optional, Set, Tuple

from . import bits_of
from ._debugger import Answer, Debugger, DebuggerError, NotUnderstood

Json = Dict[str, Any]
THREAD, SESSION = 1, 1
# what is shown of registers: those that stand alone, and no counter
SHOWN = """CTRL STATUS EECD EERD CTRL_EXT MDIC FCAL FCAH FCT VET ICR ITR ICS IMS IMC RCTL FCTTV TXCW TCTL TIPG AIT LEDCTL PBA
    FCRTL FCRTH RDBAL RDBAH RDLEN RDH RDT RDTR RXDCTL RADV TDBAL TDBAH TDLEN TDH TDT TIDV TXDCTL TADV""".split()
STOPS = {"refused": "An event is refused", "dropped": "A frame is dropped", "warning": "A line has a warning",
         "differs": "An answer differs from the one that its line expects"}
ABLE = {
    "supportsConfigurationDoneRequest": True, "supportsStepBack": True, "supportsEvaluateForHovers": True,
    "supportsGotoTargetsRequest": True, "supportsTerminateRequest": True, "supportsExceptionInfoRequest": True,
    "exceptionBreakpointFilters": [{"filter": name, "label": label, "default": False} for name, label in STOPS.items()],
}
LISTED = re.compile(r"^(?:>|  at the start)? +(\d+)  (.*)$")


class Refused(Exception):
    """A request that is refused, and why."""


class Line(NamedTuple):
    """A line of the session: what it says, and where it comes from, a file and a line of the driver."""

    text: str
    file: str
    number: int

    @property
    def is_silent(self) -> bool:
        return not self.text or self.text.startswith("#")


def line_of(text: str) -> Line:
    source = re.search(r" @ (?:.*, )?(\S+):(\d+)$", text)
    return Line(text, source[1], int(source[2])) if source else Line(text, "", 0)


class Adapter:
    """One session: requests come from a reader, answers and events go to a writer."""

    def __init__(self, reader: IO[bytes], writer: IO[bytes]) -> None:
        self.reader, self.writer, self.sent = reader, writer, 0
        self.debugger: Optional[Debugger] = None
        self.script, self.root, self.stops_on_entry = Path(), Path(), True
        self.lines: List[Line] = []
        self.is_typed, self.said = False, ""
        self.breaks: Dict[str, Set[int]] = {}
        self.filters: List[str] = []
        self.shown: Dict[int, Tuple[str, int]] = {}

    # ---- the protocol

    def serve(self) -> None:
        """Answers requests until the reader ends or the client disconnects."""
        for request in iter(self.read, None):
            name, given = request["command"], request.get("arguments") or {}
            act: Optional[Callable[[Json], Any]] = getattr(self, f"on_{name}", None)
            answer: Json = {"type": "response", "request_seq": request["seq"], "command": name, "success": True}
            after: Optional[Callable[[], None]] = None
            try:
                if act is None:
                    raise Refused(f"{name} is no request that is answered here")
                body, after = act(given) or ({}, None)
                answer["body"] = body
            except (Refused, DebuggerError, KeyError, ValueError) as error:
                text = f"{name} lacks {error}" if isinstance(error, KeyError) else str(error)
                answer |= {"success": False, "message": text, "body": {"error": {"id": 1, "format": text}}}
            self.send(answer)
            if after:
                after()
            if name == "disconnect":
                return

    def read(self) -> Optional[Json]:
        length = 0
        while (line := self.reader.readline()).strip():
            key, _, value = line.decode("ascii", "replace").partition(":")
            length = int(value) if key.lower() == "content-length" else length
        octets = self.reader.read(length) if length else b""
        return json.loads(octets) if octets and len(octets) == length else None

    def send(self, message: Json) -> None:
        self.sent += 1
        octets = json.dumps({"seq": self.sent, **message}).encode()
        self.writer.write(b"Content-Length: %d\r\n\r\n%b" % (len(octets), octets))
        self.writer.flush()

    def event(self, name: str, **body: Any) -> None:
        self.send({"type": "event", "event": name, "body": body})

    def say(self, answer: Answer, category: str = "console") -> None:
        if answer.lines:
            self.event("output", category=category, output=f"{answer}\n")

    def stop(self, reason: str, text: str = "") -> None:
        self.shown.clear()
        self.said = text
        self.event("stopped", reason=reason, threadId=THREAD, allThreadsStopped=True, **({"text": text} if text else {}))

    @property
    def session(self) -> Debugger:
        if self.debugger is None:
            raise Refused("no script is launched")
        return self.debugger

    # ---- the session's lines

    def see_lines(self) -> None:
        """What lines the session has: each as it is listed."""
        of = self.session.ask("list 1 1").of
        listed = self.session.lines(1, of).lines if of else []
        self.lines = [line_of(found[2]) for found in map(LISTED.match, listed) if found]

    def next_from(self, line: int) -> int:
        """The first line behind so many that says something; the last line if none does."""
        for number in range(line, len(self.lines)):
            if not self.lines[number].is_silent:
                return number + 1
        return len(self.lines)

    @property
    def here(self) -> int:
        """The line that is shown: that which comes next."""
        return self.next_from(self.session.line) or 1

    @property
    def is_at_end(self) -> bool:
        return not self.session.ahead

    def go_before(self, line: int) -> Answer:
        """Goes to right before a line, forward or back."""
        if line > self.session.line + 1:
            return self.session.run(f"{line}")
        return self.session.back_to(line) if line <= self.session.line else self.session.ask("")

    def path_of(self, file: str) -> str:
        """Where a file of the driver's lies, if it does."""
        return next((str(it) for it in (self.root / file, self.script.parent / file) if it.is_file()), "")

    # ---- requests: the beginning and the end

    def on_initialize(self, given: Json) -> Tuple[Json, None]:
        return ABLE, None

    def on_launch(self, given: Json) -> Tuple[Json, Callable[[], None]]:
        self.script = Path(given["program"]).absolute()
        self.root = Path(given.get("sourceRoot") or self.script.parent)
        self.stops_on_entry = bool(given.get("stopOnEntry", True))
        self.debugger = Debugger(self.script, options=given.get("args") or [], step=True)
        if self.debugger.complaints:
            self.event("output", category="stderr", output=self.debugger.complaints)
        self.see_lines()
        # (breakpoints want its lines)
        return {}, lambda: self.event("initialized")

    def on_configurationDone(self, given: Json) -> Tuple[Json, Callable[[], None]]:
        return {}, (lambda: self.stop("entry")) if self.stops_on_entry else self.run

    def on_disconnect(self, given: Json) -> None:
        if self.debugger:
            self.debugger.close()

    def on_terminate(self, given: Json) -> Tuple[Json, Callable[[], None]]:
        return {}, lambda: self.event("terminated")

    def on_threads(self, given: Json) -> Tuple[Json, None]:
        return {"threads": [{"id": THREAD, "name": self.script.name or "the run"}]}, None

    # ---- requests: where it stops

    def on_setBreakpoints(self, given: Json) -> Tuple[Json, None]:
        path = str(Path(given["source"].get("path") or "").absolute())
        found = [self.lines_at(path, one["line"]) for one in given.get("breakpoints") or []]
        self.breaks[path] = {number for numbers in found for number in numbers}
        told = [{"verified": bool(numbers), "line": one["line"] if path != str(self.script) else min(numbers, default=one["line"])}
                for one, numbers in zip(given.get("breakpoints") or [], found)]
        return {"breakpoints": told}, None

    def lines_at(self, path: str, line: int) -> List[int]:
        """The lines of the script that a line of a file stands for: of the script, or of the driver."""
        if path == str(self.script):
            return [self.next_from(line - 1)] if 0 < line <= len(self.lines) else []
        return [number for number, it in enumerate(self.lines, 1)
                if it.number == line and it.file and Path(path).match(it.file.lstrip("./"))]

    def on_setExceptionBreakpoints(self, given: Json) -> None:
        self.filters = [name for name in given.get("filters") or [] if name in STOPS]

    def on_exceptionInfo(self, given: Json) -> Tuple[Json, None]:
        return {"exceptionId": self.said or "none", "breakMode": "always"}, None

    def on_gotoTargets(self, given: Json) -> Tuple[Json, None]:
        numbers = self.lines_at(str(Path(given["source"]["path"]).absolute()), given["line"])
        return {"targets": [{"id": it, "label": f"line {it}", "line": given["line"]} for it in numbers]}, None

    def on_goto(self, given: Json) -> Tuple[Json, Callable[[], None]]:
        self.go_before(given["targetId"])
        return {}, lambda: self.stop("goto")

    # ---- requests: forward and back

    def on_next(self, given: Json) -> Tuple[Json, Callable[[], None]]:
        return {}, self.step

    on_stepIn = on_stepOut = on_next

    def step(self) -> None:
        """Performs the line that is shown."""
        if self.is_at_end:
            return self.stop("step", "the end of the run")
        answer = self.session.step(max(1, self.here - self.session.line))
        self.say(answer)
        self.stop("step", "" if self.session.ahead else "the end of the run")

    def on_stepBack(self, given: Json) -> Tuple[Json, Callable[[], None]]:
        return {}, self.step_back

    def step_back(self) -> None:
        """Goes to before the line that was performed last."""
        line = self.session.line
        while line > 1 and self.lines[line - 1].is_silent:
            line -= 1
        if line:
            self.say(self.session.back_to(line))
        self.stop("step", "" if line else "the start of the run")

    def on_continue(self, given: Json) -> Tuple[Json, Callable[[], None]]:
        return {"allThreadsContinued": True}, self.run

    def run(self) -> None:
        """Goes on to before the next breakpoint, to behind a line that a filter stops at, or to the end."""
        start = self.session.line
        wanted = [it for lines in self.breaks.values() for it in lines if it > self.here or it > start + 1 and it == self.here]
        if start == 0 and self.here in {it for lines in self.breaks.values() for it in lines}:
            return self.stop("breakpoint")
        end, reason, said = (min(wanted), "breakpoint", "") if wanted else (len(self.lines) + 1, "step", "the end of the run")
        for name in self.filters:
            answer = self.session.run(name)
            if answer.lines and not answer.lines[-1].startswith(("none was", "no answer", "no line")) and answer.line < end:
                end, reason, said = answer.line + 1, "exception", STOPS[name]
            self.session.back_to(start + 1) if start < answer.line else None
        self.say(self.go_before(end) if end <= len(self.lines) else self.session.run())
        self.stop(reason, said)

    def on_reverseContinue(self, given: Json) -> Tuple[Json, Callable[[], None]]:
        return {}, self.run_back

    def run_back(self) -> None:
        line, behind = self.session.line, self.session.line + 1
        before = [it for lines in self.breaks.values() for it in lines if it < (self.here if self.session.ahead else behind)]
        if line:
            self.say(self.session.back_to(max(before, default=1)))
        self.stop("breakpoint" if before else "step", "" if before else "the start of the run")

    # ---- requests: what is shown

    def on_stackTrace(self, given: Json) -> Tuple[Json, None]:
        here, answer = self.here, self.session
        at = self.lines[here - 1] if self.lines else Line("", "", 0)
        word = "before" if answer.ahead else "behind"
        frames: List[Json] = [{"id": 2, "name": f"{word} line {here}, event {answer.event}", "line": here, "column": 1,
                               "source": self.source_of_script()}]
        if path := self.path_of(at.file) if at.file else "":
            frames.insert(0, {"id": 1, "name": at.text.partition(" @ ")[0], "line": at.number, "column": 1,
                              "source": {"name": Path(path).name, "path": path}})
        return {"stackFrames": frames, "totalFrames": len(frames)}, None

    def source_of_script(self) -> Json:
        """The script's file, or, once lines were typed, the session's lines."""
        return {"name": "session.em", "sourceReference": SESSION} if self.is_typed else {
            "name": self.script.name, "path": str(self.script)}

    def on_source(self, given: Json) -> Tuple[Json, None]:
        return {"content": "".join(f"{it.text}\n" for it in self.lines)}, None

    def on_scopes(self, given: Json) -> Tuple[Json, None]:
        names = {1: "Registers", 2: "Interrupt", 3: "Receive ring", 4: "Transmit ring", 5: "Frames that wait"}
        return {"scopes": [{"name": name, "variablesReference": at, "expensive": at > 2} for at, name in names.items()]}, None

    def on_variables(self, given: Json) -> Tuple[Json, None]:
        at = given["variablesReference"]
        if at in self.shown:
            name, value = self.shown[at]
            return {"variables": [self.variable(bit, f"{held:X}") for bit, held in bits_of(name, value).items()]}, None
        asked = {3: "ring rx", 4: "ring tx", 5: "frame"}.get(at)
        if asked:
            lines = self.session.ask(asked).lines
            return {"variables": [self.variable(f"{number}", line.strip()) for number, line in enumerate(lines)]}, None
        return {"variables": self.registers() if at == 1 else self.interrupt()}, None

    def variable(self, name: str, value: str, reference: int = 0) -> Json:
        return {"name": name, "value": value, "variablesReference": reference}

    def look(self, name: str) -> Tuple[int, str]:
        """What a register holds, as a number and in words."""
        words = self.session.look(name).lines[0].partition(" ")[2]
        return int(words.partition(" ")[0], 16), words

    def registers(self) -> List[Json]:
        told: List[Json] = []
        for name in SHOWN:
            try:
                value, words = self.look(name)
            except NotUnderstood:
                continue  # (another profile has it)
            reference = 100 + len(told)
            self.shown[reference] = (name, value)
            told.append(self.variable(name, words, reference if bits_of(name, value) else 0))
        return told

    def interrupt(self) -> List[Json]:
        causes, mask = self.look("ICR"), self.look("IMS")
        line = self.variable("line", "1" if causes[0] & mask[0] else "0")
        return [line, self.variable("ICR", causes[1]), self.variable("IMS", mask[1])]

    def on_evaluate(self, given: Json) -> Tuple[Json, Optional[Callable[[], None]]]:
        typed, before = given["expression"], (self.session.line, self.session.event, len(self.lines))
        if given.get("context") in ("hover", "watch") and " " not in typed.strip():
            typed = f"look {typed}"
        answer = self.session.ask(typed)
        if answer.of != before[2] or answer.status in ("done", "refused"):
            self.is_typed = self.is_typed or answer.of != before[2] or "dropped" in str(answer)
            self.see_lines()
        moved = (answer.line, answer.event, answer.of) != before
        return {"result": str(answer), "variablesReference": 0}, (lambda: self.stop("goto")) if moved else None


def main() -> None:
    Adapter(sys.stdin.buffer, sys.stdout.buffer).serve()


if __name__ == "__main__":
    main()
