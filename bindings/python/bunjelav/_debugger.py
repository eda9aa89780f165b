"""A session of em_debug, which answers each line by an object: docs/debugger.schema.json has their form."""
from __future__ import annotations

import json
import os
import shutil
import subprocess
import tempfile
from pathlib import Path
from types import TracebackType
from typing import IO, Any, Dict, Iterable, List, NamedTuple, Optional, Type, Union

__all__ = ["Debugger", "Answer", "DebuggerError", "NotUnderstood", "SessionEnded"]

Name = Union[str, bytes, "os.PathLike[str]", "os.PathLike[bytes]"]
# the form of the objects that this file reads
FORMAT, VERSION = "bunjelav debugger", 1


class DebuggerError(Exception):
    """em_debug could not be run, or stopped: what it said of that."""


class NotUnderstood(DebuggerError, ValueError):
    """A line that em_debug does not understand: what it said of it. Nothing was done."""


class SessionEnded(DebuggerError):
    """The session is closed, and answers nothing any more."""


class Answer(NamedTuple):
    """What em_debug answered to a line, what became of it, and where the session stands then.

    status: "done", "refused", "told" (what became of it is said in the lines alone), "silent", "wrong" or "ended".
    line: the line at the place, from 1, or 0. of: how many lines there are. event: the newest event that stands there.
    ahead: whether lines or events lie ahead. source: where the line at the place comes from, if that is known.
    """

    command: str
    lines: List[str]
    status: str
    line: int
    of: int
    event: int
    ahead: bool
    source: str

    def __str__(self) -> str:
        return "\n".join(self.lines)


def program() -> List[str]:
    """The command that runs em_debug: what BUNJELAV_DEBUGGER says, the script of this checkout, or that of the PATH."""
    named = os.environ.get("BUNJELAV_DEBUGGER")
    own = Path(__file__).resolve().parents[3] / "em_debug"
    found = named or (str(own) if own.is_file() else shutil.which("em_debug"))
    if not found:
        raise DebuggerError("there is no em_debug: BUNJELAV_DEBUGGER says where it lies, or the PATH has it")
    return [found]


class Debugger:
    """A session of em_debug over a script or a kept run, or over none.

        with Debugger("examples/broken/ring.em") as d:
            print(d.who("1020 8"))
            d.back_to(15)
            print(d.look("RCTL"), d.line, d.event)

    options: further words of its command line, as ["--profile", "adapter"]. step: the script is loaded, and none of its
    lines performed. One session is used by one thread at a time.
    """

    opening: Answer
    status: Optional[int] = None
    score: Optional[Dict[str, int]] = None
    _process: Optional[subprocess.Popen[bytes]]
    _input: IO[bytes]
    _output: IO[bytes]

    def __init__(self, script: Optional[Name] = None, *, options: Iterable[str] = (), step: bool = False) -> None:
        words: List[Union[str, bytes]] = [*program(), "--json", *options]
        words += ["--step"] if step else []
        words += ["--", os.fspath(script)] if script is not None else []
        self._said: IO[bytes] = tempfile.TemporaryFile()
        self._process = None
        try:
            process = subprocess.Popen(words, stdin=subprocess.PIPE, stdout=subprocess.PIPE, stderr=self._said)
        except OSError as error:
            self._said.close()
            raise DebuggerError(f"{os.fsdecode(words[0])}: {error.strerror}") from error
        assert process.stdin is not None and process.stdout is not None
        self._process, self._input, self._output = process, process.stdin, process.stdout
        head = self._read()
        if (head.get("format"), head.get("version")) != (FORMAT, VERSION):
            self.close()
            raise DebuggerError(f"{os.fsdecode(words[0])} answers in another form than version {VERSION}")
        self.opening = self._now = answer_of("", head)

    # ---- a line and its answer

    def ask(self, line: str) -> Answer:
        """Types a line, and gives the answer: any line of em_debug's, as its `help` lists them."""
        if "\n" in line:
            raise ValueError("a line has no newline within")
        if self._process is None:
            raise SessionEnded("the session is closed")
        try:
            self._input.write(line.encode("utf-8", "surrogateescape") + b"\n")
            self._input.flush()
        except OSError:
            pass  # (that it ended is seen where it is read)
        self._now = answer = answer_of(line, self._read())
        if answer.status == "wrong":
            raise NotUnderstood(str(answer))
        return answer

    @property
    def line(self) -> int:
        """The line at the place, from 1; 0 before the first."""
        return self._now.line

    @property
    def event(self) -> int:
        """The number of the newest event that stands at the place; 0 if none does."""
        return self._now.event

    @property
    def ahead(self) -> bool:
        """Whether lines or events lie ahead of the place."""
        return self._now.ahead

    @property
    def source(self) -> str:
        """Where the line at the place comes from, as driver.c:57; empty if that is not known."""
        return self._now.source

    @property
    def complaints(self) -> str:
        """What em_debug said on standard error so far, as of bad lines of the script."""
        return "" if self._said.closed else os.pread(self._said.fileno(), 1 << 20, 0).decode(errors="replace")

    # ---- what one asks for most

    def who(self, watch: str, *, which: str = "") -> Answer:
        """Who changed a register, octets, line, link, frames or sent last; which: "again", or "all"."""
        return self.ask(f"who {watch} {which}".rstrip())

    def why(self) -> Answer:
        """Why the newest idle step, dropped frame or refused event did nothing."""
        return self.ask("why")

    def look(self, register: str) -> Answer:
        """A register, with the names of its bits."""
        return self.ask(f"look {register}")

    def lines(self, first: Optional[int] = None, last: Optional[int] = None) -> Answer:
        """Lines of the script: ten around the place or around a line, or those from one to another."""
        return self.ask(" ".join(["list", *(str(it) for it in (first, last) if it is not None)]))

    def history(self, most: Optional[int] = None) -> Answer:
        """The newest lines that performed events or took some back."""
        return self.ask("history" if most is None else f"history {most}")

    def goto(self, event: int) -> Answer:
        """Goes to right after an event; to the start for 0."""
        return self.ask(f"goto {event}")

    def back(self, events: int = 1) -> Answer:
        """Takes so many events back."""
        return self.ask(f"back {events}")

    def forward(self, events: int = 1) -> Answer:
        """Goes on by so many events."""
        return self.ask(f"forward {events}")

    def back_to(self, line: int) -> Answer:
        """Goes back to before a line."""
        return self.ask(f"back to {line}")

    def forward_to(self, line: int) -> Answer:
        """Goes on to before a line."""
        return self.ask(f"forward to {line}")

    def step(self, lines: int = 1) -> Answer:
        """Performs so many lines."""
        return self.ask(f"next {lines}")

    def run(self, until: str = "") -> Answer:
        """Performs all lines that lie ahead, or until something: refused, dropped, warning, differs, a line, a change."""
        return self.ask(f"run until {until}" if until else "run")

    def load(self, name: str) -> Answer:
        """Reads the lines of another file."""
        return self.ask(f"load {name}")

    def save(self, name: str, *, over: bool = False) -> Answer:
        """Writes the lines to a file, which is new unless over is said."""
        return self.ask(f"save! {name}" if over else f"save {name}")

    # ---- the end

    def close(self) -> None:
        """Ends the session. Then status has em_debug's, and score how many answers were as their lines expect."""
        process, self._process = self._process, None
        if process is None:
            return
        try:
            self._input.close()
        except OSError:
            pass  # (it ended before)
        for line in self._output:
            self.score = json.loads(line).get("end", self.score)
        self.status = process.wait()
        self._output.close()
        self._said.close()

    def __enter__(self) -> Debugger:
        return self

    def __exit__(self, kind: Optional[Type[BaseException]], error: Optional[BaseException],
                 trace: Optional[TracebackType]) -> None:
        self.close()

    def __del__(self) -> None:
        if getattr(self, "_process", None):
            self.close()

    def _read(self) -> Dict[str, Any]:
        """The next object; where none comes, why."""
        octets = self._output.readline()
        found: Dict[str, Any] = json.loads(octets) if octets.endswith(b"\n") else {}
        if found and "end" not in found:
            return found
        said = self.complaints.strip()
        self.close()
        raise DebuggerError(said or f"em_debug ended with status {self.status}")


def answer_of(command: str, found: Dict[str, Any]) -> Answer:
    """An answer, of its object."""
    return Answer(found.get("command", command), found["lines"], found.get("status", "told"), found["line"], found["of"],
                  found["event"], found["ahead"], found.get("source", ""))
