"""A driver's program: how it is built of a hand-in, and one run of it, within limits."""
import fcntl
import os
import re
import resource
import select
import shutil
import signal
import socket
import subprocess
import sys
import tempfile
import time
from pathlib import Path
from typing import List, Optional

from fault import Late, Stopped, Unbuilt
from where import BOARD

# seconds of the processor for a run, and seconds on the clock for one answer, on a machine with much else to do
PROCESSOR, CLOCK = 2, 60
BUILD_CLOCK = 900
# octets that a driver may print, how many of its lines are shown, and how much of each
PRINTED, SHOWN, WIDTH = 1 << 20, 8, 200
# the longest line of a driver's program
LINE = 1 << 17
# the status of a program in Rust that lacks a function (board/nic.rs)
MISSING = 117

C_FLAGS = ["-std=gnu11", "-Wall", "-Wextra", "-g", "-O1"]
RUST_MAIN = """mod nic;
mod registers;
#[path = "{file}"]
mod driver;

fn main() {{
    nic::serve(driver::Driver::default());
}}
"""


class Compiler(Exception):
    """The language's compiler is not here."""


def compiler_of(language: str) -> str:
    """What is to be here for a language."""
    return {"c": os.environ.get("CC", "cc"), "rust": "rustc", "python": sys.executable}[language]


def build(source: Path, language: str, room: Path) -> List[str]:
    """Builds a hand-in in a room of its own, and gives the words that start it."""
    compiler = compiler_of(language)
    if not shutil.which(compiler):
        raise Compiler(f"there is no {compiler} here")
    for part in BOARD.iterdir():
        if part.is_file():
            shutil.copy(part, room)
    copy = room / source.name
    shutil.copy(source, copy)
    program = room / "program"
    if language == "python":
        compiled([compiler, "-m", "py_compile", copy], room)
        return [compiler, str(room / "nic.py"), str(copy)]
    if language == "c":
        compiled([compiler, *C_FLAGS, copy, room / "nic.c", room / "calls.c", "-o", program], room)
    else:
        (room / "main.rs").write_text(RUST_MAIN.format(file=copy.name))
        compiled([compiler, "--edition", "2021", "main.rs", "-o", program], room)
    return [str(program)]


def compiled(words: List, room: Path) -> None:
    try:
        ran = subprocess.run([str(word) for word in words], cwd=room, stdin=subprocess.DEVNULL, stdout=subprocess.PIPE,
                             stderr=subprocess.STDOUT, timeout=BUILD_CLOCK, check=False)
    except subprocess.TimeoutExpired:
        raise Unbuilt(f"its compiler came to no end in {BUILD_CLOCK} seconds") from None
    if ran.returncode:
        raise Unbuilt(ran.stdout.decode(errors="replace").replace(f"{room}/", ""))


def limit(process: int) -> None:
    """What holds of a driver's program."""
    limits = {resource.RLIMIT_CPU: PROCESSOR, resource.RLIMIT_FSIZE: PRINTED, resource.RLIMIT_CORE: 0}
    try:
        for which, most in limits.items():
            resource.prlimit(process, which, (most, most))
    except ProcessLookupError:
        pass  # (it has ended)


class Program:
    """One run: lines go out and come in, memory is shared, and what it prints goes to a file that nobody reads results
    from."""

    def __init__(self, words: List[str], memory: int, base: int, size: int) -> None:
        here, there = socket.socketpair()
        self._printed = tempfile.TemporaryFile()
        given = [str(there.fileno()), str(memory), str(base), str(size)]
        self._process = subprocess.Popen(
            [*words, *given], pass_fds=(there.fileno(), memory), stdin=subprocess.DEVNULL, stdout=self._printed,
            stderr=self._printed, start_new_session=True, env={"PATH": os.environ.get("PATH", "")})
        limit(self._process.pid)
        there.close()
        self._socket = here
        self._held = b""
        # what the driver did last, as the tests know it
        self.last = ""

    def say(self, text: str) -> None:
        try:
            self._socket.sendall(f"{text}\n".encode())
        except OSError:
            pass  # (it is gone, which its next line tells)

    def line(self) -> str:
        """The next line of the program."""
        deadline = time.monotonic() + CLOCK
        while b"\n" not in self._held:
            ready, _, _ = select.select([self._socket], [], [], max(0.0, deadline - time.monotonic()))
            if not ready:
                raise Late(self._with_last(f"it gave no answer in {CLOCK} seconds"))
            try:
                octets = self._socket.recv(LINE)
            except ConnectionError:
                octets = b""
            if not octets or len(self._held) > LINE:
                raise self._ended()
            self._held += octets
        line, _, self._held = self._held.partition(b"\n")
        return line.decode(errors="replace")

    def _with_last(self, why: str) -> str:
        return f"{why}; the driver's last access was {self.last}" if self.last else why

    def _ended(self) -> Stopped:
        """How the program ended."""
        try:
            status = self._process.wait(CLOCK)
        except subprocess.TimeoutExpired:
            return Stopped("it closed its connection to the tests")
        if status in (-signal.SIGXCPU, -signal.SIGKILL):
            return Late(self._with_last(f"it took {PROCESSOR} seconds of the processor without an end: a loop waits "
                                        "for what never comes (the adapter acts only behind an access of a register)"))
        return Stopped(self._with_last(self._words_of(status)))

    @staticmethod
    def _words_of(status: int) -> str:
        if status == -signal.SIGXFSZ:
            return f"it printed more than {PRINTED} octets"
        if status < 0:
            return f"it crashed: {signal.strsignal(-status)}"
        if status == MISSING:
            return "the driver does not have this function"
        return f"the program ended with the status {status}"

    def printed(self) -> List[str]:
        """The last lines that the driver printed."""
        self._printed.seek(0)
        lines = self._printed.read().decode(errors="replace").splitlines()
        shown = [re.sub(r"[^ \"]*/course-\w+/", "", line)[:WIDTH] for line in lines[-SHOWN:]]
        return shown if len(lines) <= SHOWN else [f"({len(lines) - SHOWN} lines)", *shown]

    def end(self) -> None:
        """Nothing of it is left."""
        self._socket.close()
        try:
            os.killpg(self._process.pid, signal.SIGKILL)
        except ProcessLookupError:
            pass
        self._process.wait()


def shared_memory(size: int) -> int:
    """Memory that no program can make shorter."""
    descriptor = os.memfd_create("board", os.MFD_CLOEXEC | os.MFD_ALLOW_SEALING)
    os.ftruncate(descriptor, size)
    fcntl.fcntl(descriptor, fcntl.F_ADD_SEALS, fcntl.F_SEAL_SHRINK | fcntl.F_SEAL_GROW)
    return descriptor


def room_for(built: Optional[Path] = None) -> tempfile.TemporaryDirectory:
    return tempfile.TemporaryDirectory(prefix="course-", dir=built)
