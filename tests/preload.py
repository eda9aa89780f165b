"""Runs built programs with one request for memory, one read or one write refused: by a library that is preloaded."""
import mmap
import os
import shutil
import struct
import subprocess
import tempfile
from pathlib import Path

from tally import TOP, Tally

SOURCE = TOP / "tests" / "refuse_nth.c"
NUMBERS = struct.Struct("9q")


def library(tally: Tally, folder: str) -> Path | None:
    """Builds the library in a folder; none where there is no C compiler, which it says."""
    compiler = next(filter(None, map(shutil.which, ("cc", "gcc", "clang"))), None)
    if compiler is None:
        not_run(tally, "what makes memory, reads and writes fail: there is no C compiler here (cc, gcc or clang)")
        return None
    made = Path(folder) / "refuse_nth.so"
    subprocess.run([compiler, "-O2", "-shared", "-fPIC", "-Wall", "-Wextra", "-o", made, SOURCE], check=True)
    return made


def not_run(tally: Tally, why: str) -> None:
    """Says what can't be tried here; where everything is to be checked it fails."""
    print(f"not run: {why}", flush=True)
    if os.environ.get("CHECK_ALL"):
        tally.check("all of it", ["a part was not run"])


class Ran:
    """A run: its status, what it wrote, and how many requests for memory, reads and writes it made."""

    def __init__(self, ended: subprocess.CompletedProcess, made: tuple) -> None:
        self.status, self.out, self.err = ended.returncode, ended.stdout, ended.stderr
        self.requests, self.reads, self.writes = made

    def ended(self) -> tuple:
        return self.status, self.out, self.err


class Preload:
    """Runs programs one after the other, each with what is to be refused to it."""

    def __init__(self, made: Path) -> None:
        # a file, since a pipe gives what it has, and how often a program then asks for memory is chance
        self.script, self.file = tempfile.TemporaryFile(), tempfile.NamedTemporaryFile()
        self.file.write(bytes(mmap.PAGESIZE))
        self.file.flush()
        self.numbers = mmap.mmap(self.file.fileno(), NUMBERS.size)
        self.env = os.environ | {"LD_PRELOAD": str(made), "REFUSALS": self.file.name}

    def run(
        self, words: list, script: bytes = b"", cwd=None, memory=0, read=0, write=0, reads_of=0, writes_of=0
    ) -> Ran:
        """A run in which the request for memory, the read and the write of these numbers are refused (0: none), and
        each read and write moves so many octets at most (0: all, -1: none)."""
        self.numbers[:] = NUMBERS.pack(memory, read, write, 0, reads_of, writes_of, 0, 0, 0)
        os.pwrite(self.script.fileno(), script, 0)
        os.ftruncate(self.script.fileno(), len(script))
        os.lseek(self.script.fileno(), 0, os.SEEK_SET)
        how = {"stdout": subprocess.PIPE, "stderr": subprocess.PIPE, "timeout": 60, "check": False}
        ended = subprocess.run([str(word) for word in words], stdin=self.script, cwd=cwd, env=self.env, **how)
        return Ran(ended, NUMBERS.unpack(self.numbers[:])[6:])
