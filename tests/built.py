"""Which libraries stand built in this tree, and a copy of it in which `rt check` takes them.

`rt lib` leaves beside a library a sum of all that it was made from, `out/rlib/stamp`, and `rt check` takes no library
without. `rt ci` proves and builds the same libraries and leaves no sum, so that `rt check` would prove each of them once
more. Here such a library counts as built where nothing that it was made from is newer: its files, and the libraries below.
The sum goes into the copy alone, by the rule of the toolchain that is here: only `rt` knows what it looks for.
"""
import functools
import importlib
import subprocess
import sys
from pathlib import Path

from tally import CRATES, below

# What a library is made of.
READ_AS = ("src/**/*.rt", "specs/**/*.antt", "proofs/**/*.antt")
# `rt`, which sums up each library once.
QUICK_RT = str(Path(__file__).with_name("quick_rt"))
# In these seconds `rt lib` sees that a library is built, on a machine that does much else.
SOON = 120


@functools.cache
def toolchain():
    """The part of `rt` that knows crates, and the sums of what they are made from."""
    page = subprocess.run(["rt", "doc"], stdin=subprocess.DEVNULL, stdout=subprocess.PIPE, text=True, check=True).stdout
    sys.path.insert(0, str(Path(page.strip()).parent / "bin"))
    sys.dont_write_bytecode = True
    found = importlib.import_module("rtlib")
    # it sums up a library once for each way that leads to it
    found.Crate.stamp = functools.cache(found.Crate.stamp)
    return found


def library(name: str) -> Path:
    return CRATES / name / "out" / "rlib" / f"{name}.rlib"


def made_at(name: str) -> int:
    """When the library was put there. `rt ci` gives files of an earlier run a second name, which are older than that."""
    return library(name).stat().st_mtime_ns


def is_newest(name: str) -> bool:
    """Whether the library is newer than all that it was made from."""
    files = [file.stat().st_mtime_ns for pattern in READ_AS for file in (CRATES / name).glob(pattern)]
    return made_at(name) > max([*files, *map(made_at, below()[name])])


def mark_built(room: Path) -> set[str]:
    """The crates of which `rt check` takes the library in a copy of the crates with their libraries. Those that `rt ci`
    left get their sums there."""
    built: set[str] = set()
    known: dict = {}
    for name, deps in below().items():
        stamp = room / "crates" / name / "out" / "rlib" / "stamp"
        if not (library(name) / "format").is_file() or not built.issuperset(deps):
            continue
        crate = toolchain().Crate(str(room / "crates" / name), str(room), known)
        if not stamp.exists() and is_newest(name):
            stamp.write_text(crate.stamp())
        if crate.is_built():
            built.add(name)
    return built


def is_taken(room: Path, name: str) -> bool:
    """Whether `rt` itself takes the library of a crate that is built in the copy, and proves nothing."""
    words = ["timeout", str(SOON), QUICK_RT, "lib"]
    how = {"stdin": subprocess.DEVNULL, "stdout": subprocess.DEVNULL, "stderr": subprocess.DEVNULL}
    return subprocess.run(words, cwd=room / "crates" / name, check=False, **how).returncode == 0
