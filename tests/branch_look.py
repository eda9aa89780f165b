"""Which branches of some crates the tests run, as tests/unreached asks for it.

The crates' sources are copied, and marked by tests/marked_branches.py. One crate, without a proof (`rt try`), then
runs the tests of tests/library that need no crate above, the worked rows, and the cases of tests/tried. A few
lines of C, which are linked to it, note which branch was run.
"""
import hashlib
import os
import re
import shutil
import struct
import subprocess
import tempfile
from pathlib import Path

from built import QUICK_RT
from items import read_crate
from library_crate import FILES, opened
from marked_branches import MARKS, Branch, Marker
from tally import CRATES, TOP, below
from tried_crate import CASES, uses
from unproved import UNUSED

# The crates whose branches are looked at.
LOOKED_AT = ("em_driver", "em_rx", "em_tx", "em_step", "em_journal")
# What plays the worked rows, and where they lie.
ROWS, WORKED = TOP / "tests" / "worked_rows.rtt", TOP / "tests" / "worked"
OF_THE_KIT = "bitflags clap anyhow rand_core rand_pcg"
NAME = "em_branches"
SECONDS = 900
# A test of a run's bounds, which takes long.
LEFT_OUT = ("takes_so_many_octets",)

MARKING = """//! Tells which branches are run.
#![tactic(auto)]

unsafe extern "C" {
    safe fn em_branch_is_run(number: u32);
}

/// The branch of this number is run.
pub fn hit(number: u32) {
    em_branch_is_run(number);
}

/// What a `?` looks at.
pub trait Looked {
    /// This number is run where there is a value, and else the next.
    fn looked(self, number: u32) -> Self;
}

impl<T, E> Looked for Result<T, E> {
    fn looked(self, number: u32) -> Self {
        match self {
            Ok(value) => {
                hit(number);
                Ok(value)
            }
            Err(error) => {
                hit(number + 1);
                Err(error)
            }
        }
    }
}

impl<T> Looked for Option<T> {
    fn looked(self, number: u32) -> Self {
        match self {
            Some(value) => {
                hit(number);
                Some(value)
            }
            None => {
                hit(number + 1);
                None
            }
        }
    }
}
"""

NOTING = """#include <fcntl.h>
#include <stdint.h>
#include <unistd.h>

static unsigned char is_run[%d];

void em_branch_is_run(uint32_t number) {
  if (is_run[number]) return;
  is_run[number] = 1;
  int file = open("%s", O_WRONLY | O_CREAT | O_APPEND, 0666);
  if (file < 0) return;
  if (write(file, &number, sizeof number) < 0) is_run[number] = 0;
  close(file);
}
"""

# What the cases of tests/tried do, where nothing refuses memory.
ALL_CASES = """//! The cases of tests/tried.
use crate::cases::{NAMES, case};
use std::test::Fail;

#[test]
fn all_cases(rt: HostRuntime) -> Result<(), Fail> {
    for name in NAMES {
        case(rt.alloc(), name)?;
    }
    Ok(())
}
"""


def with_all_below(names: list[str], known: dict[str, list[str]]) -> list[str]:
    return list(dict.fromkeys(one for name in names for one in (*with_all_below(known[name], known), name)))


def named() -> list[str]:
    """The crates that tests here may name: what tests/tried stands on."""
    known = below()
    return with_all_below([name for name in uses() if name in known], known)


def tests_of_libraries(stands_on: list[str]) -> list[Path]:
    """Those of tests/library that name no other crates, and no other tests that do."""
    known, found = below(), []
    for file in FILES:
        named = {word for word in known if f"use {word}::" in file.read_text()}
        if file.stem != "lib" and named <= set(stands_on):
            found.append(file)
    while lacking := [one for one in found if imported(one) - {other.stem for other in found}]:
        found = [one for one in found if one not in lacking]
    return found


def imported(file: Path) -> set[str]:
    return set(re.findall(r"crate::(\w+)", file.read_text()))


def sums() -> dict[str, str]:
    """A sum of each crate that is looked at, and of each thing that is run for it."""
    parts = {f"crates/{name}/src": sorted((CRATES / name / "src").glob("*.rt")) for name in LOOKED_AT}
    parts |= {str(file.relative_to(TOP)): [file] for file in [*CASES, *tests_of_libraries(named())]}
    parts[str(ROWS.relative_to(TOP))] = [ROWS]
    for row in sorted(WORKED.glob("*/script")):
        parts[str(row.parent.relative_to(TOP))] = sorted(row.parent.iterdir())
    found = {}
    for name, files in parts.items():
        octets = b"".join(f"{file.name} {file.stat().st_size}\n".encode() + file.read_bytes() for file in files)
        found[name] = hashlib.sha256(octets).hexdigest()[:16]
    return found


class Look:
    """A tree in which the branches are marked, with one crate of tests."""

    def __init__(self, room: Path) -> None:
        self.branches: list[Branch] = []
        self.noted = room / "run"  # by the lines of C
        self.stands_on = named()
        for name in self.stands_on:
            shutil.copytree(CRATES / name, room / "crates" / name, ignore=UNUSED)
        opened(room / "crates")
        for name in LOOKED_AT:
            self.mark(room / "crates" / name)
        self.make_marks(room / "crates" / MARKS)
        lines = [line for line in (TOP / "crates.txt").read_text().splitlines() if line.split(":")[0] in self.stands_on]
        lines = [f"{line} {MARKS}" if line.split(":")[0] in LOOKED_AT else line for line in lines]
        lines += [f"{MARKS}:", f"{NAME}: {' '.join(self.stands_on)} {OF_THE_KIT}"]
        (room / "crates.txt").write_text("\n".join(lines) + "\n")
        self.crate = room / "crates" / NAME

    def mark(self, folder: Path) -> None:
        by_path = {}
        for one in read_crate(folder, set()).functions:
            if one.trait not in ("const", "derived") and not one.is_law and one.has_body:
                by_path.setdefault(one.path, []).append(one)
        for path, functions in sorted(by_path.items()):
            path.write_text(Marker(path, self.branches).marked(functions))

    def make_marks(self, folder: Path) -> None:
        for part in ("src", "c"):
            (folder / part).mkdir(parents=True)
        (folder / "src" / "lib.rt").write_text(MARKING)
        (folder / "c" / "marks.c").write_text(NOTING % (len(self.branches) + 1, self.noted))

    def files(self) -> dict[str, str]:
        """The modules of the crate of tests, by name, and their text."""
        run = [*CASES, *tests_of_libraries(self.stands_on)]
        return {file.stem: file.read_text() for file in run} | {"all_cases": ALL_CASES}

    def make_tests(self) -> None:
        """A library with every test that needs no crate above these."""
        files = self.files()
        files["rows"] = self.rows()
        for name, text in files.items():
            files[name] = re.sub(f"#\\[test\\]\nfn ({'|'.join(LEFT_OUT)})\\(", r"fn \1(", text)
        self.write(files, "lib", "".join(f"#[cfg(test)]\nmod {name};\n" for name in sorted(files)))

    def rows(self) -> str:
        """The test that plays the worked rows, where they lie."""
        names = self.crate.parent.parent / "rows"
        names.write_text("".join(f"{row.name}\n" for row in sorted(WORKED.iterdir())))
        text = ROWS.read_text()
        for old, new in (('"rows"', f'"{names}"'), ('"{name}/', f'"{WORKED}/{{name}}/')):
            assert old in text
            text = text.replace(old, new)
        return text

    def write(self, files: dict[str, str], root: str, text: str) -> None:
        shutil.rmtree(self.crate, ignore_errors=True)
        (self.crate / "src").mkdir(parents=True)
        head = "//! Runs branches.\n#![tactic(auto)]\n\n"
        for name, inner in {**files, root: head + text}.items():
            (self.crate / "src" / f"{name}.rt").write_text(inner)

    def run(self) -> tuple[set[int], str]:
        """The places of the branches that are run, and the end of what was said where it failed."""
        ran = subprocess.run(
            [QUICK_RT, "try", "--test", "--seconds", str(SECONDS)], cwd=self.crate, env=os.environ | {"RT_ALLOW_C": MARKS},
            stdout=subprocess.PIPE, stderr=subprocess.STDOUT, stdin=subprocess.DEVNULL, text=True, check=False,
        )
        octets = self.noted.read_bytes() if self.noted.is_file() else b""
        return set(struct.unpack(f"<{len(octets) // 4}I", octets)), ran.stdout[-2000:] if ran.returncode else ""


def look() -> tuple[list[Branch], set[int], str]:
    """Every branch, the places of those that are run, and the end of what was said where that failed."""
    with tempfile.TemporaryDirectory() as folder:
        made = Look(Path(folder))
        made.make_tests()
        return made.branches, *made.run()
