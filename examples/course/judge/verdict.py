"""The tests of a lab over a hand-in, and the points that they give."""
import importlib
import shutil
from dataclasses import dataclass, field
from pathlib import Path
from typing import Callable, List, Optional

from bench import Bench
from fault import Fault, Late, Unbuilt
from programs import build, room_for
from where import COURSE, LABS, LANGUAGES

# octets of a hand-in's file
LONGEST = 262144
# after so many tests that ran into a limit of time the others of the program are not run
LIMITS = 2


@dataclass
class Test:
    """One test: what it is called, its points, and what it does with the words that start the driver."""

    name: str
    points: int
    does: Callable[..., None]
    # where its driver lies, in lab 5
    file: str


@dataclass
class Result:
    test: Test
    points: int
    fault: Optional[Fault] = None
    kept: Optional[Path] = None
    printed: List[str] = field(default_factory=list)


@dataclass
class Verdict:
    """What a hand-in of a lab came to: its results, or why there are none."""

    lab: int
    language: str
    results: List[Result]

    @property
    def points(self) -> int:
        return sum(result.points for result in self.results)

    @property
    def most(self) -> int:
        return sum(result.test.points for result in self.results)


class Tests(list):
    """The tests of one lab, in their order: a module of a lab has one as TESTS."""

    def __init__(self, file: str) -> None:
        super().__init__()
        self.file = file

    def test(self, points: int, name: str, file: str = "") -> Callable[[Callable[..., None]], Callable[..., None]]:
        def keep(does: Callable[..., None]) -> Callable[..., None]:
            self.append(Test(name, points, does, file or self.file))
            return does

        return keep


def tests_of(lab: int) -> Tests:
    return importlib.import_module(f"lab{lab}").TESTS


def file_names(lab: int, language: str) -> List[str]:
    """The files of a hand-in."""
    names = [test.file for test in tests_of(lab)]
    return [name + LANGUAGES[language] for name in dict.fromkeys(names)]


def judged(lab: int, language: str, folder: Path, kept: Path) -> Verdict:
    """Tests what lies in a folder. Nothing but the files of the hand-in is taken from there."""
    tests, results = tests_of(lab), []
    shutil.rmtree(kept, ignore_errors=True)
    for name in file_names(lab, language):
        mine = [test for test in tests if test.file + LANGUAGES[language] == name]
        results += judged_file(lab, mine, folder / name, language, kept)
    return Verdict(lab, language, results)


def judged_file(lab: int, tests: List[Test], source: Path, language: str, kept: Path) -> List[Result]:
    def none_of(why: Fault) -> List[Result]:
        return [Result(test, 0, why) for test in tests]

    if source.is_symlink() or not source.is_file():
        return none_of(Fault(f"there is no {source.name}, or it is a link and no file"))
    if source.stat().st_size > LONGEST:
        return none_of(Fault(f"{source.name} has more than {LONGEST} octets"))
    try:
        accepted(lab, source)
    except Fault as fault:
        return none_of(fault)
    with room_for() as room:
        try:
            words = build(source, language, Path(room))
        except Unbuilt as unbuilt:
            lines = str(unbuilt).splitlines()
            told = "\n".join(lines[:12])
            return none_of(Fault(f"{source.name} does not compile:\n{told}"))
        return run_all(tests, words, kept)


def accepted(lab: int, source: Path) -> None:
    """Whether a lab takes the file, as lab 5 takes no driver that is written anew."""
    module = importlib.import_module(f"lab{lab}")
    if hasattr(module, "accepted"):
        module.accepted(source, LABS[lab] / source.name)


def run_all(tests: List[Test], words: List[str], kept: Path) -> List[Result]:
    results: List[Result] = []
    limits = 0
    for number, test in enumerate(tests, 1):
        if limits >= LIMITS:
            results.append(Result(test, 0, Fault("it was not run: two tests before it came to no end")))
            continue
        result = run_one(test, words, kept / f"{test.file}-{number}.run")
        limits += isinstance(result.fault, Late)
        results.append(result)
    return results


def run_one(test: Test, words: List[str], kept: Path) -> Result:
    """One test over a new bench, or more than one; the run that is kept is that of the last."""
    benches: List[Bench] = []

    def make(**how: object) -> Bench:
        close()
        benches.append(Bench(words, kept, **how))  # type: ignore[arg-type]
        return benches[-1]

    def close() -> None:
        if benches:
            benches[-1].close()

    fault: Optional[Fault] = None
    try:
        test.does(make)
    except Fault as found:
        fault = found
    except Exception as found:  # (whatever the driver did: it has no points)
        fault = Fault(f"the test could not go on: {found!r}")
    printed = benches[-1].program.printed() if benches else []
    close()
    return Result(test, 0 if fault else test.points, fault, kept if kept.is_file() else None, printed)


def default_folder(lab: int) -> Path:
    return LABS[lab]


def solutions(lab: int) -> Path:
    return COURSE / "solutions" / LABS[lab].name
