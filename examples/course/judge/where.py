"""Where things lie, and the binding of the library."""
import os
import sys
from pathlib import Path

COURSE = Path(__file__).resolve().parent.parent
BOARD = COURSE / "board"
# the checkout that the course lies in
TOP = COURSE.parent.parent
LABS = {
    1: COURSE / "lab1-registers",
    2: COURSE / "lab2-receive",
    3: COURSE / "lab3-send",
    4: COURSE / "lab4-interrupts",
    5: COURSE / "lab5-five-bugs",
    6: COURSE / "lab6-pages",
}
# each language by the end of its files
LANGUAGES = {"c": ".c", "rust": ".rs", "python": ".py"}

try:
    import bunjelav  # noqa: F401  (one that is installed)
except ImportError:
    sys.path.append(str(TOP / "bindings" / "python"))


def shown(path: Path) -> str:
    """A path as it is typed from here."""
    return os.path.relpath(path)


def debugger() -> str:
    """The debugger as it is typed from here."""
    named = shown(TOP / "em_debug")
    return named if "/" in named else f"./{named}"
