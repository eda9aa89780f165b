"""Lab 5: five drivers, each with a fault. A test tells the symptom, and not the fault."""
import difflib
from pathlib import Path

import lab2
import lab3
import lab4
from fault import Fault, Stopped
from frames import frame
from received import must_be_stored
from verdict import Tests

TESTS = Tests("driver1")
# lines that a correction takes at most, away or anew
CHANGED = 6
FIRST = bytes.fromhex("01005E0000FB")
# groups by whose hash another bit of the same word stands, or of another word
GROUPS = [bytes.fromhex(digits) for digits in ("01005E0000FA", "01005E0010FB", "01005E000001", "01005E7FFFFA")]


def accepted(source: Path, given: Path) -> None:
    """The driver that was handed out, with a correction, and no driver that is written anew."""
    handed_out = given.parent / "given" / given.name
    old, new = (path.read_text(errors="replace").splitlines() for path in (handed_out, source))
    turns = difflib.SequenceMatcher(None, old, new, autojunk=False).get_opcodes()
    changed = sum(max(there - here, to - begin) for kind, here, there, begin, to in turns if kind != "equal")
    if changed > CHANGED:
        raise Fault(f"{source.name} differs from the driver that was handed out in {changed} lines, and a correction "
                    f"takes {CHANGED} at most: find the fault, and change nothing else")


def symptom(make, tests, *questions) -> None:
    """The first of the tests that fails, with its symptom alone."""
    for test in tests:
        try:
            test(make)
        except Stopped:
            raise
        except Fault as fault:
            raise Fault(fault.sentence.partition(": ")[0], *questions) from None


@TESTS.test(2, "driver 1 hands each packet out once", file="driver1")
def old_packets(make):
    symptom(make, (lab2.one, lab2.laps, lab2.burst, lab2.beside), "ring rx", "who 101C 1", "who 101C 1 all",
            "history 12")


@TESTS.test(2, "driver 2 hands each packet out as it came", file="driver2")
def mixed_packets(make):
    symptom(make, (lab2.one, lab2.lengths, lab2.laps, lab2.burst, lab2.beside), "ring rx", "who 1000 8 all",
            "who 1010 8 all", "history 12")


@TESTS.test(2, "driver 3 sends each packet, as it was given", file="driver3")
def wrong_packets(make):
    symptom(make, (lab3.one, lab3.laps, lab3.full, lab3.again, lab3.longest), "ring tx", "who TDT", "who 1000 16",
            "history 8")


@TESTS.test(2, "driver 4 comes for each packet", file="driver4")
def forgotten_packets(make):
    symptom(make, (lab4.set_up, lab4.one, lab4.burst, lab4.race, lab4.flood), "ring rx", "who line", "who ICR",
            "history 12")


@TESTS.test(2, "driver 5 hears the groups that it has joined, and no others", file="driver5")
def deaf(make):
    bench = lab2.started(make)
    joined, number = [], 0
    for turn in ((True, FIRST), *((True, group) for group in GROUPS), (False, FIRST), (False, GROUPS[2]),
                 (True, FIRST), (False, GROUPS[0])):
        is_joined, group = turn
        bench.call("join" if is_joined else "leave", group.hex())
        joined = [*joined, group] if is_joined else [one for one in joined if one != group]
        for one in (FIRST, *GROUPS):
            number += 1
            hears(bench, one, one in joined, frame(number, to=one))


def hears(bench, group, is_joined, octets):
    """A frame for a group comes, and is received, or is not."""
    event = bench.arrive(octets)
    questions = ["why", "who MTA[125]", "who MTA[125] all", "history 12"]
    if is_joined and not event.is_stored:
        raise Fault(f"the driver has joined {group.hex(':')} and not left it, and the adapter dropped a frame for it "
                    f"({bench.machine.why()})",
                    *questions)
    if not is_joined and event.is_stored:
        raise Fault(f"the driver is not in {group.hex(':')}, and the adapter took a frame for it", *questions)
    if is_joined:
        must_be_stored(bench, event, "a frame")
        lab2.take(bench, octets, f"a frame for {group.hex(':')}")
