"""The timeline: it is zoomed and drawn along without steps between, and in the picture of a long run no mark and no kind is
lost."""
from math import exp, floor
from pathlib import Path

import recorded
from page_find import steps_of_record
from page_tools import page_of, record_of
from page_use import GO, many_events
from tally import Tally

VIEW = """
const { first, count } = document.getElementById('analyser').dataset, box = arguments[0]
  ? document.getElementById(arguments[0]).getBoundingClientRect() : { left: 0, top: 0, width: 0, height: 0 };
return new Promise((done) => requestAnimationFrame(() => setTimeout(() => {
  const { first, count } = document.getElementById('analyser').dataset;
  done([Number(first), Number(count), box.left, box.top, box.width, box.height]);
}, 30)));
"""
AT = "return Number(document.getElementById('run').dataset.step)"
# the rows of the picture of the whole run: by row from the top down, which columns have a colour
ROWS = """
const canvas = document.getElementById('overview'), { width, height } = canvas;
const { data } = canvas.getContext('2d').getImageData(0, 0, width, height);
const rows = [];
for (const y of arguments[0]) {
  const there = [];
  for (let x = 0; x < width; x++) if (data[4 * (y * width + x) + 3] > 40) there.push(x);
  rows.push(there);
}
return [width, height, rows];
"""
# (as page/density.js and page/steps.js have them)
MARKS, MARK_ROW, KIND_ROW = ["refused", "bad", "differs", "dropped", "warning"], 4, 6
WARNING = "tail-past-ring: RDT 9 is past the ring of 8, write an index below that"
KINDS = ["read", "write", "poke", "arrive", "rx", "tx", "link", "driver", "look", "back"]
ROUNDS = 1200


def pointed(browser, kind: str, x: float, y: float, **more) -> None:
    browser.command("Input.dispatchMouseEvent", type=kind, x=x, y=y, **more)


def long_run() -> bytes:
    """A long run with one frame that is dropped, one line that is refused, one that differs and one that is bad."""
    lines = many_events(ROUNDS).splitlines()
    for at, line in ((1500, "arrive 0102030405060708090A0B0C0800 60"), (2500, "poke FFFFFF00 00"),
        (3500, "r 00008 = 00000001"),
                     (3501, "none"), (4500, "back 3"), (5200, "regs")):
        lines.insert(at, line)
    return "".join(f"{line}\n" for line in lines).encode()


def near(one: float, other: float, most: float = 0.01) -> bool:
    return abs(one - other) <= most * max(1.0, abs(other))


def zooms(tally: Tally, browser, room: Path) -> None:
    """The wheel zooms about the pointer, by as much as it turns; to the whole run, and to a few steps."""
    page = room / "zoom.html"
    page.write_bytes(page_of(record_of(long_run())))
    browser.open(page)
    browser.run(GO, 3000)
    first, count, left, top, width, height = browser.run(VIEW, "analyser")
    x, y = left + width / 4, top + 20
    for turned in (120, 33, 480, -700, 2000, -250):
        there = first + count / 4
        pointed(browser, "mouseWheel", x, y, deltaX=0, deltaY=turned)
        before, (first, count, *_) = count, browser.run(VIEW, "")
        steps = len(steps_of_record(recorded.parsed(record_of(long_run())))) if turned == 120 else steps
        wanted = min(steps, before * exp(0.0025 * turned))
        is_there = near(first + count / 4, there, 0.002) or first == 0 or near(first + count, steps)
        tally.check(f"the wheel turned by {turned}", [] if near(count, wanted) and is_there
                    else [f"{count} steps are shown from {first} on, and not {wanted} about {there}"])
    pointed(browser, "mouseWheel", x, y, deltaX=0, deltaY=-20000)
    narrow = browser.run(VIEW, "")
    tally.check("a few steps", [] if near(narrow[1], width / 48) else [f"{narrow[1]} are shown"])
    pointed(browser, "mouseWheel", x, y, deltaX=0, deltaY=20000)
    wide = browser.run(VIEW, "")
    tally.check("the whole run", [] if near(wide[1], steps) and wide[0] == 0 else [f"{wide[1]} of {steps} are shown"])


def drags(tally: Tally, browser, room: Path) -> None:
    """A pointer draws the steps along, and one that stays chooses a step; keys zoom and move."""
    browser.run(GO, 3000)
    for _ in range(40):
        browser.press("+")
    for _ in range(3):
        browser.press("-")
    first, count, left, top, width, _ = browser.run(VIEW, "analyser")
    y, cell = top + 20, width / count
    pointed(browser, "mousePressed", left + 500, y, button="left", buttons=1, clickCount=1)
    for by in (3, 30, 100, 200):
        pointed(browser, "mouseMoved", left + 500 + by, y, button="left", buttons=1)
    pointed(browser, "mouseReleased", left + 700, y, button="left", clickCount=1)
    moved = browser.run(VIEW, "")
    # (the first points of a drag may be a click's)
    tally.check("the steps are drawn along", [] if abs((first - moved[0]) * cell - 200) < 4 and browser.run(AT) == 3000
                else [f"by {(first - moved[0]) * cell} points, at step {browser.run(AT)}"])
    for x in (10, 333, width - 10):
        first, count, *_ = browser.run(VIEW, "")
        pointed(browser, "mousePressed", left + x, y, button="left", buttons=1, clickCount=1)
        pointed(browser, "mouseReleased", left + x, y, button="left", clickCount=1)
        wanted, at = floor(first + x * count / width), browser.run(AT)
        tally.check(f"a step is chosen at {x:.0f}", [] if at == wanted else [f"it is {at}, and not {wanted}"])
    browser.run("document.activeElement.blur()")
    first, count, *_ = browser.run(VIEW, "")
    browser.command("Input.dispatchKeyEvent", type="keyDown", key="ArrowLeft", code="ArrowLeft", modifiers=8)
    moved = browser.run(VIEW, "")
    tally.check("Shift and an arrow", [] if near(first - moved[0], count / 4)
        else [f"it moves by {first - moved[0]} of {count}"])
    for keys, factor in (("+", 1 / 1.5), ("-", 1.5)):
        before = browser.run(VIEW, "")
        browser.press(keys)
        after = browser.run(VIEW, "")
        tally.check(f"the key {keys}", [] if near(after[1], before[1] * factor)
            else [f"{before[1]} steps become {after[1]}"])
    browser.press("0")
    whole = browser.run(VIEW, "")
    tally.check("the key 0", [] if whole[0] == 0 and whole[1] > 6000 else [f"{whole[1]} steps are shown"])


def warned_run() -> dict:
    """The long run, in which some lines have a warning: one of them differs too, and one has another mark."""
    made = recorded.parsed(record_of(long_run()))
    lines = made["lines"]
    other = next(line for line in lines[7:] if line.get("kind") == "write" and len(line["events"]) == 1)
    other |= {"expected": "1", "differs": "differs: 1 wanted"}
    marked = [other, next(line for line in lines if "refused" in line)]
    for line in [*marked, *lines[100 :: len(lines) // 3]]:
        line["warnings"] = [WARNING]
    return made


def marked_so(steps: list, mark: str) -> list[int]:
    """The steps that came out so. A warning is the last step's of its line."""
    last = {step.line["line"]: at for at, step in enumerate(steps)}
    return [at for at, step in enumerate(steps) if step.mark == mark
            or mark == "warning" and step.line.get("warnings") and last[step.line["line"]] == at]


def nothing_lost(tally: Tally, browser, room: Path) -> None:
    """In the picture of the whole run each mark stands in its column, and each kind where there are steps of it."""
    record, page = warned_run(), room / "marks.html"
    page.write_bytes(page_of(recorded.written(record)))
    browser.open(page)
    browser.press("0")
    steps = steps_of_record(record)
    browser.run(GO, 0)
    kinds = [kind for kind in KINDS if any(step.kind == kind for step in steps)]
    marks = [mark for mark in MARKS if marked_so(steps, mark)]
    tops = [MARK_ROW * row + 1 for row in range(len(marks))]
    tops += [MARK_ROW * len(marks) + 2 + KIND_ROW * row + 2 for row in range(len(kinds))]
    width, height, rows = browser.run(ROWS, tops)
    of_frame = {0, 1, width - 1}
    for name, there in zip(marks, rows):
        columns = {min(floor(at * width / len(steps)), width - 2) for at in marked_so(steps, name)}
        wanted = {x + more for x in columns for more in (0, 1)}
        tally.check(f"marks of {name}", [] if set(there) - of_frame == wanted - of_frame
            else [f"in {there}, and not {sorted(wanted)}"])
    tally.check("all marks", [] if marks == MARKS else [f"the run has {marks}"])
    for name, there in zip(kinds, rows[len(marks) :]):
        wanted = {floor(at * width / len(steps)) for at, step in enumerate(steps) if step.kind == name}
        other = (set(there) ^ wanted) - of_frame
        tally.check(f"columns of {name}", [] if not other else [f"{sorted(other)[:9]} differ"])


def check_zoom(tally: Tally, browser, room: Path) -> None:
    for part in (zooms, drags, nothing_lost):
        part(tally, browser, room)
    tally.check("the timeline, the console", browser.told())
