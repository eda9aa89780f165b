"""The timeline along times: each step lies at its time, by a plain reading of the script; where there are no times nothing is
other than before."""
import re
from math import floor
from pathlib import Path

import recorded
from page_find import steps_of_record
from page_tools import TOP, page_of, record_of
from page_zoom import VIEW, pointed
from tally import Tally

FRAME = "FFFFFFFFFFFF02AABBCCDDEE0806000108000604000102AABBCCDDEE0A0000010000000000000A000002 60"
# times in fits and starts, one that goes back, one of a comment, and steps without one before and behind
TIMED = f"""w 02800 1000
w 02808 80
w 00100 8002 # 1700000000.000000
w 000D0 80 # 1700000000.100000
link up # 1700000000.250000
poke 1000 00200000000000000000000000000000
poke 1010 00280000000000000000000000000000
w 02818 2 # 1700000001.000000
arrive {FRAME} # 1700000003.500000
rx
r C0 # 1700000003.500001
arrive {FRAME} # 1700000003.400000
rx # no time
# 1700000004.000000
back 2
link down
r 8 # 1700000004.12345
r 8 # 4294967296.000000
link up # 1700000004.999999
""".splitlines()
# what is said of each of these steps
SAID = """
return arguments[0].map((step) => {
  const slider = document.getElementById('slider');
  slider.value = String(step);
  slider.dispatchEvent(new Event('input'));
  return [document.getElementById('run').dataset.time ?? null, document.querySelector('#present .time')?.textContent ?? ''];
});
"""
# the columns of a row of points of the picture that have a colour
COLUMNS = """
const shown = document.getElementById(arguments[0]), { width } = shown, found = [];
const canvas = Object.assign(document.createElement('canvas'), { width, height: shown.height });
const context = canvas.getContext('2d', { willReadFrequently: true });
context.drawImage(shown, 0, 0);
const { data } = context.getImageData(0, arguments[1], width, 1);
for (let x = 0; x < width; x++) if (data[4 * x + 3] > 40) found.push(x);
return found;
"""
TURNED = "const one = document.getElementById('by-time'); return [one.hidden, one.getAttribute('aria-pressed'), " \
         "document.getElementById('analyser').dataset.axis, document.getElementById('run').dataset.time ?? null]"
AT = "return Number(document.getElementById('run').dataset.step)"


def times_of(script: list[str], lines: list[int]) -> list[int | None]:
    """When these lines were, in microseconds: the latest time up to each."""
    latest, times = None, []
    for text in script:
        found = re.search(r"(?:^|[ \t\r])#[ \t\r]*(\d+)\.(\d{6})[ \t\r]*$", text)
        if found and int(found[1]) < 2**32:
            latest = int(found[1]) * 1_000_000 + int(found[2])
        times.append(latest)
    return [times[line - 1] if line else None for line in lines]


def span(count: int) -> str:
    """A span of microseconds in words."""
    unit, name = next((one for one in ((1_000_000, "s"), (1_000, "ms")) if count >= one[0]), (1, "µs"))
    return "0" if count == 0 else f"{f'{count / unit:.6f}'.rstrip('0').rstrip('.')} {name}"


def said_of(time: int | None, first: int) -> str:
    return "" if time is None else f"{time // 1_000_000}.{time % 1_000_000:06d}, {span(time - first)} behind the first time"


def places_of(times: list, width: float) -> list[float]:
    """Where steps lie in points, where the whole run is shown: none lies before an older one."""
    known = [time for time in times if time is not None]
    latest, places = known[0], []
    for time in times:
        latest = max(latest, time or latest)
        places.append((latest - known[0]) / (max(known) - known[0]) * (len(times) - 1) * width / len(times))
    return places


def lies(tally: Tally, browser, room: Path) -> None:
    record = record_of("".join(f"{line}\n" for line in TIMED).encode())
    page = room / "times.html"
    page.write_bytes(page_of(record))
    browser.open(page)
    steps = steps_of_record(recorded.parsed(record))
    times = times_of(TIMED, [step.line["line"] for step in steps])
    known = next(time for time in times if time is not None)
    said = browser.run(SAID, list(range(len(steps))))
    faults = [f"step {at}: {words}, and not {said_of(time, known)}" for at, (words, time) in enumerate(zip(said, times))
              if words != [said_of(time, known)] * 2]
    tally.check("the time of each step", faults[:3])
    tally.check("along steps at first", [] if browser.run(TURNED)[:3] == [False, "false", "steps"] else ["it is not"])
    # (what lies ahead of the present step is fainter)
    browser.press("End")
    browser.press("t")
    tally.check("along times", [] if browser.run(TURNED)[:3] == [False, "true", "times"] else ["the key t does nothing"])
    first, count, left, top, width, _ = browser.run(VIEW, "analyser")
    places = places_of(times, width)
    whole = first == 0 and abs(count - len(steps)) < 0.01
    tally.check("the whole run", [] if whole else [f"{count} from {first} on"])
    # (what was taken back lies on a branch below)
    wanted = {floor(place) + more for step, place in zip(steps, places) for more in (0, 1)
              if not step.gone and step.kind != "back"}
    there, present = set(browser.run(COLUMNS, "analyser", 22)), set(range(floor(places[-1]) - 1, int(width) + 1))
    there, wanted = there - present, wanted - present
    tally.check("where steps lie", [] if there == wanted else [f"{sorted(there)}, and not {sorted(wanted)}"])
    levels(tally, browser, steps, places, width)
    chosen(tally, browser, (left, top, width), times)


def levels(tally: Tally, browser, steps: list, places: list[float], width: float) -> None:
    """The link stays as it is between two times."""
    height = browser.run("return parseFloat(document.querySelector('.steps-name').style.height)")
    up, level = [], False
    for step in steps:
        if step.kind == "back":
            level = True
        elif step.event and "link" in step.event:
            level = step.event["link"][1]
        up.append(level)
    wanted = set()
    for at, place in enumerate(places):
        end = places[at + 1] if at + 1 < len(places) else width
        wanted |= set(range(floor(place), floor(end))) if up[at] else set()
    edges = {floor(place) + more for place in places for more in (-1, 0, 1)} | {int(width) - 1}
    there = set(browser.run(COLUMNS, "analyser", int(height) + 20 + 5))
    tally.check("a signal between times", [] if there - edges == wanted - edges
                else [f"{sorted((there ^ wanted) - edges)[:9]} differ"])


def chosen(tally: Tally, browser, box: tuple, times: list) -> None:
    """A pointer chooses the step whose time is nearest; zoomed in, too; and so in the strip of the whole run."""
    left, top, width = box
    for turned in (0, -600):
        if turned:
            pointed(browser, "mouseWheel", left + width * 0.85, top + 20, deltaX=0, deltaY=turned)
        first, count, *_ = browser.run(VIEW, "")
        places = [(place - first * width / len(times)) * len(times) / count for place in places_of(times, width)]
        for share in (0.02, 0.2, 0.5, 0.84, 0.97):
            x = round(share * width)
            pointed(browser, "mousePressed", left + x, top + 20, button="left", buttons=1, clickCount=1)
            pointed(browser, "mouseReleased", left + x, top + 20, button="left", clickCount=1)
            at, nearest = browser.run(AT), min(abs(place - x) for place in places)
            first_there = next(one for one, place in enumerate(places) if abs(places[at] - place) < 1e-6)
            is_so = abs(abs(places[at] - x) - nearest) <= 1 and first_there == at
            tally.check(f"a step chosen at {share}, turned by {turned}", [] if is_so else
                        [f"it is {at}, {abs(places[at] - x):.1f} points off, and one is {nearest:.1f}"])
            now = browser.run(VIEW, "")
            if abs(now[0] - first) > 1e-6:
                first = now[0]
                places = [(place - first * width / len(times)) * len(times) / count for place in places_of(times, width)]
    browser.press("t")
    tally.check("along steps again", [] if browser.run(TURNED)[1:3] == ["false", "steps"] else ["it is not"])


def without(tally: Tally, browser, room: Path) -> None:
    """Where no line has a time, there is no axis of times, and the key does nothing."""
    page = room / "without.html"
    for script in ((TOP / "examples" / "broken" / "ring.em").read_bytes(), b"link up # 1.5\nr 8 # at 1.500000\n",
                   b"# 1700000000.123456 more\n"):
        page.write_bytes(page_of(record_of(script)))
        browser.open(page)
        browser.press("t")
        shown = browser.run(TURNED)
        tally.check(f"no times in {script[:20]!r}", [] if shown == [True, "false", "steps", None] else [f"{shown}"])


def check_times(tally: Tally, browser, room: Path) -> None:
    for part in (lies, without):
        part(tally, browser, room)
    tally.check("times, the console", browser.told())
