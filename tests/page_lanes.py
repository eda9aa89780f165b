"""A register's, a field's and some octets' value over time: the lane of each says at each step what the record says."""
from pathlib import Path

from page_states import GO, sight
from page_tools import BUDGET, TOP, page_of, record_of, steps_of
from page_use import EVENTS_OF_A_ROUND, many_events, spent
from recorded import walk
from tally import Tally

WATCHES = ["register RDH", "register ICR", "bits RCTL 2", "register STATUS"]
# asks, and shows what was asked as a lane
ADD = """
const button = document.querySelector(`[data-watch="${arguments[0]}"]`);
if (!button) return false;
button.click();
const add = document.getElementById('lane-add');
if (add.hidden) return false;
add.click();
return [...document.querySelectorAll('#wave-names .lane .name')].map((one) => one.dataset.watch);
"""
LANES = GO + "return [...document.querySelectorAll('#wave-names .lane')].map((one) => [one.querySelector('.name').dataset.watch, " \
    "one.querySelector('.value').textContent])"
# how many of its pixels a lane has that are drawn, in each third of the picture
DRAWN = """
const canvas = document.getElementById('analyser'), names = [...document.querySelectorAll('#wave-names .row')];
const at = names.findIndex((row) => row.classList.contains('lane')), tall = names[0].getBoundingClientRect().height;
const top = names[at].getBoundingClientRect().top - canvas.getBoundingClientRect().top;
const context = new OffscreenCanvas(canvas.width, canvas.height).getContext('2d', { willReadFrequently: true });
context.drawImage(canvas, 0, 0);
const third = Math.floor(canvas.width / 3);
return [0, 1, 2].map((part) => {
  const { data } = context.getImageData(part * third, top + 3, third, tall - 4);
  let count = 0;
  for (let i = 3; i < data.length; i += 4) if (data[i] > 200) count += 1;
  return count;
});
"""


def lanes(tally: Tally, browser, room: Path) -> None:
    for example in ("broken-ring.em", "driver.em", "broken/ring.em"):
        script = (TOP / "examples" / example).read_bytes()
        page, steps = room / "lanes.html", steps_of(*walk(script.decode("latin-1"), budget=BUDGET))
        page.write_bytes(page_of(record_of(script)))
        browser.open(page)
        octets = browser.run("return [...document.querySelectorAll('#rx [data-watch], #tx [data-watch]')].map((one) => one.dataset.watch)")
        for watch in [*WATCHES, *octets[:2]]:
            browser.run(GO, len(steps) - 1)
            added = browser.run(ADD, watch)
            tally.check(f"{example}, a lane of {watch}", [] if added and added[-1] == watch else [f"there are {added}"])
        faults = []
        for index, step in enumerate(steps):
            for watch, value in browser.run(LANES, index):
                wanted = sight(step.event.state, watch)
                faults += [] if value == wanted else [f"step {index}, {watch}: {value}, and not {wanted}"]
        tally.check(f"{example}, lanes at each step", faults[:5])
        browser.run("document.querySelector('[data-lane]').click()")
        left = len(browser.run(LANES, 3))
        wanted = len([*WATCHES, *octets[:2]]) - 1
        tally.check(f"{example}, a lane less", [] if left == wanted else [f"there are {left}, and not {wanted}"])


def drawn(tally: Tally, browser, room: Path) -> None:
    """A lane is drawn where it changes, step by step and by columns; that of a ring's octets of a long run is there soon."""
    events = 20_000
    page = room / "long.html"
    page.write_bytes(page_of(record_of(many_events(events // EVENTS_OF_A_ROUND).encode())))
    browser.command("Performance.enable", timeDomain="threadTicks")
    browser.open(page)
    for watch in ("register RDT", "octets 4096 8"):
        before = spent(browser, "ScriptDuration")
        browser.run(ADD, watch)
        print(f"a lane of {watch} over {events:,} events takes {1000 * (spent(browser, 'ScriptDuration') - before):.0f} ms")
        for key in ("0", "+"):
            browser.press(*([key] if key == "0" else [key] * 20))
            browser.run("return new Promise((done) => requestAnimationFrame(() => setTimeout(() => done(1), 50)))")
            counts = browser.run(DRAWN)
            tally.check(f"the lane of {watch} is drawn, {key}", [] if min(counts) > 50
                else [f"{counts} of its pixels are"])
        browser.run("document.querySelector('[data-lane]').click()")


def check_lanes(tally: Tally, browser, room: Path) -> None:
    for part in (lanes, drawn):
        part(tally, browser, room)
    tally.check("lanes, the console", browser.told())
