"""A long run: it can be seen and used before all of it is read; what leads further waits, and is answered then."""
import re
from pathlib import Path

import webdriver
from page_hostile import SHOWS, faults_of
from page_links import BAD, LINK, opened_at
from page_tools import page_of, ready, record_of
from page_use import EVENTS_OF_A_ROUND, is_quick, many_events, spent, step_times, steps_are_quick
from tally import Tally

# in which a page can be used, of its own thread's time, however long its run is
OPEN_SECONDS, TRIES, MOST_ASKED = 3.0, 5, 20_000
# so many events at least have a record that is packed
LEAST_EVENTS = 40_000
# does this as soon as a run is shown, in the page, before more of it is read
WHEN_SHOWN = """
new MutationObserver((changes, observer) => {
  const run = document.getElementById('run'), reading = document.getElementById('reading');
  if (!run || run.hidden) return;
  observer.disconnect();
  const text = (id) => document.getElementById(id).textContent;
  const press = (key, target = document.body) =>
    target.dispatchEvent(new KeyboardEvent('keydown', { key, bubbles: true }));
  const now = () => ({ step: Number(run.dataset.step), event: Number(run.dataset.event), asked: text('who'),
    most: Number(document.getElementById('slider').max), reading: reading.hidden ? '' : text('reading'),
    found: text('found') });
  window.early = [now()];
  const seen = () => window.early.push(now());
  %s
}).observe(document, { subtree: true, childList: true, attributes: true, attributeFilter: ['hidden'] });
"""
NOW = """
const text = (id) => document.getElementById(id).textContent;
return { step: Number(document.getElementById('run').dataset.step), found: text('found'), broken: text('broken'),
  most: Number(document.getElementById('slider').max), asked: Number(document.getElementById('who').dataset.event ?? 0),
  hash: location.hash, early: window.early, head: text('settings'),
  lines: document.querySelector('.script-line')?.getAttribute('aria-setsize') };
"""
SHOWN = "return !document.getElementById('run')?.hidden"


def used_early(browser, page: Path, link: str, work: str = "") -> dict:
    """Opens a page by a link, does this as soon as its run is shown, and gives what is so when all of it was read."""
    made = browser.command("Page.addScriptToEvaluateOnNewDocument", source=WHEN_SHOWN % work)
    opened_at(browser, page, link)
    ready(browser)
    browser.command("Page.removeScriptToEvaluateOnNewDocument", identifier=made["identifier"])
    return browser.run(NOW)


def so(is_so: bool, told) -> list[str]:
    """What is wrong where something is not so: what the page told."""
    return [] if is_so else [f"it tells {told}"]


def is_early(told: dict, count: int) -> list[str]:
    """What is wrong with what a page told at first, when it had begun to read."""
    first = told["early"][0]
    is_begun = 0 < first["most"] < count / 2 and re.match(r"Reading the run: \d+ %, [\d,]+ events\.", first["reading"])
    return so(is_begun, first)


def usable(tally: Tally, browser, page: Path, count: int) -> None:
    """The first steps are shown, gone through and asked about; where one went, one stays."""
    told = used_early(browser, page, "", """
      press('ArrowRight'); press('ArrowRight'); press('ArrowRight'); seen();
      document.querySelector('[data-watch="link"]').click(); seen();
      for (let i = 0; i < 6; i++) press('PageDown');
      document.querySelector('[data-register=RDT] button').click(); seen();
      document.querySelector('#script [data-line="57"]').click(); seen();""")
    first, on, link, asked, line = told["early"]
    faults = is_early(told, count) + so([first["step"], on["step"], on["event"]] == [0, 3, 3], on)
    faults += so("no event up to here" in link["asked"], link)
    # (from event 19 on the driver writes RDT at each fifth one)
    faults += so("event 59, line 59" in asked["asked"], asked)
    faults += so(line["step"] == told["step"] == 57, line)
    faults += so(told["most"] == count and told["lines"] == str(count), told)
    faults += so(f"{count:,} lines, {count:,} events" in told["head"], told["head"])
    tally.check("a long run is used before it is read", faults)


def follows(tally: Tally, browser, page: Path, count: int) -> None:
    """A link into the last part, the end, and the key for it are followed as soon as they can be."""
    late = count - 7
    told = used_early(browser, page, f"#event={late}&who=RDT")
    waits = f"Event {late:,} is shown as soon as it is read." in told["early"][0]["reading"]
    is_there = late - EVENTS_OF_A_ROUND < told["asked"] <= late and told["step"] == told["asked"]
    is_there = is_there and told["hash"] == f"#event={late}&who=RDT"
    tally.check("a link into the last part", is_early(told, count) + so(waits and is_there, told))
    told = used_early(browser, page, f"#line={late}", "press('ArrowRight');")
    tally.check("a link, and one goes elsewhere", so(told["step"] == 1 and browser.run(LINK) == "#event=1", told))
    told = used_early(browser, page, f"#event={count + 1}")
    bad = browser.run(BAD)
    tally.check("a link behind the end", so("is no event of this run" in bad and told["step"] == count, [bad, told]))
    told = used_early(browser, page, "")
    tally.check("no link leads to the end", so(told["early"][0]["step"] == 0 and told["step"] == count, told))
    told = used_early(browser, page, "", "press('ArrowRight'); press('End'); seen();")
    last = told["early"][1]
    tally.check("the key for the end leads on", so(last["step"] == last["most"] and told["step"] == count, told))


def found(tally: Tally, browser, page: Path, script: str, count: int) -> None:
    """A search that was begun early finds all of it, and goes there, also if it is part of a link."""
    lines = [number for number, line in enumerate(script.splitlines(), 1) if line == "w 02818 3"]
    told = used_early(browser, page, "", """
      const box = document.getElementById('find');
      box.value = 'register:RDT value:3'; press('Enter', box); seen();""")
    is_so = told["early"][1]["found"] == "sought when all is read" and told["found"] == f"1 of {len(lines):,}"
    tally.check("a search that is begun early", is_early(told, count) + so(is_so and told["step"] == lines[0], told))
    told = used_early(browser, page, f"#event={lines[-1]}&find=register:RDT+value:3")
    is_so = told["found"] == f"{len(lines):,} of {len(lines):,}" and told["step"] == lines[-1]
    tally.check("a link with a search", so(is_so, told))


def broken(tally: Tally, browser, room: Path, record: bytes, count: int) -> None:
    """What is wrong in a late part is told, and all before it is shown; so is where it can't be unpacked."""
    page, late = room / "late.html", count * 19 // 20
    wrong = record.replace(b'{"event":%d,' % late, b'{"event":%d,' % (late + 1), 1)
    page.write_bytes(page_of(wrong))
    told = used_early(browser, page, f"#event={count - 1}", "press('ArrowRight');")
    words = f"event {late}, of line {late}, has another number. What stands before that is shown: {late - 1:,} steps."
    is_so = words in told["broken"] and told["most"] == late - 1 and told["step"] == 1
    tally.check("a late part that is wrong", is_early(told, count) + so(is_so, told))
    told = used_early(browser, page, f"#event={count - 1}")
    bad = browser.run(BAD)
    is_so = "is no event of this run" in bad and words in told["broken"] and told["step"] == late - 1
    tally.check("a link behind what is wrong", so(is_so, [bad, told]))
    whole, letters = page_of(record), b'type="application/gzip">'
    begin = whole.rindex(letters) + len(letters)
    end = whole.index(b"</script>", begin)
    page.write_bytes(whole[: (begin + end) // 2] + whole[end:])
    told = used_early(browser, page, "")
    is_so = "it was packed, and can’t be unpacked" in told["broken"] and count / 2 < told["most"] < count
    tally.check("a late part that can't be unpacked", is_early(told, count) + so(is_so, told))
    tally.check("what stands before it", faults_of(browser.run(SHOWS), browser.told(), True))


def opens(tally: Tally, page: Path, count: int) -> None:
    """It is shown within a time of the page's own thread, the best of some tries, however long it is."""
    browser, took, whole, steps = webdriver.Browser(waits=False), [], [], []
    try:
        browser.command("Performance.enable", timeDomain="threadTicks")
        while len(took) < TRIES and not (took and min(took) <= OPEN_SECONDS and is_quick(steps)):
            browser.open("/proc/version")
            browser.open(page)
            for _ in range(MOST_ASKED):
                if browser.run(SHOWN):
                    break
            took.append(spent(browser, "TaskDuration"))
            ready(browser)
            whole.append(spent(browser, "TaskDuration"))
            steps += [step_times(browser) for _ in range(TRIES)]
    finally:
        browser.close()
    tally.check("a long run opens soon", so(min(took) <= OPEN_SECONDS, f"{min(took):.2f} s"))
    steps_are_quick(tally, f"{count:,} events", steps)
    print(f"{count:,} events can be used after {min(took):.2f} s, and are read after {min(whole):.1f} s")


def check_long(tally: Tally, browser, room: Path, events: int) -> None:
    script = many_events(max(events, LEAST_EVENTS) // EVENTS_OF_A_ROUND)
    record, page, count = record_of(script.encode()), room / "early.html", script.count("\n")
    page.write_bytes(page_of(record))
    usable(tally, browser, page, count)
    follows(tally, browser, page, count)
    found(tally, browser, page, script, count)
    broken(tally, browser, room, record, count)
    tally.check("a long run, the console", browser.told())
    opens(tally, page, count)
