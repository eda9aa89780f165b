"""What a page shows of where lines come from: a run that was kept, by mouse and by keys, at widths, in both schemes;
and sources that are made to break it."""
import re
from pathlib import Path

import recorded
from page_hostile import RUNS, visible
from page_tools import page_of, program
from page_use import CONTRAST, LEAST_CONTRAST
from tally import Tally, run

# as a driver would leave it, of two files: a ring of eight, and a lap of it
KEPT = "".join([
    "# em_debug --memory 65536 --budget 1048576 --mac 525400123456\n",
    *(f"w {offset:08X} {value:08X} = ok @ driver.c:{line}\n" for offset, value, line in
      ((0x2800, 0x1000, 9), (0x2808, 0x80, 10), (0x2818, 7, 11), (0x100, 0x8002, 100))),
    *(f"poke {0x1000 + 16 * at:016X} {(0x2000 + 0x800 * at).to_bytes(16, 'little').hex()} = ok @ driver.c:20\n"
      for at in range(8)),
    "link up = ok @ src/main.c:7\n# a comment @ driver.c:1\n",
    *(f"arrive {'FF' * 6}{'00' * 54} = stored @ src/main.c:8\nrx = wrote {at} @ src/main.c:8\n"
      "r 000000C0 = 00000084 @ irq(), driver.c:30\n" for at in range(3)),
    "peek 2000 4 @ src/main.c:9\nr 00008\nbogus @ src/main.c:10\n",
])
SHOWN = """
return { hidden: document.getElementById('sources-panel').hidden,
  head: document.getElementById('sources-head').textContent, said: document.getElementById('source-said').textContent,
  columns: [...document.querySelectorAll('.script-line')].map((one) =>
    one.querySelector('.source')?.textContent ?? null),
  rows: [...document.querySelectorAll('.source-line')].map((one) => [one.querySelector('.text').textContent,
    one.querySelector('b').textContent, one.querySelector('.count').textContent]),
  titles: [...document.querySelectorAll('.source-line')].map((one) => one.title),
  lit: [...document.querySelectorAll('.source-line[aria-current] .text')].map((one) => one.textContent),
  chosen: document.querySelector('.source-line[aria-selected=true]')?.querySelector('.text').textContent,
  line: Number(document.getElementById('run').dataset.line), ran: window.ran ?? null, scripts: document.scripts.length,
  broken: document.getElementById('broken').textContent };
"""
CHOOSE = """[...document.querySelectorAll('.source-line')].find((one) =>
  one.querySelector('.text').textContent === arguments[0]).click();""" + SHOWN
STEP = """const s = document.getElementById('slider');
  s.value = arguments[0]; s.dispatchEvent(new Event('input'));""" + SHOWN
# as em_guest names a program counter, and as another program may
LONG = "before e1000_alloc_jumbo_rx_buffers(), drivers/net/ethernet/intel/e1000_main.c:1547"
OTHER = "before drivers/net/ethernet/intel/e1000_main.c:2345 e1000_alloc_jumbo_rx_buffers"
HOSTILE = [
    LONG, OTHER,
    f"<img src=x onerror={RUNS}>", f"</script><script>{RUNS}</script>:1", "__proto__", "constructor:5", "a\tb\x7f.c:1",
    "\u202egnp.c:3", "\u2066x\u2069:4", "before send(), x.c:2", "x" * 5000 + ".c:9", "\u05e9\u05dc\u05d5\u05dd.c:1",
    "&lt;b&gt;:2", ":" * 2000, "1" * 400 + ":" + "9" * 400, "\U0001f600" * 40, " ", "0x00000000DEADBEEF",
]
WIDE = """
return [document.documentElement.scrollWidth, ...[...document.querySelectorAll('.source-line')].filter((one) =>
  one.querySelector('.count').getBoundingClientRect().right > one.getBoundingClientRect().right
  || one.querySelector('.text').scrollWidth > one.querySelector('.text').clientWidth).map((one) => one.textContent)];
"""


def opened(browser, room: Path, record: bytes) -> dict:
    page = room / "sources.html"
    page.write_bytes(page_of(record))
    browser.open(page)
    return browser.run(SHOWN)


def places(script: str) -> dict[str, list[int]]:
    """By source, the lines that perform an event; and of the others, which perform none, an empty list."""
    found = {}
    for number, line in enumerate(script.splitlines(), 1):
        if line.startswith("#") or " @ " not in line:
            continue
        text, _, source = line.partition(" @ ")
        found.setdefault(source, [])
        if text.split()[0] in ("r", "w", "poke", "link", "arrive", "rx", "tx"):
            found[source].append(number)
    return found


def in_order(source: str) -> tuple:
    file, line = re.fullmatch(r"(?:.*\), )?(.*):(\d+)", source).groups()
    return file, int(line)


def listed(tally: Tally, shown: dict, wanted: dict[str, list[int]]) -> None:
    counts = {1: "1 event", 0: "no event"}
    rows = [[source, counts.get(len(wanted[source]), f"{len(wanted[source])} events")]
            for source in sorted(wanted, key=in_order)]
    faults = [] if [[text, count] for text, _, count in shown["rows"]] == rows else [f"{shown['rows']}, and not {rows}"]
    faults += [] if shown["head"] == f"{len(rows)} sources" and not shown["hidden"] else [f"it says {shown['head']}"]
    tally.check("the sources", faults)
    columns = ["" if line.startswith("#") else line.partition(" @ ")[2] for line in KEPT.splitlines()]
    # of a long one its end, where it ends in its place
    columns = [re.sub(r"^irq\(\), ", "…", text) for text in columns]
    faults = [f"{seen!r}, and not {text!r}" for seen, text in zip(shown["columns"], columns) if seen != text]
    tally.check("the column of sources", faults + ([] if len(shown["columns"]) > 9 else ["there is none"]))


def by_mouse(tally: Tally, browser, wanted: dict[str, list[int]]) -> None:
    """A click goes to the first event, a second one to the next, and behind the last to the first again."""
    for source in ("driver.c:20", "src/main.c:8", "src/main.c:9"):
        lines = wanted[source] or [KEPT.splitlines().index("peek 2000 4 @ src/main.c:9") + 1]
        faults = []
        for at, line in enumerate([*lines, lines[0]]):
            order = f"{at % len(lines) + 1} of {len(lines)}"
            shown = browser.run(CHOOSE, source)
            row = next(row for row in shown["rows"] if row[0] == source)
            is_so = shown["line"] == line and row[1] == order and shown["said"].startswith(f"{source}: {order}, ")
            is_so = is_so and shown["lit"] == [source] and shown["chosen"] == source
            faults += [] if is_so else [f"click {at + 1}: {shown['line']}, {row}, {shown['said']}, {shown['lit']}"]
        tally.check(f"a click on {source}", faults)
    # at a step that was gone to by other means its source is lit too; where its line has none, no source is
    step = 4
    shown = browser.run(STEP, step)
    tally.check("the source of a step", [] if shown["lit"] == ["driver.c:100"] else [f"{shown['lit']}"])
    shown = browser.run(STEP, 0)
    tally.check("the source of the start", [] if shown["lit"] == [] else [f"{shown['lit']}"])


def by_keys(tally: Tally, browser, wanted: dict[str, list[int]]) -> None:
    browser.run(STEP, 0)
    browser.run("document.body.focus()")
    for _ in range(80):
        browser.press("Tab")
        if browser.run("return document.activeElement.id") == "sources":
            break
    outline = browser.run("""return [document.activeElement.id, getComputedStyle(document.activeElement).outlineStyle,
      document.getElementById(document.activeElement.getAttribute('aria-activedescendant'))?.role]""")
    tally.check("Tab to the sources", [] if outline[0] == "sources" and outline[1] != "none" and outline[2] == "option"
                else [f"{outline}"])
    first, second = sorted(wanted, key=in_order)[:2]
    browser.press(*["ArrowUp"] * 12, "ArrowDown")
    shown = browser.run(SHOWN)
    tally.check("an arrow among sources", [] if shown["chosen"] == second and shown["line"] == 0 else [f"{shown}"])
    browser.press("Enter")
    shown = browser.run(SHOWN)
    tally.check("Enter on a source", [] if shown["line"] == wanted[second][0] else [f"{shown}"])
    browser.press("ArrowUp", "Enter")
    shown = browser.run(SHOWN)
    tally.check("Enter on another", [] if shown["line"] == wanted[first][0] else [f"{shown}"])


def beside(tally: Tally, browser, room: Path) -> None:
    """Beside an event stands where its line comes from; without any source there is neither column nor list."""
    record = recorded.record("link up\nr 8\n")
    shown = opened(browser, room, recorded.written(record))
    is_so = shown["hidden"] and shown["columns"] == [None, None]
    tally.check("no sources", [] if is_so else [f"{shown}"])
    record["lines"][0]["source"] = "driver.c:12"
    opened(browser, room, recorded.written(record))
    seen = []
    for step in range(3):
        browser.run(STEP, step)
        seen.append(browser.run(
            "return [...document.querySelectorAll('#present .note')].map((one) => one.textContent)"))
    tally.check("a source beside its event", [] if seen == [[], ["@ driver.c:12"], []] else [f"{seen}"])


def looks(tally: Tally, browser, room: Path, record: bytes) -> None:
    opened(browser, room, record)
    for width in (1280, 1000, 700, 400, 360):
        browser.size(width, 900)
        wide = browser.run("return new Promise((done) => setTimeout(() => done((() => {" + WIDE + "})()), 100))")
        tally.check(f"sources, {width} points wide", [] if wide[0] <= width and not wide[1:] else [f"{wide}"])
    browser.size(1280, 900)
    for dark in (False, True):
        browser.scheme(dark)
        opened(browser, room, record)
        browser.run(CHOOSE, "driver.c:20")
        tally.check("sources, contrast", browser.run(CONTRAST, LEAST_CONTRAST))
    browser.scheme(False)
    tree = browser.command("Accessibility.getFullAXTree")["nodes"]
    names = [node["name"]["value"] for node in tree if not node.get("ignored")
             and node.get("role", {}).get("value") in ("listbox", "option") and node.get("name", {}).get("value")]
    missing = [name for name in ("Sources", "driver.c:20 1 of 8 8 events") if name not in
               [re.sub(r"\s+", " ", one) for one in names]]
    tally.check("sources, names for a screen reader", [f"no {name}: {names[-12:]}" for name in missing])


def hostile(tally: Tally, browser, room: Path) -> None:
    """Sources are texts alone, each in a row of its own, in which nothing is hidden or turned."""
    record = recorded.record("r 8\n" * len(HOSTILE))
    for line, source in zip(record["lines"], HOSTILE):
        line["source"] = source
    shown = opened(browser, room, recorded.written(record).replace(b"<", b"\\u003c"))
    faults = [] if shown["ran"] is None and shown["scripts"] == 2 and not shown["broken"] else [f"{shown}"]
    browser.run("for (const one of document.querySelectorAll('.source-line')) one.click();")
    short = {visible(source) for source in HOSTILE if len(source) <= 300}
    faults += [f"there is no {text!r}" for text in sorted(short - set(shown["titles"]))]
    faults += [] if len(shown["rows"]) == len(HOSTILE) else [f"{len(shown['rows'])} rows"]
    turned = [text for text, _, _ in shown["rows"] for mark in text if mark < " " or mark in "\x7f\u202e\u2066\u2069"]
    faults += [f"a mark in {text!r}" for text in turned]
    for source, number, column in ((LONG, "1547", "…0_main.c:1547"), (OTHER, "2345", "…_main.c:2345…")):
        seen = shown["columns"][HOSTILE.index(source)], next(text for text, _, _ in shown["rows"] if number in text)
        faults += [] if seen[0] == column and f"1000_main.c:{number}" in seen[1] else [f"a long one is {seen}"]
    tally.check("hostile sources", faults + [f"on the console: {one}" for one in browser.told()])


def check_sources(tally: Tally, browser, room: Path) -> None:
    record = run([program("em_record")], KEPT.encode()).stdout
    wanted = places(KEPT)
    shown = opened(browser, room, record)
    listed(tally, shown, wanted)
    by_mouse(tally, browser, wanted)
    by_keys(tally, browser, wanted)
    beside(tally, browser, room)
    looks(tally, browser, room, record)
    hostile(tally, browser, room)
