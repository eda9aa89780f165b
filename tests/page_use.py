"""A page by keyboard alone, with a screen reader's tree, at widths, in both schemes; and how long it takes."""
import contextlib
import io
from importlib.machinery import SourceFileLoader
from importlib.util import module_from_spec, spec_from_loader
from pathlib import Path

import recorded
from page_tools import TOP, page_of, ready, record_of
from page_names import text as names_text
from page_names import of_code, of_docs
from page_states import ASK, GO, LOOK, by_bench
from tally import Tally

MANY_ROUNDS, GUEST_ROUNDS, OPEN_SECONDS, TRIES = 2000, 600, 1.0, 20
# of a step: up to its layout, and with its painting
LAID_MILLISECONDS, PAINTED_MILLISECONDS = 16.0, 24.0
# of a long run: what objects of the page may take for an event, and so many lines em_bench reads at most
EVENTS_OF_A_ROUND, OBJECT_OCTETS, MOST_OF_BENCH, PLACES = 5, 600, 100_000, [0x1000, 0x2000]
LEAST_CONTRAST = 4.5
# in points, less what is lost where they are rounded
LEAST_TARGET = 23.5
AT = "const { step, event } = document.getElementById('run').dataset; return [Number(step), Number(event)]"
FOCUS = """
const one = document.activeElement, style = getComputedStyle(one);
const controls = one.hasAttribute('data-stops') ? [...one.querySelectorAll('button, summary, a[href]')].filter((control) =>
  control.offsetParent !== null && !control.disabled).length : 0;
return { tag: one.tagName, id: one.id, watch: one.dataset.watch ?? '', role: one.getAttribute('role') ?? '',
  outline: style.outlineStyle, controls };
"""
# texts that stand on a ground with too little contrast to it; a text's colour is mixed with what shows through it
CONTRAST = """
const canvas = document.createElement('canvas').getContext('2d', { willReadFrequently: true });
const rgba = (colour) => {
  canvas.clearRect(0, 0, 1, 1);
  canvas.fillStyle = colour;
  canvas.fillRect(0, 0, 1, 1);
  const [r, g, b, a] = canvas.getImageData(0, 0, 1, 1).data;
  return [r, g, b, a / 255];
};
const over = (top, ground, a) => top.slice(0, 3).map((part, i) => part * a + ground[i] * (1 - a));
const light = (rgb) => {
  const [r, g, b] = rgb.slice(0, 3).map((part) => (part /= 255) <= 0.03928 ? part / 12.92
      : ((part + 0.055) / 1.055) ** 2.4);
  return 0.2126 * r + 0.7152 * g + 0.0722 * b;
};
const ratio = (one, other) => (Math.max(light(one), light(other)) + 0.05) / (Math.min(light(one), light(other)) + 0.05);
const faults = [];
for (const element of document.querySelectorAll('body *')) {
  const own = [...element.childNodes].some((node) => node.nodeType === 3 && node.data.trim());
  if (!own || !element.getClientRects().length || element.closest('svg, option, script, style')) continue;
  let opacity = 1, ground = null;
  for (let one = element; one && !ground; one = one.parentElement) {
    const style = getComputedStyle(one), back = rgba(style.backgroundColor);
    if (back[3] === 1) ground = back;
    else opacity *= Number(style.opacity);
  }
  const text = over(rgba(getComputedStyle(element).color), ground ?? rgba('white'), opacity);
  const found = ratio(text, ground ?? rgba('white'));
  if (found < arguments[0]) faults.push(`${element.tagName}.${element.className} ${element.textContent.slice(0,
      20)}: ${found.toFixed(1)}`);
}
const style = getComputedStyle(document.documentElement), named = (name) => rgba(style.getPropertyValue(name).trim());
for (const [ink, ground] of [['--adapter-ink', '--adapter'], ['--driver-ink', '--driver'], ['--accent-ink', '--accent'],
  ['--bad', '--bad-shade'], ['--dim', '--panel'], ['--dim', '--page'], ['--ink', '--lit'],
  ...['read', 'write', 'poke', 'arrive', 'rx', 'tx', 'link', 'driver',
      'back'].map((kind) => ['--panel', `--kind-${kind}`])]) {
  const found = ratio(named(ink), named(ground));
  if (found < arguments[0]) faults.push(`${ink} on ${ground}: ${found.toFixed(1)}`);
}
return [...new Set(faults)].slice(0, 12);
"""
STEPS_TIMED = 40
# so many times Tab is pressed at most to go through the page of an example
MOST_STOPS = 45
# (the numbers of its last lines have six digits)
LONG_SCRIPT = b"#\n" * 99_980 + b"r 00008\n" * 60
# each in a frame of its own
STEPS_ON = """
return new Promise((done) => {
  let left = arguments[0];
  const on = () => {
    if (left-- === 0) done(true);
    else { document.getElementById('one-back').click(); requestAnimationFrame(on); }
  };
  requestAnimationFrame(on);
});
"""


def opened(browser, room: Path, example: str) -> None:
    page = room / "use.html"
    page.write_bytes(page_of(record_of((TOP / "examples" / example).read_bytes())))
    browser.open(page)


def names(tally: Tally) -> None:
    tally.check("page/names.js", [] if (TOP / "page" / "names.js").read_text() == names_text()
                else ["it is not what tests/page_names.py writes"])
    code = {name: [row[:3] for row in rows] for name, rows in of_code().items()}
    tally.check("docs/library.md", [] if code == of_docs() else ["crates/em_names has other bits than it"])


def keyboard(tally: Tally, browser, room: Path) -> None:
    opened(browser, room, "broken/ring.em")
    browser.run("document.body.focus()")
    for keys, step in ((["Home"], 0), (["ArrowRight"] * 3, 3), (["ArrowLeft"], 2), (["PageDown"], 12), (["PageUp"], 2),
                       (["End"], 15), (["ArrowRight"], 15)):
        browser.press(*keys)
        at = browser.run(AT)
        tally.check(f"the keys {' '.join(keys)}", [] if at[0] == step
            else [f"they lead to step {at[0]}, and not {step}"])
    browser.press("Home", "Space")
    after = browser.run(f"return new Promise((done) => setTimeout(() => done((() => {{ {AT} }})()), 900))")
    browser.press("Space")
    stopped = browser.run(AT)
    later = browser.run(f"return new Promise((done) => setTimeout(() => done((() => {{ {AT} }})()), 400))")
    tally.check("space plays and stops", [] if 0 < after[0] <= stopped[0] == later[0]
        else [f"{after} {stopped} {later}"])
    browser.press("End")
    by_tab(tally, browser)


def opens_a_call(tally: Tally, browser, room: Path) -> None:
    """A driver's call is opened: its accesses are told in words, and one leads to its step."""
    script = b"init\nturns . rx\nmac\n"
    page = room / "call.html"
    page.write_bytes(page_of(record_of(script)))
    browser.open(page)
    events = recorded.record(script.decode())["lines"][2]["events"]
    browser.press("End")
    browser.run("document.querySelector('#events summary').click()")
    listed = browser.run("return new Promise((done) => setTimeout(() => done([...document.querySelectorAll("
                         "'#events li')].map((one) => `${one.value} ${one.textContent}`)), 100))")
    wanted = [f"{at} {event['text']}" for at, event in enumerate(events, 1)]
    tally.check("a call is opened", [] if listed == wanted and len(wanted) == 3 else [f"{listed}, and not {wanted}"])
    browser.run("document.querySelectorAll('#events button')[0].click()")
    told = browser.run("return [document.getElementById('run').dataset.event, document.getElementById('was').textContent, "
                       "document.getElementById('present').querySelector('.what').textContent]")
    is_there = told[:2] == [str(events[0]["event"]), events[0]["text"]] and "1 of 3" in told[2]
    tally.check("an access is gone to", [] if is_there else [f"{told}"])
    browser.run("document.getElementById('to-start').click()")
    browser.run("document.getElementById('one-on').click()")
    listed = browser.run("return [...document.querySelectorAll('#events li')].length")
    tally.check("64 of a long call are listed", [] if listed == 64 else [f"{listed} are"])


def within(browser, group: dict, faults: list[str]) -> list[dict]:
    """The controls of a group, to which the arrow down leads one after another; none is left out, and each is seen."""
    found = []
    for _ in range(group["controls"]):
        browser.press("ArrowDown")
        found.append(browser.run(FOCUS))
        if found[-1]["outline"] == "none":
            faults.append(f"the focus can't be seen on {found[-1]}")
    where = browser.run("""
      const one = document.activeElement, group = one.closest('[data-stops]');
      return group ? [...group.querySelectorAll('button, summary, a[href]')].filter((control) => control.offsetParent !== null
        && !control.disabled).indexOf(one) : -1;""")
    if group["controls"] and where != group["controls"] - 1:
        faults.append(f"the arrow down leads to control {where} of {group}")
    return found


def asks_of_rdh(tally: Tally, browser, last: dict) -> None:
    """Enter on RDH asks about it, and Esc leads back."""
    browser.run("document.querySelector('[data-register=RDH] button').focus()")
    browser.press("Enter")
    told = browser.run("return document.getElementById('who').dataset.event")
    tally.check("Enter on RDH", [] if told == "14" else [f"it tells event {told}, and not 14"])
    browser.press("Escape")
    at = browser.run(AT)
    tally.check("Escape", [] if at[0] == 15 else [f"it leads to step {at[0]}, and not 15"])
    last["asked"] = True


def by_tab(tally: Tally, browser) -> None:
    """Every control is reached by Tab and by the arrows within a group, and can be seen to be; a register, an octet and a
    line are asked about by keys."""
    browser.run("document.activeElement.blur(); window.scrollTo(0, 0)")
    seen, faults, stops = [], [], 0
    for _ in range(120):
        browser.press("Tab")
        focus = browser.run(FOCUS)
        if focus["tag"] == "BODY":
            break
        stops += 1
        seen += [focus, *within(browser, focus, faults)]
        if focus["outline"] == "none":
            faults.append(f"the focus can't be seen on {focus}")
        if any(one["watch"] == "register RDH" for one in seen) and not any(one.get("asked") for one in seen):
            asks_of_rdh(tally, browser, seen[-1])
        if focus["role"] == "listbox":
            browser.press("ArrowUp")
            line = browser.run("return document.querySelector('[role=option][aria-selected=true]').dataset.line")
            tally.check("an arrow in the script", [] if line == "18" else [f"it leads to line {line}, and not 18"])
            browser.press("ArrowDown")
        if focus["role"] == "gridcell":
            browser.press("ArrowDown", "ArrowRight")
            moved = browser.run(FOCUS)["watch"]
            from_, to = (int(word.split()[1]) for word in (focus["watch"], moved))
            tally.check("arrows among octets", [] if to == from_ + 17 else [f"they lead from {from_} to {to}"])
    tally.check("the focus is seen", sorted(set(faults)))
    tally.check("stops of Tab", [] if stops < MOST_STOPS else [f"there are {stops}"])
    ids = {one["id"] for one in seen} | {one["role"] for one in seen} | {one["watch"] for one in seen}
    wanted = {"slider", "play", "to-start", "speed", "script", "address", "zeros", "gridcell", "register RCTL", "link",
              "interrupt", "bits RCTL 2"}
    tally.check("Tab reaches all", [f"{name} is not reached" for name in sorted(wanted - ids)])


def labels(tally: Tally, browser, room: Path) -> None:
    for example in ("driver.em", "broken/ring.em"):
        opened(browser, room, example)
        tree = browser.command("Accessibility.getFullAXTree")["nodes"]
        roles = {"button", "slider", "checkbox", "textbox", "combobox", "listbox", "option", "gridcell", "grid", "img",
            "group"}
        unnamed = [node["role"]["value"] for node in tree if not node.get("ignored")
                   and node.get("role", {}).get("value") in roles and not node.get("name", {}).get("value")
                   and node["role"]["value"] != "group"]
        tally.check(f"{example}, names for a screen reader", [f"{len(unnamed)} without: {unnamed[:5]}"] if unnamed
            else [])
        ids = browser.run("return [...document.querySelectorAll('[id]')].map((one) => one.id)")
        tally.check(f"{example}, ids", sorted({f"{one} stands twice" for one in ids if ids.count(one) > 1}))


def widths(tally: Tally, browser, room: Path) -> None:
    for example in ("driver.em", "broken-ring.em", "broken/ring.em"):
        opened(browser, room, example)
        for width in (1280, 1000, 700, 400, 360):
            browser.size(width, 900)
            wide = browser.run("""
              document.getElementById('zeros').click();
              for (const one of document.querySelectorAll('details')) one.open = true;
              return new Promise((done) => requestAnimationFrame(() => setTimeout(() => done(
                [0.2, 0.5, 1].map((part) => {
                  const slider = document.getElementById('slider');
                  slider.value = String(Math.floor(part * Number(slider.max)));
                  slider.dispatchEvent(new Event('input'));
                  return document.documentElement.scrollWidth;
                })))));""")
            tally.check(f"{example}, {width} points wide", [] if max(wide) <= width else [f"it takes {max(wide)}"])
    browser.size(1280, 900)


def phone(tally: Tally, browser, room: Path) -> None:
    """On a phone whatever is chosen has 24 points each way."""
    browser.size(400, 900)
    for example in ("driver.em", "broken-ring.em", "broken/ring.em", "transmit.em"):
        opened(browser, room, example)
        for part in (0.5, 1):
            small = browser.run("""
              const slider = document.getElementById('slider');
              slider.value = String(Math.floor(arguments[0] * Number(slider.max)));
              slider.dispatchEvent(new Event('input'));
              for (const one of document.querySelectorAll('details')) one.open = true;
              return new Promise((done) => setTimeout(() => done([...document.querySelectorAll(
                'button, summary, a[href], input, select, [role=gridcell], [role=option]')].filter((one) => one.offsetParent)
                .map((one) => [`${one.tagName} ${one.id} ${one.className} ${one.textContent.slice(0, 20)}`,
                  one.getBoundingClientRect().width, one.getBoundingClientRect().height])
                .filter(([, wide, tall]) => wide < arguments[1] || tall < arguments[1])), 100))""", part, LEAST_TARGET)
            tally.check(f"{example}, a finger at {part}",
                [f"{name}: {wide:.0f} by {tall:.0f}" for name, wide, tall in small[:4]])
    browser.size(1280, 900)


def paper(tally: Tally, browser, room: Path) -> None:
    """Printed from somewhere in a long run, the script shows the present line, and its lines in their order; the number of
    a line stands beside its text."""
    page = room / "paper.html"
    page.write_bytes(page_of(record_of(LONG_SCRIPT)))
    browser.open(page)
    for part in (0.5, 0.2, 0.7):
        browser.run("""
          const slider = document.getElementById('slider');
          slider.value = String(Math.floor(arguments[0] * Number(slider.max)));
          slider.dispatchEvent(new Event('input'));
          return new Promise((done) => requestAnimationFrame(() => setTimeout(() => done(true), 50)));""", part)
        beside = browser.run("""
          return [...document.querySelectorAll('#script .script-line')].filter((line) =>
            line.querySelector('.number').scrollWidth > line.querySelector('.number').clientWidth
            || line.querySelector('.number').getBoundingClientRect().right
              > line.querySelector('.text').getBoundingClientRect().left).map((line) => line.dataset.line)""")
        tally.check(f"line numbers at {part}", [f"that of line {line} touches its text" for line in beside[:3]])
        browser.command("Emulation.setEmulatedMedia", media="print")
        shown = browser.run("""
          const box = document.getElementById('script').getBoundingClientRect();
          document.getElementById('script').scrollTop = 0;
          return { present: document.getElementById('run').dataset.line, lines:
            [...document.querySelectorAll('#script .script-line')].map((line) => [line.getBoundingClientRect().top,
              Number(line.dataset.line), line.getAttribute('aria-selected') === 'true'])
              .filter(([top]) => top >= box.top && top < box.bottom).sort((a, b) => a[0] - b[0]) };""")
        browser.command("Emulation.setEmulatedMedia", media="")
        numbers = [number for _, number, _ in shown["lines"]]
        faults = [] if numbers == sorted(numbers) and len({top for top, _, _ in shown["lines"]}) == len(numbers) else [
            f"the lines stand so: {shown['lines'][:9]}"]
        lit = [number for _, number, selected in shown["lines"] if selected]
        faults += [] if lit == [int(shown["present"])] else [f"{lit} is lit, and not line {shown['present']}: {numbers}"]
        tally.check(f"on paper at {part}", faults)


def schemes(tally: Tally, browser, room: Path) -> None:
    for dark in (False, True):
        browser.scheme(dark)
        for example in ("driver.em", "broken/ring.em", "why-dropped.em"):
            opened(browser, room, example)
            browser.press("ArrowLeft")
            name = f"{example}, {'dark' if dark else 'light'}"
            tally.check(f"{name}, contrast", browser.run(CONTRAST, LEAST_CONTRAST))
            light = browser.run("""
              return Number(getComputedStyle(document.documentElement).backgroundColor.match(/\\d+/)[0]) > 127""")
            tally.check(name, [] if light != dark else ["the page has the other scheme"])
    browser.scheme(False)


def many_events(rounds: int) -> str:
    """A ring that goes round, five events for each frame."""
    ring = [f"poke {0x1000 + 16 * i:X} {(0x2000 + 0x800 * i).to_bytes(16, 'little').hex()}" for i in range(8)]
    lines = ["w 02800 1000", "w 02808 80", "w 00100 8002", "w 000D0 80", "link up", *ring, "w 02818 7"]
    for i in range(rounds):
        lines += [f"arrive FFFFFFFFFFFF02AABBCCDDEE0800{i % 65536:04X} {60 + i % 1400}", "rx", "r C0", ring[i % 8],
            f"w 02818 {i % 8:X}"]
    return "".join(f"{line}\n" for line in lines)


def spent(browser, *names: str) -> float:
    """How many seconds of a processor the page's own thread spent on these since it was opened."""
    told = {one["name"]: one["value"] for one in browser.command("Performance.getMetrics")["metrics"]}
    return sum(told[name] for name in names)


def timing(tally: Tally, browser, room: Path) -> None:
    """10,000 events open within a second, and a step takes at most 16 ms to its layout and 24 with its painting: times of the
    page's own thread, since others run too, and the best of some tries."""
    page = room / "many.html"
    page.write_bytes(page_of(record_of(many_events(MANY_ROUNDS).encode())))
    browser.command("Performance.enable", timeDomain="threadTicks")
    opening, steps = [], []
    for _ in range(TRIES):
        browser.open(page)
        opening.append(spent(browser, "TaskDuration"))
        steps.append(step_times(browser))
        if min(opening) <= OPEN_SECONDS and is_quick(steps):
            break
    tally.check("10,000 events open", [] if min(opening) <= OPEN_SECONDS else [f"it takes {min(opening):.2f} s"])
    print(f"10,000 events open in {min(opening):.2f} s")
    steps_are_quick(tally, "10,000 events", steps)
    page.write_bytes(page_of(record_of(guest_run(GUEST_ROUNDS).encode())))
    browser.open(page)
    steps = []
    while len(steps) < TRIES and not (steps and is_quick(steps)):
        steps.append(step_times(browser))
    steps_are_quick(tally, "a guest's run", steps)


def guest_run(rounds: int) -> str:
    """The run of examples/guest/long.py, with fewer rounds, and in the memory that a machine has without more words."""
    loader = SourceFileLoader("long", str(TOP / "examples" / "guest" / "long.py"))
    guest = module_from_spec(spec_from_loader("long", loader))
    loader.exec_module(guest)
    guest.ROUNDS, guest.FAULT = rounds, rounds // 2
    guest.RING, guest.SENT_RING, guest.BUFFERS, guest.SENT = 0x1000, 0x2000, 0x4000, 0x9000
    with contextlib.redirect_stdout(io.StringIO()) as told:
        guest.main()
    return told.getvalue()


def step_times(browser) -> tuple[float, float]:
    """How many milliseconds of the page's own thread a step takes up to its layout, and with its painting."""
    work = ("ScriptDuration", "RecalcStyleDuration", "LayoutDuration")
    before, all_before = spent(browser, *work), spent(browser, "TaskDuration")
    browser.run(STEPS_ON, STEPS_TIMED)
    laid, painted = spent(browser, *work) - before, spent(browser, "TaskDuration") - all_before
    return 1000 * laid / STEPS_TIMED, 1000 * painted / STEPS_TIMED


def is_quick(steps: list[tuple[float, float]]) -> bool:
    """Whether the best of some tries keep both bounds."""
    laid, painted = map(min, zip(*steps))
    return laid <= LAID_MILLISECONDS and painted <= PAINTED_MILLISECONDS


def steps_are_quick(tally: Tally, name: str, steps: list[tuple[float, float]]) -> None:
    laid, painted = map(min, zip(*steps))
    told = f"of {name} a step takes {laid:.1f} ms up to its layout, {painted:.1f} with its painting"
    tally.check("a step is painted", [] if is_quick(steps) else [told])
    print(told)


def long_run(tally: Tally, browser, room: Path, events: int) -> None:
    """A run of so many events opens; near and far steps of it show what em_bench shows there, of those whose lines it
    takes; and who changed what is found over the whole of it."""
    script = many_events(events // EVENTS_OF_A_ROUND)
    lines, page = script.splitlines(), room / "long.html"
    page.write_bytes(page_of(record_of(script.encode())))
    browser.command("Performance.enable", timeDomain="threadTicks")
    browser.open(page)
    ready(browser)
    opened = spent(browser, "TaskDuration")
    browser.command("HeapProfiler.collectGarbage")
    heap = spent(browser, "JSHeapUsedSize")
    print(f"{len(lines):,} events: a page of {page.stat().st_size / 1e6:.0f} MB is read in {opened:.1f} s, and its "
          f"objects take {heap / 1e6:.0f} MB")
    each = heap / len(lines)
    tally.check("a long run takes no more memory", [] if each <= OBJECT_OCTETS else [f"{each:.0f} octets an event"])
    tally.check("a long run opens", [] if browser.run(AT) == [len(lines)] * 2 else [f"it is at {browser.run(AT)}"])
    # (each line performs an event)
    most = min(len(lines), MOST_OF_BENCH)
    for step in (0, 1, most // 7, most // 7 + 1, most, most // 2, most // 2 - 300, 300):
        bench, shown = by_bench(lines, step, 0, PLACES), browser.run(LOOK, step, PLACES)
        there = {name: value for name, value in shown["registers"].items() if int(value, 16)}
        is_so = [shown["event"], shown["line"], shown["interrupt"]] == [str(step), str(step), bench["interrupt"]]
        is_so = is_so and there == {name: value for name, value in bench["registers"].items() if int(value, 16)}
        is_so = is_so and [octets for _, octets in shown["octets"]] == bench["octets"]
        tally.check(f"a long run, step {step}", [] if is_so else [f"it shows {shown}, and not {bench}"])
    for watch, line in (("register RDT", len(lines)), ("bits RCTL 2", 3), ("link", 5), ("register CTRL", None)):
        browser.run(GO, len(lines))
        asked = browser.run(ASK, watch)
        wanted = "none" if line is None else str(line)
        tally.check(f"a long run, {watch}", [] if asked and asked["event"] == wanted else [f"it says {asked}"])
    tally.check("a long run, the console", browser.told())


def check_use(tally: Tally, browser, room: Path) -> None:
    for part in (keyboard, opens_a_call, labels, widths, phone, paper, schemes):
        part(tally, browser, room)
    tally.check("the console", browser.told())
