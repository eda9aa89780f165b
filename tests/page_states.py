"""What a page shows at a step, and whom it names as having changed something, against other programs and the second
reading."""
import random
import re

import second_reading
from page_names import registers
from page_tools import BUDGET, EXAMPLES, page_of, program, record_of, scripts_at_random, steps_of
from recorded import Event, interrupts, walk
from second_notes import spoken
from tally import Tally, run

STEPS, QUESTIONS, RINGS = 50, 14, 8
LARGER = {"acknowledged-first.em", "broken-ring.em", "driver.em", "reset.em", "ring.em", "tail-too-early.em",
    "transmit.em",
          "why-dropped.em"}
SHOWN_OCTETS = 256
NAMES = dict(registers())
OFFSETS = {name: offset for offset, name in NAMES.items()}

GO = "const s = document.getElementById('slider'); s.value = arguments[0]; s.dispatchEvent(new Event('input'));"
# what the page shows: its state, and the octets about some addresses
LOOK = GO + """
const all = (part, name) => [...document.querySelectorAll(part)].map((one) => one.dataset[name]);
const registers = {};
for (const row of document.querySelectorAll('[data-register]')) registers[row.dataset.register] = row.dataset.value;
const ring = (side) => [...document.querySelectorAll(`#${side} [data-descriptor]`)].map((row) =>
  [row.dataset.descriptor, row.dataset.owner, row.dataset.trouble].join(' '));
const box = document.getElementById('address'), form = document.getElementById('memory-form');
const octets = arguments[1].map((address) => {
  box.value = address.toString(16);
  form.requestSubmit();
  const grid = document.getElementById('octets');
  const cells = [...grid.querySelectorAll('[role=gridcell]')].map((cell) => cell.textContent).join('');
  return [Number(grid.dataset.address), cells];
});
const { event, line, link, interrupt, frames, sent } = document.getElementById('run').dataset;
const was = document.getElementById('was')?.textContent ?? '';
return { event, line, link, interrupt, frames, sent, was, registers, octets, rx: ring('rx'), tx: ring('tx'),
  fifo: all('#fifo [data-octets]', 'octets'), gathered: document.getElementById('gathered').dataset.octets, wire: all('#wire [data-octets]', 'octets') };
"""
ASK = """
const button = document.querySelector(`[data-watch="${arguments[0]}"]`);
if (!button) return null;
button.click();
const { event, line, before, after, asked } = document.getElementById('who').dataset;
const was = document.querySelector('#who code')?.textContent ?? '';
return { event, line, before, after, was, watch: asked, at: document.getElementById('run').dataset.event };
"""
MOST_FRAMES = 8


def by_bench(script: list[str], line: int, later: int, places: list[int]) -> dict:
    """The state that em_bench shows behind a line, with so many of its events taken back."""
    looks = (["back"] if later == 1 else [f"back {later}"] if later else []) + ["!"]
    looks += [f"peek {place:X} {SHOWN_OCTETS}" for place in places] + ["line", "regs", "wire"]
    ran = run([program("em_bench"), "--budget", BUDGET], "".join(f"{one}\n" for one in script[:line]
        + looks).encode("latin-1"))
    said = ran.stdout.decode().splitlines()
    mark = f"bad line {line + len(looks) - len(places) - 3}"
    said = said[len(said) - said[::-1].index(mark) :]
    octets, interrupt, said = said[: len(places)], said[len(places)], said[len(places) + 1 :]
    wire = next(at for at, text in enumerate(said) if text.startswith("wire "))
    values = {NAMES[int(text.split()[0], 16)]: text.split()[1] for text in said[:wire]}
    return {"octets": octets, "interrupt": interrupt, "registers": values, "sent": said[wire].split()[1],
            "wire": said[wire + 1 :][::-1][:MOST_FRAMES]}


def places_of(r: random.Random, event: Event) -> list[int]:
    """Where to look into memory: at a ring, where the event wrote, anywhere; whole lines of 16 octets."""
    state = event.state
    size = state.size()
    base = state.at(r.choice([0x2800, 0x3800])) % size
    places = [base, r.randrange(size)]
    if event.before:
        pages = [at for at, (one, other) in enumerate(zip(event.before.state.pages, state.pages)) if one is not other]
        if pages:
            one, other = (s.pages[pages[0]] for s in (event.before.state, state))
            places.append(second_reading.PAGE * pages[0] + next((at for at in range(len(one)) if one[at] != other[at]),
                0))
    return [min(place & ~15, size - SHOWN_OCTETS) for place in places]


def differences(page: dict, step, bench: dict, places: list[int]) -> list[str]:
    state = step.event.state
    wanted = {"event": str(step.event.number), "line": str(step.line), "link": "up" if state.link else "down",
              "interrupt": bench["interrupt"], "frames": str(len(state.fifo)), "sent": bench["sent"],
              "was": spoken(step.event.was) if step.performs else ""}
    faults = [f"{name} is {page[name]}, and not {value}" for name, value in wanted.items() if page[name] != value]
    for name in OFFSETS:
        value = bench["registers"].get(name, "00000000")
        if page["registers"].get(name) != value:
            faults.append(f"{name} is {page['registers'].get(name)}, and not {value}")
    for place, octets, (at, shown) in zip(places, bench["octets"], page["octets"]):
        if (place, octets) != (at, shown):
            faults.append(f"the octets at {place:X} are {shown} at {at:X}, and not {octets}")
    if page["gathered"] != state.gathered.hex().upper():
        faults.append(f"gathered is {page['gathered']}, and not {state.gathered.hex().upper()}")
    if page["wire"] != bench["wire"]:
        faults.append("the wire has other frames")
    fifo = [octets.hex().upper() for octets, _ in state.fifo][:MOST_FRAMES]
    # (a tag that was taken out stands in the page, as the frame came)
    shown = [digits if tag is None else digits[:24] + digits[32:] for digits, (_, tag) in zip(page["fifo"], state.fifo)]
    # the octets of frames that came in a driver's call are not in a record
    if len(page["fifo"]) == len(fifo) and shown != fifo:
        faults.append("the FIFO has other frames")
    return faults


def states(tally: Tally, browser, name: str, script: str, steps: list, r: random.Random) -> None:
    lines = script.split("\n")
    for index in [0, len(steps) - 1, *(r.randrange(len(steps)) for _ in range(STEPS - 2))]:
        step = steps[index]
        places = places_of(r, step.event)
        bench = by_bench(lines, step.line, step.later, places)
        page = browser.run(LOOK, index, places)
        tally.check(f"{name}, step {index}", differences(page, step, bench, places))


def standing(steps: list) -> dict[int, int]:
    """By the number of an event that stands at the end, the step that performed it."""
    by_event = {step.event: index for index, step in enumerate(steps) if step.performs}
    found, event = {}, steps[-1].event
    while event.before:
        found[event.number] = by_event[event]
        event = event.before
    return found


def by_debugger(script: str, commands: list[str], room) -> list[str]:
    (room / "script.em").write_text(script, "latin-1")
    (room / "commands").write_text("".join(f"{one}\n" for one in commands))
    ran = run([program("em_debug"), "--budget", BUDGET, "-x", room / "commands", room / "script.em"])
    return ran.stdout.decode(errors="replace").splitlines()


def descriptors_told(lines: list[str]) -> list[str]:
    """Of a ring's text: index, owner and trouble of each descriptor."""
    found = []
    for line in lines:
        row = re.match(r"[> ][< ] *(\d+)  at [0-9A-F]+(?:  buffer [0-9A-F]+  length +\d+ )?", line)
        if row:
            owner = re.search(r" (adapter|driver)( |$)", line)
            trouble = re.search(r"  (its? .*)$", line)
            found.append(f"{row[1]} {owner[1] if owner else 'driver'} {trouble[1] if trouble else ''}")
    return found


def rings_told(script: str, numbers: list[int], room) -> dict[tuple[int, str], list[str]]:
    """By event and side, what em_debug tells of a ring's descriptors."""
    commands = [f"{word} {one}" for number in numbers for word,
        one in (("goto", number), ("ring", "rx"), ("ring", "tx"))]
    told, key = {}, None
    for line in by_debugger(script, commands, room):
        at = re.match(r"at .*event (\d+)$", line)
        ring = re.match(r"(rx|tx) ring at", line)
        if at:
            number = int(at[1])
        elif ring:
            key = number, ring[1]
            told[key] = []
        elif key:
            told[key].append(line)
    return {key: descriptors_told(lines) for key, lines in told.items()}


def rings(tally: Tally, browser, name: str, script: str, steps: list, r: random.Random, room) -> None:
    """Each descriptor's owner, and what is wrong with it, as em_debug says at events that stand at the end."""
    at_event = standing(steps)
    numbers = r.sample(sorted(at_event), min(RINGS, len(at_event)))
    told = rings_told(script, numbers, room)
    for number in numbers:
        page = browser.run(LOOK, at_event[number], [])
        for side in ("rx", "tx"):
            shown = told[number, side]
            # em_debug does not ask about the other ring
            there = [re.sub(r"its buffer lies over the (receive|transmit) ring$", "", text) for text in page[side]]
            faults = [] if shown == there else [f"{set(there) ^ set(shown)} is not told alike"]
            tally.check(f"{name}, event {number}, ring {side}", faults)


def other_ring(tally: Tally, browser, room) -> None:
    """Buffers over the ring of the other side: receive descriptor 0, at 1000h, names 2000h, and the other way round."""
    lines = ["w 02800 1000", "w 02808 80", "w 03800 2000", "w 03808 80", "poke 1000 0020000000000000",
             "poke 2000 00100000000000003C0000090000", "w 02818 1", "w 03818 1"]
    (room / "other.html").write_bytes(page_of(record_of("".join(f"{line}\n" for line in lines).encode())))
    browser.open(room / "other.html")
    page = browser.run(LOOK, len(lines), [])
    for side, words in (("rx", "transmit"), ("tx", "receive")):
        wanted = f"0 adapter its buffer lies over the {words} ring"
        tally.check(f"{side} over the other ring", [] if page[side][0] == wanted else [f"it says {page[side][0]}"])


def sight(state, watch: str) -> str:
    """What is seen of a watched thing, as the page writes it."""
    kind, *rest = watch.split()
    if kind == "register":
        return f"{state.look(OFFSETS[rest[0]]):08X}"
    if kind == "bits":
        mask = int(rest[1])
        return str((state.look(OFFSETS[rest[0]]) & mask) // (mask & -mask))
    if kind == "octets":
        return state.octets(int(rest[0]), int(rest[1])).hex().upper()
    return {"link": "up" if state.link else "down", "interrupt": str(int(interrupts(state))),
            "frames": str(len(state.fifo)), "sent": str(len(state.wire))}[kind]


def newest_change(event: Event, watch: str) -> Event | None:
    while event.before and sight(event.state, watch) == sight(event.before.state, watch):
        event = event.before
    return event if event.before else None


def who_faults(asked: dict | None, watch: str, wanted: Event | None) -> list[str]:
    if asked is None:
        return [f"{watch}: nothing asks about it"]
    told = [asked.get(name) for name in ("watch", "event", "line", "before", "after")]
    if wanted is None:
        should = [watch, "none", None, None, None]
    else:
        should = [watch, str(wanted.number), str(wanted.line), sight(wanted.before.state, watch),
            sight(wanted.state, watch)]
    faults = [] if told == should else [f"{watch}: told {told}, and not {should}"]
    if wanted and asked["was"] != spoken(wanted.was):
        faults.append(f"{watch}: it says {asked['was']}, and not {spoken(wanted.was)}")
    if wanted and asked["at"] != str(wanted.number):
        faults.append(f"{watch}: the page is at event {asked['at']}, and not {wanted.number}")
    return faults


def who(tally: Tally, browser, name: str, steps: list, r: random.Random) -> None:
    """Whom the page names, once and again, by copies of each state."""
    for _ in range(QUESTIONS):
        index = r.randrange(len(steps))
        browser.run(GO, index)
        there = browser.run("return [...document.querySelectorAll('[data-watch]')].map((one) => one.dataset.watch)")
        kinds = {}
        for watch in there:
            kinds.setdefault(watch.split()[0], []).append(watch)
        watch = r.choice(kinds[r.choice(sorted(kinds))])
        wanted = newest_change(steps[index].event, watch)
        faults = who_faults(browser.run(ASK, watch), watch, wanted)
        for _ in range(2):
            if wanted is None:
                break
            wanted = newest_change(wanted.before, watch)
            again = browser.run(ASK, watch)
            # a descriptor's field may be shown no more where the ring was not set up yet
            faults += [] if again is None and watch.startswith("octets") else who_faults(again, watch, wanted)
            if again is None:
                break
        tally.check(f"{name}, step {index}, who", faults)


def who_of_debugger(tally: Tally, browser, name: str, script: str, steps: list, r: random.Random, room) -> None:
    """The same by em_debug's `who`, of registers, octets, the line and the link."""
    at_event = standing(steps)
    for number in r.sample(sorted(at_event), min(4, len(at_event))):
        octet = r.choice([0x100C, 0x1010, 0x105C, 0x2000, 0x8])
        watch, words = r.choice([(f"register {reg}", reg) for reg in ("RDH", "RDT", "ICR", "RCTL", "GPRC")]
                                + [("interrupt", "line"), ("link", "link"), (f"octets {octet} 1", f"{octet:X} 1")])
        browser.run(LOOK, at_event[number], [octet & ~15])
        told = by_debugger(script, [f"goto {number}", f"who {words}", "who again"], room)
        named = re.findall(r"line (\d+), event (\d+)(?: \(\d+ of \d+\))?:", "\n".join(told[2:]))
        asked = [browser.run(ASK, watch) for _ in range(2 if named else 1)]
        shown = [(one["line"], one["event"]) for one in asked if one and one["event"] != "none"]
        tally.check(f"{name}, event {number}, who {words}",
                    [] if shown == named else [f"the page names {shown}, and em_debug {named}"])


def scripts_of() -> list[tuple[str, str]]:
    """The larger examples, and two made at random."""
    examples = [path for path in EXAMPLES if path.name in LARGER]
    return [(path.name, path.read_bytes().decode("latin-1")) for path in examples] + scripts_at_random(82540)


def check_states(tally: Tally, browser, room, scripts: list[tuple[str, str]]) -> None:
    other_ring(tally, browser, room)
    for name, script in scripts:
        r = random.Random(name)
        page = room / "states.html"
        page.write_bytes(page_of(record_of(script.encode("latin-1"))))
        steps = steps_of(*walk(script, budget=BUDGET))
        browser.open(page)
        states(tally, browser, name, script, steps, r)
        who(tally, browser, name, steps, r)
        if name.endswith(".em"):
            rings(tally, browser, name, script, steps, r, room)
            who_of_debugger(tally, browser, name, script, steps, r, room)
        tally.check(f"{name}, console", browser.told())
