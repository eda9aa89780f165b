"""Links: each place and each question of a page has one that leads to it, the browser's back and forward go through them,
and a link that leads nowhere says so."""
from pathlib import Path

from page_states import ASK, GO
from page_tools import TOP, page_of, record_of
from tally import Tally

PLACE = """
const { step, line, event } = document.getElementById('run').dataset;
const { asked, before, after, event: told } = document.getElementById('who').dataset;
const lit = document.querySelector('#script [aria-selected=true]')?.dataset.line ?? '';
return [step, event, lit, asked ?? '', told ?? '', before ?? '', after ?? ''];
"""
LINK = "return document.getElementById('here').getAttribute('href')"
BAD = "const bad = document.getElementById('bad-link'); return bad.hidden ? '' : bad.textContent"
# the address bar follows a moment behind a step
RESTED = "return new Promise((done) => setTimeout(() => done(location.hash), 400))"
# gone through the browser's history: where that led, as soon as the page has followed. The browser leads there in its own time
WENT = """
const before = location.hash;
history.go(arguments[0]);
return new Promise((done) => {
  let left = 200;
  const ask = () => (location.hash === before && left-- ? setTimeout(ask, 50) : setTimeout(() => done(location.hash), 400));
  ask();
});
"""
# the same of a link that is typed
FOLLOWED = f"const place = () => {{ {PLACE} }};" + """
if (location.hash === arguments[0]) return place();
return new Promise((done) => {
  addEventListener('hashchange', () => setTimeout(() => done(place()), 0), { once: true });
  location.hash = arguments[0];
});
"""
WATCHES = ["register RDT", "register STATUS", "bits RCTL 2", "octets 4128 8", "link", "interrupt", "frames", "sent"]
# what a link says, and what the page says of it
BAD_LINKS = [
    ("event=16", "“event=16” is no event of this run"), ("event=-1", "“event=-1” is no event"),
    ("event", "“event” is no event"),
    ("event=1.5", "is no event"), ("event=99999999999999999999", "is no event"), ("step=16", "“step=16” is no step"),
    ("line=0", "“line=0” is no line"), ("line=20", "“line=20” is no line"),
    ("who=NONE", "“who=NONE” is nothing that can be asked"),
    ("who=RCTL.NONE", "is nothing that can be asked"), ("who=10000+1", "is nothing that can be asked"),
    ("who=FFFF+2", "is nothing that can be asked"), ("who=__proto__", "is nothing that can be asked"),
    ("who=RCTL.EN.EN", "is nothing"),
    ("event=3&step=4", "“step=4” stands beside another one"),
    ("registers-title", "“registers-title” says nothing here"),
    ("__proto__=1", "says nothing here"), ("who=%zz", "“who=%zz” says nothing here"),
    ("%E0%A4%A=3", "says nothing here"),
    ("<img src=x onerror=window.ran=1>", "says nothing here"),
    ("who=%3Cscript%3Ewindow.ran=1%3C/script%3E", "is nothing"),
    ("x=%E2%80%AEabc", "“x=⟨U+202E⟩abc” says nothing here"),
]


def page_at(room: Path, example: str) -> Path:
    page = room / "links.html"
    page.write_bytes(page_of(record_of((TOP / "examples" / example).read_bytes())))
    return page


def opened_at(browser, page: Path, link: str) -> None:
    """Opens the page anew by a link."""
    browser.open("/proc/version")
    browser.open(f"{page}{link}")


def places(tally: Tally, browser, room: Path) -> None:
    """Each step has a link of its own, and each line; it leads there, in the open page as in one that is opened by it."""
    for example in ("broken-ring.em", "broken/ring.em"):
        page = page_at(room, example)
        browser.open(page)
        steps = int(browser.run("return document.getElementById('slider').max"))
        links = {}
        for step in range(steps + 1):
            browser.run(GO, step)
            links[step] = browser.run(LINK), browser.run(PLACE)
        tally.check(f"{example}, links", [] if len({link for link, _ in links.values()}) == steps + 1
            else ["two are the same"])
        faults = []
        for link, place in links.values():
            faults += [] if browser.run(FOLLOWED, link) == place else [f"{link} leads elsewhere"]
        for link, place in list(links.values())[::7]:
            opened_at(browser, page, link)
            faults += [] if browser.run(PLACE) == place else [f"opened by {link}, the page is elsewhere"]
        tally.check(f"{example}, links lead back", faults)
    browser.run("document.querySelector('#script [data-line=\"2\"]').click()")
    link = browser.run(LINK)
    tally.check("a comment's link", [] if link == "#line=2" else [f"it is {link}"])


def questions(tally: Tally, browser, room: Path) -> None:
    """Each question that was answered has a link; by it the page tells the same."""
    page = page_at(room, "broken/ring.em")
    for watch, words in zip(WATCHES, ["RDT", "STATUS", "RCTL.EN", "001020+8", "link", "line", "frames", "sent"]):
        opened_at(browser, page, "")
        asked = browser.run(ASK, watch)
        link, place = browser.run(LINK), browser.run(PLACE)
        faults = [] if asked and link.endswith(f"&who={words}") else [f"its link is {link}"]
        opened_at(browser, page, link)
        tally.check(f"the link of {watch}",
            faults + ([] if browser.run(PLACE) == place else [f"{browser.run(PLACE)} is told"]))
    opened_at(browser, page, "#event=15&who=1020+8")
    told = browser.run(PLACE)
    tally.check("a question from a later event", [] if told[1] == "14" and told[4] == "14" else [f"{told}"])


def history(tally: Tally, browser, room: Path) -> None:
    """The address bar follows; back and forward lead through jumps and questions, and not through single steps."""
    page = page_at(room, "broken/ring.em")
    opened_at(browser, page, "")
    browser.press("ArrowLeft", "ArrowLeft")
    at = browser.run(RESTED)
    tally.check("the address bar", [] if at == "#event=13" else [f"it has {at}"])
    for watch in ("octets 4128 8", "register RDT"):
        browser.run(ASK, watch)
        browser.run(RESTED)
    browser.press("Home")
    browser.run(RESTED)
    seen = []
    for way in ("back", "back", "back", "forward", "forward", "forward"):
        seen.append(browser.run(WENT, -1 if way == "back" else 1))
        place = browser.run(PLACE)
        if seen[-1].startswith("#event") and place[1] != seen[-1].partition("=")[2].partition("&")[0]:
            tally.check(f"{way} to {seen[-1]}", [f"the page is at {place}"])
    first = browser.run(WENT, -3)
    is_so = seen[3:] == [seen[1], seen[0], "#step=0"] and first == seen[2] == "#event=13" and len(set(seen[:3])) == 3
    is_so = is_so and "who=RDT" in seen[0] and "who=001020+8" in seen[1]
    tally.check("back and forward", [] if is_so else [f"they lead to {seen}, {first}"])


def bad_links(tally: Tally, browser, room: Path) -> None:
    """A link that leads nowhere says so in words, and the page is shown; what is good of it holds."""
    page = page_at(room, "broken/ring.em")
    for link, words in BAD_LINKS:
        opened_at(browser, page, f"#{link}")
        told, place = browser.run(BAD), browser.run(PLACE)
        is_there = place[0] == ("3" if link.startswith("event=3&")
            else "15") and browser.run("return window.ran ?? null") is None
        tally.check(f"the link {link}", [] if words in told and is_there else [f"it says {told!r}, at {place}"])
    opened_at(browser, page, "#event=14&who=NONE")
    place = browser.run(PLACE)
    tally.check("a link half good", [] if place[1] == "14" and place[3] == "" else [f"it leads to {place}"])
    browser.run("location.hash = '#event=3'")
    told = browser.run("return new Promise((done) => setTimeout(() => done((() => {" + BAD + "})()), 50))")
    tally.check("a good link behind a bad one", [] if told == "" else [f"it says {told}"])


def check_links(tally: Tally, browser, room: Path) -> None:
    for part in (places, questions, history, bad_links):
        part(tally, browser, room)
    tally.check("links, the console", browser.told())
