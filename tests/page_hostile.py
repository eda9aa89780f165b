"""Records and scripts that are made to break a page: it shows them, or says what is wrong, and no script in them
runs."""
import json
import random
import re
import shutil
import subprocess
import unicodedata
from pathlib import Path

import recorded
from page_tools import EXAMPLES, Frame, page_of, ready, record_of
from tally import TOP, Tally

CUTS, MUTATIONS, PACKED_LINES = 200, 500, 60_000
MOST_LETTERS = 300
# these two stand within words of some scripts; the others of their kind are marks of Arabic and Syriac numbers
JOINERS = {0x200C, 0x200D, *range(0x600, 0x606), 0x6DD, 0x70F, 0x890, 0x891, 0x8E2, 0x110BD, 0x110CD}
# marks of other kinds that take no room, or are blank
BLANKS = {0x34F, 0x115F, 0x1160, 0x17B4, 0x17B5, 0x180B, 0x180C, 0x180D, 0x180F, 0x3164, 0xFFA0}
TITLE = b"A run of the 82540EM"
RUNS = "window.ran = 1"
HOSTILE_LINES = [
    f"</script><script>{RUNS}</script>", f"<!--<script>{RUNS}",
    f'<img src=x onerror="{RUNS}">', '"\\" \' ` ${1} \\u003c',
    "]]> &lt;b&gt; &quot;", f"# javascript:{RUNS}", "</style><style>*{display:none}</style>",
    "@SCRIPT@ @RECORD@ @STYLE@",
    "w 0 " + "".join(map(chr, [*range(1, 9), *range(11, 32), 127])), "\0 nul", "# " + "x" * 1_000_000,
    "# \u202e right to left, \u2028 a separator, \ufeff a mark, \U0001f600".encode().decode("latin-1"),
    "w 00100 0 # \u202e 8002 w 00100".encode().decode("latin-1"),
    "# \u2066 \u2067 \u2068 \u2069 \u200e \u200f \u061c \u200b \u202a \u202b \u202c \u202d \u2060 \u2029".encode().decode("latin-1"),
    "# \u00ad \u0085 \u0093, \u05e9\u05dc\u05d5\u05dd \u0645\u0631\u062d\u0628\u0627 \u200d".encode().decode("latin-1"),
    "# \u034f \u3164 \uffa0 \u115f \u180b \U000e0041\U000e007f \U000e0101 \U0001d173 \U00013430 ".encode().decode("latin-1"),
    "# no UTF-8: \xff\xfe\xc0\x80 \xed\xa0\x80",
    "link up", "w D0 4", "&", "", " ", "back 3", "__proto__", "r constructor",
]
ODD_PARTS = [None, True, False, -1, 0, 1, 2, 4096, 65536, 2**32, 2**53, 0.5, "", "0", "<b>", "00FF", [], {}, [0, 1],
             [[0, 0, 1]], [["RDH", 0, 1]], [[0, "00", "01"]], "RDH", "__proto__", [False, True]]
# what stands on the page, having gone to some of its steps and asked something there
SHOWS = """
const run = document.getElementById('run'), broken = document.getElementById('broken');
let steps = 0;
if (!run.hidden) {
  const slider = document.getElementById('slider');
  steps = Number(slider.max);
  for (const part of [0, 0.3, 0.6, 0.9]) {
    slider.value = String(Math.floor(part * steps));
    slider.dispatchEvent(new Event('input'));
    const asks = [...document.querySelectorAll('main [data-watch]')];
    asks[Math.floor(part * asks.length)].click();
  }
}
const texts = [document.body.innerText, ...[...document.querySelectorAll('*')].flatMap((one) =>
  ['title', 'aria-label', 'aria-valuetext'].map((name) => one.getAttribute(name) ?? ''))];
const marks = texts.join('').match(/[\\p{Cf}\\p{Zl}\\p{Zp}\\u0080-\\u009F\\u3164\\uFFA0]/gu) ?? [];
return { unseen: [...new Set(marks)], broken: broken.hidden ? '' : broken.textContent, run: !run.hidden, steps, ran: window.ran ?? null,
  scripts: document.querySelectorAll('script:not(.record)').length, seen: document.body.innerText.trim().length };
"""


def steps_before(cut: bytes) -> int:
    """How many steps the whole lines make that stand in a record that was cut: a line is whole with all its events."""
    objects = [json.loads(text) for text in cut.split(b"\n")[1:-1]]
    count, at = 0, 0
    while at < len(objects) and "line" in objects[at]:
        line, events = objects[at], objects[at].get("events", 0)
        at += 1 + events
        if at > len(objects):
            break
        words = line.get("text", "").split()
        count += ("back" in line) + events
        count += "back" not in line and not events and bool(words) and not words[0].startswith("#")
    return count


def faults_of(shown: dict, console: list[str], must_be_broken: bool) -> list[str]:
    faults = [f"on the console: {message}" for message in console]
    faults += [f"U+{ord(mark):04X} can't be seen" for mark in shown["unseen"] if ord(mark) not in JOINERS]
    if shown["ran"] is not None or shown["scripts"] != 1:
        faults.append("a script of the record ran")
    if not shown["broken"] and not shown["run"]:
        faults.append("it shows nothing")
    if "can’t show it" in shown["broken"]:
        faults.append(f"it failed: {shown['broken']}")
    if must_be_broken and not shown["broken"]:
        faults.append("it does not say that the record is broken")
    if shown["broken"] and not re.match(r".*This record is broken: \S.+\.", shown["broken"]):
        faults.append(f"it says {shown['broken']}")
    return faults


def changed_octets(r: random.Random, record: bytes) -> bytes:
    """One to three octets changed, put in or left out, mostly in the lines."""
    made = bytearray(record)
    begin = made.find(b'{"line":')
    for _ in range(r.randint(1, 3)):
        at = r.randrange(begin, len(made)) if r.random() < 0.8 else r.randrange(len(made))
        kind = r.random()
        if kind < 0.6:
            made[at] = r.choice([r.randrange(256), ord(r.choice('0123456789ABCDEF",:[]{}<\\ tfn'))])
        elif kind < 0.8:
            del made[at : at + r.randint(1, 8)]
        else:
            made[at:at] = r.choice([b"0", b"-", b'"', b"}", b"<", b"null,", b"1e9", b"\\u0000", r.randbytes(4)])
    return bytes(made)


def parts_of(value, path=()) -> list[tuple]:
    """The path of each part within a record."""
    inner = value.items() if isinstance(value, dict) else enumerate(value) if isinstance(value, list) else ()
    return [path] + [found for key, part in inner for found in parts_of(part, (*path, key))]


def changed_parts(r: random.Random, record: bytes) -> bytes:
    """One part of the record made something else, left out or doubled."""
    made = [json.loads(text) for text in record.splitlines()]
    paths = [path for path in parts_of(made) if path and path[1:3] != ("start", "registers")]
    *way, last = r.choice(paths)
    holder = made
    for key in way:
        holder = holder[key]
    kind = r.random()
    if kind < 0.6:
        holder[last] = r.choice(ODD_PARTS)
    elif kind < 0.8:
        del holder[last]
    elif isinstance(holder, list):
        holder.insert(last, holder[last])
    else:
        holder[r.choice(["__proto__", "more", "line", "back", "frames"])] = holder[last]
    # (a line of its own may be anything)
    return "".join(f"{json.dumps(one)}\n" for one in made).encode()


def try_records(tally: Tally, browser, room: Path, named: list[tuple[str, bytes, bool]]) -> None:
    frame, page = Frame(), room / f"hostile{id(browser)}.html"
    for name, record, must_be_broken in named:
        page.write_bytes(frame.around(record))
        browser.open(page)
        shown = browser.run(SHOWS)
        faults = faults_of(shown, browser.told(), must_be_broken)
        if "cut after" in name and b'{"line":' in record:
            steps = steps_before(record)
            faults += [] if shown["steps"] == steps else [f"it shows {shown['steps']} steps, and not {steps}"]
        tally.check(name, faults)


def hostile_records(seed: int = 82540) -> list[tuple[str, bytes, bool]]:
    """Records that are cut and mutated, by name, and whether they must be called broken."""
    r = random.Random(seed)
    whole = {name: record_of(path.read_bytes()) for path in EXAMPLES for name in [path.name]
             if name in ("ring.em", "transmit.em", "broken-ring.em", "reset.em")}
    records = sorted(whole.items())
    made = []
    for number in range(CUTS):
        name, record = r.choice(records)
        at = r.randrange(len(record.rstrip()))
        made.append((f"{name}, cut after {at} octets", record[:at], True))
    for number in range(MUTATIONS):
        name, record = r.choice(records)
        change = r.choice([changed_octets, changed_parts])
        made.append((f"{name}, mutation {number}", change(r, record), False))
    name, record = records[0]
    made += [
        ("a register that turns the direction of writing",
         record.replace(b'"registers":{"CTRL"', '"registers":{"\u202eCTRL \u00ad\U000e0041"'.encode(), 1), True),
        ("another version", record.replace(b'"version":3', b'"version":4'), True),
        ("version 2", b'{"format":"bunjelav recording","version":2,\n"settings":{"base":0},\n"script":[],\n', True),
        ("something behind the end", record + record.splitlines()[-1], True),
        ("more events than follow", record.replace(b'"events":1}', b'"events":4294967295}', 1), True),
        ("a line left out", re.sub(rb'\{"line":5,.*\n', b"", record, count=1), True),
        ("blanks about it", b" " + record.replace(b'{"line":', b'\t{ "line" : ').replace(b"\n", b" \r\n"), False),
        ("another format", record.replace(b"bunjelav recording", b"a recording"), True),
        ("no record", b"", True), ("no object", b"[]", True), ("null", b"null", True), ("text", b"not JSON", True),
        ("no end", re.sub(rb'\{"end":\{[^}]*\}\}\n', b"", record), True),
        ("no newline at its end", record.rstrip(), False),
        ("HTML", b"</script><script>window.ran = 1</script>", True), ("a mark in front", b"\xef\xbb\xbf" + record,
            False),
    ]
    return made


def shown_as(letter: str) -> str:
    """A control character has its picture; what takes no room, or turns the direction of writing, its number."""
    code = ord(letter)
    if code < 32 or code == 127:
        return chr(0x2400 + code) if code < 32 else "\u2421"
    is_unseen = unicodedata.category(letter) in ("Cc", "Cf", "Zl", "Zp") and code not in JOINERS
    is_unseen = is_unseen or code in BLANKS or 0xE0000 <= code < 0xE1000
    return f"\u27e8U+{code:04X}\u27e9" if is_unseen else letter


def visible(text: str) -> str:
    text = text if len(text) <= MOST_LETTERS else f"{text[:MOST_LETTERS]}… ({len(text):,} characters)"
    return "".join(map(shown_as, text))


def hostile_scripts(tally: Tally, browser, room: Path) -> None:
    script = "\n".join(HOSTILE_LINES).encode("latin-1") + b"\n"
    record = record_of(script)
    page = room / "script.html"
    page.write_bytes(page_of(record))
    browser.open(page)
    shown = browser.run(SHOWS)
    tally.check("a hostile script", faults_of(shown, browser.told(), False)
                + ([f"it is called broken: {shown['broken']}"] if shown["broken"] else []))
    texts = browser.run("""
      const script = document.getElementById('script');
      script.style.setProperty('height', '4000px');
      const shown = () => [...script.querySelectorAll('[role=option] .text')];
      return new Promise((done) => {
        let left = 200;
        const ask = () => (shown().length < arguments[0] && left-- ? setTimeout(ask, 50) : done(shown().map((one) =>
          [one.closest('[data-line]').dataset.line, one.textContent])));
        ask();
      });
    """, len(HOSTILE_LINES))
    wanted = {str(number): visible(text) for number, text in enumerate(recorded.parsed(record)["script"], 1)}
    faults = [f"line {number} is shown as {text[:80]!r}, and not {wanted[number][:80]!r}"
              for number, text in texts if text != wanted[number]]
    tally.check("the texts of a hostile script", faults + ([] if len(texts) == len(wanted)
        else [f"{len(texts)} lines are shown"]))
    browser.told()
    page.write_bytes(page_of(record).replace(b"</body>", b"<script>window.ran = 1</script></body>"))
    browser.open(page)
    tally.check("the policy", [] if browser.run("return window.ran ?? null") is None else ["another script ran"])
    tally.check("the policy is told", [] if any("Content Security Policy" in one for one in browser.told())
        else ["it is not"])


def packed(tally: Tally, browser, room: Path) -> None:
    """A long record is packed; where its letters are cut or others, or it is written in another way, the page says what
    is wrong, or shows it."""
    script = "".join(f"poke {4096 + 64 * i % 32768:X} {i % 256:02X}{'A5' * 59}{i % 251:02X}\n"
        for i in range(PACKED_LINES))
    record = record_of(script.encode())
    whole, page = page_of(record), room / "packed.html"
    begin = whole.index(b'type="application/gzip">') + len(b'type="application/gzip">')
    end = whole.index(b"</script>", begin)
    tally.check("a long record is packed", [] if len(record) > 16_777_216 > len(whole)
        else [f"the page has {len(whole)} octets"])
    other = whole[: begin + 5000] + b"AAAA" + whole[begin + 5004 :]
    named = [("whole", whole, False), ("cut", whole[: begin + (end - begin) // 2] + whole[end:], True),
        ("without octets", whole[:begin] + whole[end:], True),
             ("with other octets", other, True), ("cut record", page_of(record[: len(record) * 9 // 10]), True),
             ("with blanks", page_of(record.replace(b'{"line":', b'{ "line": ')), False)]
    for name, octets, must_be_broken in named:
        page.write_bytes(octets)
        browser.open(page)
        ready(browser)
        shown = browser.run(SHOWS)
        faults = faults_of(shown, browser.told(), must_be_broken)
        steps = {"whole": PACKED_LINES, "with blanks": PACKED_LINES}.get(name)
        faults += [] if steps is None or shown["steps"] == steps else [f"it shows {shown['steps']} steps"]
        tally.check(f"packed, {name}", faults)
    (room / "pipe.json").write_bytes(record_of(b"link up\n"))
    ran = subprocess.run(["bash", "-c", '"$0" --record <(cat "$1")', TOP / "em_page", room / "pipe.json"],
        stdout=subprocess.PIPE,
                         check=False)
    tally.check("a record from a pipe", [] if b'"link up"' in ran.stdout else ["it is not in the page"])


def played(tally: Tally, room: Path, record: Path, whole: bytes) -> None:
    """em_page with an em_record beside it, that writes this record or nothing, and ends with a status."""
    top = room / "top"
    top.mkdir()
    shutil.copytree(TOP / "page", top / "page")
    shutil.copy(TOP / "em_page", top)
    (room / "link").symlink_to(top / "em_page")
    whole = titled(whole, b"script.em")
    for name, command, written, status, out in (
        ("a script", top / "em_page", f'cat "{record}"; [ "$*" = "--memory 4096 script.em" ]', 0, whole),
        ("by a link", room / "link", f'cat "{record}"', 0, whole), ("a bad line", top / "em_page",
            f'cat "{record}"; exit 1', 1, whole),
        ("no record", top / "em_page", "exit 3", 3, b""),
        ("no record but a text", top / "em_page", "echo em_record 0.1.0", 0, b"em_record 0.1.0\n"),
        ("no em_record", top / "em_page", None, 69, b""),
    ):
        program = top / "em_record"
        program.unlink(missing_ok=True)
        if written:
            program.write_text(f"#!/bin/sh\n{written}\n")
            program.chmod(0o755)
        ran = subprocess.run([command, "--memory", "4096", "script.em"], stdout=subprocess.PIPE,
            stderr=subprocess.PIPE, check=False)
        faults = [] if ran.returncode == status else [f"its status is {ran.returncode}: {ran.stderr.decode()}"]
        tally.check(f"em_page, {name}", faults + ([] if ran.stdout == out else ["it writes something else"]))


def titled(page: bytes, name: bytes) -> bytes:
    """The page of a record that came without a name, with this one in its title and its heading."""
    assert page.count(TITLE) == 2
    return page.replace(TITLE, name + b": a" + TITLE[1:])


def titles(tally: Tally, room: Path) -> None:
    """The title names the file; no name of one breaks the page, or is shown in another order than it has."""
    record = record_of(EXAMPLES[0].read_bytes())
    for name, shown in (
        ("two words.em", b"two words.em"), ("a&b<c>.em", b"a&amp;b&lt;c&gt;.em"), ("a|b\\1.em", b"a|b\\1.em"),
        ("@RECORD@.em", b"&#64;RECORD&#64;.em"), ("\u202eme.exe", b"?me.exe"), ("line\nend", b"line?end"),
        ("\u00e4.em", "\u00e4.em".encode()), ("a\u00ad\U000e0041\u180eb.em", b"a???b.em"),
    ):
        file = room / name
        file.write_bytes(record)
        ran = subprocess.run([TOP / "em_page", "--record", file], stdout=subprocess.PIPE, check=False)
        is_so = ran.stdout == titled(page_of(record), shown)
        tally.check(f"em_page, a file called {name!r}", [] if is_so else [f"its title is {ran.stdout[:900]!r}"])
    for words, shown in ((["--memory", "4096", "a.em"], b"a.em"), (["b/a.em", "--mac=525400123456"], b"a.em"),
                         (["--", "-x.em"], b"-x.em"), (["--budget", "65536"], None), (["-"], None)):
        ran = subprocess.run([room / "top" / "em_page", *words], stdout=subprocess.PIPE, check=False)
        title = re.search(rb"<title>(.*)</title>", ran.stdout)
        is_so = title and title[1] == (shown + b": a" + TITLE[1:] if shown else TITLE)
        tally.check(f"em_page {' '.join(words)}", [] if is_so else [f"its title is {title and title[1]}"])
    over = room / "over.em"
    over.write_bytes(b"link up\n")
    for words in ([over], ["--record", over]):
        with over.open("ab") as file:
            ran = subprocess.run([room / "top" / "em_page", *words], stdout=file, stderr=subprocess.PIPE, check=False)
        is_so = ran.returncode == 2 and b"would be written over" in ran.stderr and over.read_bytes() == b"link up\n"
        tally.check(f"em_page {words}, over that file", [] if is_so else [f"status {ran.returncode}, {ran.stderr!r}"])
    ran = subprocess.run([TOP / "em_page", "--version"], stdout=subprocess.PIPE, check=False)
    version = re.search(rb"^em_page (\d+\.\d+\.\d+)\n\Z", ran.stdout)
    tally.check("em_page --version", [] if ran.returncode == 0 and version else [f"it says {ran.stdout[:200]!r}"])


def command_line(tally: Tally, room: Path) -> None:
    """em_page itself: its statuses, and that it takes no more than it says."""
    record = room / "record.json"
    record.write_bytes(record_of(EXAMPLES[0].read_bytes()))
    tools = room / "tools"
    tools.mkdir()
    for tool in "bash sed cat head wc base64 sha256sum mktemp rm readlink".split():
        (tools / tool).symlink_to(subprocess.run(["which", tool], stdout=subprocess.PIPE,
            check=True).stdout.decode().strip())
    whole = page_of(record.read_bytes())
    for name, words, env, status, out in (
        ("bare", ["--record", record], {"PATH": str(tools)}, 0, titled(whole, b"record.json")),
        ("a file", ["--record", record], None, 0,
            titled(whole, b"record.json")),
        ("no file", ["--record", room / "none"], None, 3, b""), ("a folder", ["--record", room], None, 3, b""),
        ("no word behind it", ["--record"], None, 2, b""),
    ):
        ran = subprocess.run([TOP / "em_page", *words], stdout=subprocess.PIPE, stderr=subprocess.PIPE, env=env,
            check=False)
        faults = [] if ran.returncode == status else [f"its status is {ran.returncode}: {ran.stderr.decode()}"]
        faults += [] if ran.stdout == out else ["it writes something else"]
        tally.check(f"em_page, {name}", faults)
    played(tally, room, record, whole)
    program = room / "top" / "em_record"
    program.write_text(f'cat "{record}"\n')
    titles(tally, room)
    tally.check("one file", [] if not re.search(rb"(?:src|href)\s*=|@import|https?://(?!www\.w3\.org)", whole)
        else ["it names others"])
