"""What is saved from the page: the capture of the frames that were sent, octet for octet as em_debug's `pcap` writes it, and
the script."""
import random
import time
from pathlib import Path

import recorded
from page_find import steps_of_record
from page_states import GO, by_debugger
from page_tools import TOP, page_of, record_of, scripts_at_random
from tally import Tally

PLACES = 5
# a frame that is sent at each tail, by lines with times and without, and some that are taken back and sent again
TIMED = """w 03800 1000
w 03808 80
w 00400 2
link up
poke 2000 FFFFFFFFFFFF525400123456080600010800060400010102030405060708
poke 1000 00200000000000003C00000B00000000
poke 1010 00200000000000004000000B00000000
poke 1020 00200000000000004100000B00000000
poke 1030 00200000000000004200000B00000000
w 03818 1
tx
w 03818 2 # 1700000000.123456
tx
# 1700000001.000009
w 03818 3
tx
back 2
w 03818 4 # no time
tx # 4294967296.000000
tx
""".splitlines()


def saved(browser, room: Path, button: str) -> bytes:
    """The file that a button of the page saves. Chromium makes an empty file of that name, and puts the whole one in its
    place: no file that is saved here is empty."""
    for file in room.iterdir():
        file.unlink()
    browser.run("document.getElementById(arguments[0]).click()", button)
    for _ in range(600):
        files = [file for file in room.iterdir() if file.suffix != ".crdownload" and not file.name.startswith(".")]
        octets = files[0].read_bytes() if files else b""
        if octets:
            return octets
        time.sleep(0.05)
    return b"nothing was saved"


def captures(tally: Tally, browser, room: Path) -> None:
    """At some places of scripts the page saves what em_debug writes there."""
    named = [(path.name, path.read_text("latin-1"))
        for path in (TOP / "examples" / "transmit.em", TOP / "examples" / "driver.em")]
    named += [("times", "".join(f"{line}\n" for line in TIMED)), *scripts_at_random(7), *scripts_at_random(8)]
    folder, page = room / "saved", room / "page.html"
    folder.mkdir()
    browser.command("Browser.setDownloadBehavior", behavior="allow", downloadPath=str(folder))
    for name, script in named:
        r = random.Random(name)
        record = record_of(script.encode("latin-1"))
        page.write_bytes(page_of(record))
        browser.open(page)
        at_event = {step.event["event"]: at for at, step in enumerate(steps_of_record(recorded.parsed(record)))
                    if step.event and not step.gone}
        numbers = [max(at_event, default=0), *r.sample(sorted(at_event), min(PLACES, len(at_event)))]
        for number in numbers:
            by_debugger(script, [f"goto {number}", f"pcap! {room / 'by-debugger.pcap'}"], room)
            wanted = (room / "by-debugger.pcap").read_bytes()
            browser.run(GO, at_event[number])
            if len(wanted) == 24:
                is_off = browser.run("return document.getElementById('save-pcap').disabled")
                tally.check(f"{name}, event {number}, no frame", [] if is_off else ["it can be saved"])
                continue
            octets = saved(browser, folder, "save-pcap")
            tally.check(f"{name}, event {number}, pcap", [] if octets == wanted
                        else [f"it has {len(octets)} octets, {octets[24:56].hex()}, and not {len(wanted)}, {wanted[24:56].hex()}"])


def scripts(tally: Tally, browser, room: Path) -> None:
    """The script is saved as it stands; its file has the script's name."""
    folder, page = room / "saved", room / "script.html"
    for script in (b"link up\n# \xc3\xa4 \xe2\x80\xae comment\n\nr 8 = 1 @ a.c:3\n\tw 0 1\n",
        b"".join(b"r 8\n" for _ in range(5000))):
        record = record_of(script)
        page.write_bytes(page_of(record))
        browser.open(page)
        octets = saved(browser, folder, "save-script")
        wanted = "".join(f"{line}\n" for line in recorded.parsed(record)["script"]).encode()
        tally.check("the script", [] if octets == wanted == script else [f"it is {octets[:200]!r}"])
    for title, name in (("ring.em: a run of the 82540EM", "ring.em"),
        ("../a b.json: a run of the 82540EM", "__a_b.em"), ("A run", "run.em")):
        browser.run("document.title = arguments[0]", title)
        saved(browser, folder, "save-script")
        names = [file.name for file in folder.iterdir()]
        tally.check(f"the file of {title}", [] if names == [name] else [f"it is called {names}"])


def check_saved(tally: Tally, browser, room: Path) -> None:
    for part in (captures, scripts):
        part(tally, browser, room)
    tally.check("what is saved, the console", browser.told())
