"""`./em_debug --addr2line` and `./em_page --addr2line`: program counters of a script become functions and lines. A program
of our own, in C, writes a script whose counters are its own, at lines that are known here."""
import os
import pathlib
import pty
import re
import resource
import select
import shutil
import signal
import subprocess
import tempfile
import time

import recorded
from page_tools import program as player
from preload import not_run
from tally import TOP, Tally

SECONDS = 60
PROMPT = b"(em) "
# what ./em_debug takes with this option; what chooses its program is another matter, which tests/wrapper tries
TOOLS = ("bash", "env", "cat", "readlink", "mktemp", "rm", "mv", "od", "tail", "awk", "addr2line")
# and what ./em_page takes besides
PAGE_TOOLS = ("sed", "sha256sum", "base64", "head", "wc")
HEADER = """\
__attribute__((always_inline)) static inline uintptr_t put(void) { return caller(); }
"""
SOURCE = """\
#include <inttypes.h>
#include <stdio.h>
extern char __executable_start;
__attribute__((noinline)) static uintptr_t caller(void) { return (uintptr_t)__builtin_return_address(0) - 1; }
#include "ring.h"
static uintptr_t begin(void) { return caller(); }
static uintptr_t give(void) {
  return put();
}
int main(void) {
  puts("# em_debug --memory 65536 --budget 1048576 --mac 525400123456");
  printf("w 2800 1000 = ok @ 0x%016" PRIXPTR "\\n", begin());
  printf("w 2818 3 @ before 0x%" PRIxPTR " # late\\n", give());
  printf("bogus\\n# 0x%" PRIxPTR "\\nr 2818 = 4 @0x%" PRIXPTR "\\r\\n", give(), give());
  printf("r 2818 @ 1 0x%" PRIXPTR "\\nr 2818 # @ 0x%" PRIXPTR "\\nw 2818 5 @ 0xD0\\nw 2818 6", give(), give());
  fprintf(stderr, "%" PRIXPTR, (uintptr_t)&__executable_start);
}
"""
# a part of a program, of two sections that each begin at 0; linked, it lies higher than numbers with a sign go
MODULE = """\
__attribute__((section(".init.text"))) int start(void) { return 1; }
int give(void) { return 2; }
"""
BAD = b"line 4: no command bogus: help says which there are\n"
# names of files, of which some letters would end a source or turn a replacement
HOSTILE_SOURCE, AS_SOURCE = "we & ird\\1 #x\t.c", "we & ird\\1 ?x?.c"
HOSTILE_SCRIPT = "a &b\\1 #.em"
MANY, MOST_SECONDS = 100_000, 2.0
# words, status, what is said: `core` is a script, `driver` a program, `text` none
REFUSED = (
    (["core", "--addr2line"], 2, "--addr2line wants a file"),
    (["--addr2line=", "core"], 2, "--addr2line wants a file"),
    (["--addr2line", "driver", "--addr2line=driver", "core"], 2, "--addr2line stands twice"),
    (["--addr2line", "driver"], 2, "--addr2line wants a script"),
    (["--addr2line", "driver@x", "core"], 2, "--addr2line driver@ wants 1 to 16 hexadecimal digits behind the @"),
    (["--addr2line", "nowhere", "core"], 3, "--addr2line nowhere: there is no such file"),
    (["--addr2line", ".", "core"], 3, "--addr2line .: it cannot be read"),
    (["--addr2line", "text", "core"], 3, "--addr2line text: addr2line cannot read it"),
    # what em_debug refuses by itself
    (["--addr2line", "driver", "nowhere"], 3, "nowhere: there is no such file"),
    (["--addr2line", "driver", "."], 3, ".: the script cannot be read"),
    (["--addr2line", "driver", "--base", "1001", "core"], 2,
     "--memory 65536 --base 1001: guest memory begins at a multiple of 4096, has a multiple of 4096 octets, and ends at "
     "10000000000 at most"),
    (["--addr2line", "driver", "--memory", "5", "core"], 2,
     "--memory 5 --base 0: guest memory begins at a multiple of 4096, has a multiple of 4096 octets, and ends at "
     "10000000000 at most"),
    (["--addr2line", "driver", "--batch", "--pcap", "core", "core"], 2,
     "--pcap core: core is this file too, and would be written over"),
    (["--addr2line", "driver", "-"], 2,
     "a script of standard input goes with --batch, --compare, --reduce or -x: what is typed comes from there"),
)
# the same of ./em_page, with who says it
REFUSED_PAGES = (
    (["core", "--addr2line"], 2, "em_page: --addr2line wants a file"),
    (["--addr2line", "driver", "--addr2line=driver", "core"], 2, "em_page: --addr2line stands twice"),
    (["--addr2line", "driver"], 2, "em_page: --addr2line wants a script"),
    (["--addr2line", "driver@x", "core"], 2,
     "em_page: --addr2line driver@ wants 1 to 16 hexadecimal digits behind the @"),
    (["--addr2line", "nowhere", "core"], 3, "em_page: --addr2line nowhere: there is no such file"),
    (["--addr2line", "text", "core"], 3, "em_page: --addr2line text: addr2line cannot read it"),
    (["--record", "core", "--addr2line", "driver"], 2,
     "em_page: driver is one file too many: a page shows a run, or two beside each other"),
    (["--addr2line", "driver", "nowhere"], 3, "em_record: nowhere: there is no such file"),
    (["--addr2line", "driver", "--base", "7", "core"], 2,
     "em_record: --memory 65536 --base 7: guest memory begins at a multiple of 4096, has a multiple of 4096 octets, and "
     "ends at 10000000000 at most"),
)
# the elements with the record of a page, and its title
RECORD = re.compile(rb'<script class="record"[^>]*>(.*?)</script>', re.S)
TITLE = re.compile(rb"<title>(.*?)</title>", re.S)


class Room:
    """A folder with ./em_debug over a program, ./em_page over the recorder that is here, the tools that they take, and
    programs of our own with their scripts."""

    def __init__(self, folder: str, program: str) -> None:
        self.top = pathlib.Path(folder)
        self.tools, self.temporary = self.top / "commands", self.top / "temporary"
        for name in (self.tools, self.temporary, self.top / "tools"):
            name.mkdir()
        tools = (f"tools/{name}.bash" for name in ("addr2line", "say_name", "unpack"))
        for name in ("em_debug", "em_page", "em_record", *tools):
            shutil.copy(TOP / name, self.top / name)
        shutil.copytree(TOP / "page", self.top / "page")
        chosen = f'[ $me = em_debug ] && program="{program}" || program="{player("em_record")}"'
        choice = f'run_program() {{\n  {chosen}\n  exec "${{through[@]}}" "$program" "$@"\n}}\n'
        (self.top / "tools/program.bash").write_text(choice)
        for name in (*TOOLS, *PAGE_TOOLS):
            (self.tools / name).symlink_to(shutil.which(name))
        self.environment = {"PATH": str(self.tools), "TMPDIR": str(self.temporary)}
        # where programs were loaded
        self.bases: dict[str, int] = {}

    def compile(self, name: str, *flags: str, file: str = "driver.c", source: str = SOURCE) -> None:
        """Makes a program, or a part of one, of a source of this name."""
        folder = self.top / f"sources of {name}"
        folder.mkdir()
        (folder / "ring.h").write_text(HEADER)
        (folder / file).write_text(source)
        subprocess.run([shutil.which("cc"), "-g", "-O0", *flags, "-o", self.top / name, folder / file], check=True)

    def compiled(self, name: str, *flags: str, **how: str) -> tuple[bytes, int]:
        """Makes a program; the script that it writes, and where it was loaded."""
        self.compile(name, *flags, **how)
        ran = subprocess.run([self.top / name], capture_output=True, check=True, timeout=SECONDS)
        self.bases[name] = int(ran.stderr, 16)
        return ran.stdout, self.bases[name]

    def write(self, name: str, script: bytes) -> str:
        (self.top / name).write_bytes(script)
        return name

    def run(self, *words: str, typed: bytes = b"", by: str = "em_debug", **env: str):
        return subprocess.run(["bash", by, *words], input=typed, capture_output=True, cwd=self.top,
                              env=self.environment | env, timeout=SECONDS, check=False)


def listing(script: bytes, file: str) -> bytes:
    """What --batch tells of such a script, in which all counters are named that stand as sources. Its last line is
    torn."""
    given = script.decode().splitlines()
    lines = []
    for number, (text, answer) in enumerate((
        (given[0], ""), (f"w 2800 1000 @ begin(), {file}:6", "ok"), (f"w 2818 3 @ before give(), {file}:8", "ok"),
        ("bogus", "bad line 4"), (given[4], ""), (f"r 2818 @ give(), {file}:8", "00000003"), (given[6], "00000003"),
        ("r 2818", "00000003"), ("w 2818 5 @ 0xD0", "ok"),
    ), 1):
        lines.append(f"{number:5}  {text:46}{answer}".rstrip())
        lines += [f"{'':53}differs: 4 wanted"] if number == 6 else []
    return "".join(f"{line}\n" for line in [*lines, "agreed 1, differed 1, bad 1, warnings 0"]).encode()


def ended(tally: Tally, room: Room, name: str, ran, status: int, out: bytes | None, err: bytes) -> None:
    """Checks a run, and that it left no temporary file."""
    tally.ended(f"--addr2line, {name}", ran, status, out, err)
    tally.check(f"--addr2line, {name}", [f"{file.name} is left" for file in room.temporary.iterdir()])


def named(tally: Tally, room: Room) -> bytes:
    """Scripts of programs that lie where they are linked, and where they are loaded; of files with any name."""
    fixed, _ = room.compiled("driver", "-no-pie")
    room.write("core", fixed)
    for words in (["--addr2line", "driver", "--batch", "core"], ["--batch", "--addr2line=driver", "--", "core"]):
        ran = room.run(*words)
        ended(tally, room, " ".join(words), ran, 1, listing(fixed, "driver.c"), b"em_debug: core: " + BAD)
    ran = room.run("--addr2line", "driver", "--batch", "-", typed=fixed)
    ended(tally, room, "standard input", ran, 1, listing(fixed, "driver.c"), b"em_debug: -: " + BAD)
    moved, base = room.compiled("moved", "-pie", "-fPIE")
    room.write("moved core", moved)
    for text in (f"moved@{base:x}", f"moved@0x{base:016X}"):
        ran = room.run("--addr2line", text, "--batch", "moved core")
        ended(tally, room, "an address", ran, 1, listing(moved, "driver.c"), b"em_debug: moved core: " + BAD)
    odd, _ = room.compiled("odd@1", "-no-pie", file=HOSTILE_SOURCE)
    ran = room.run("--batch", "--addr2line", "odd@1", room.write(HOSTILE_SCRIPT, odd))
    said = f"em_debug: {HOSTILE_SCRIPT}: ".encode() + BAD
    ended(tally, room, "names of files", ran, 1, listing(odd, AS_SOURCE), said)
    return fixed


def modules(tally: Tally, room: Room) -> None:
    """A kernel's module is not linked, and its address is that of its code; a kernel is linked, and has none."""
    base, below = 0xFFFFFFFF81000000, 8
    room.compile("module.o", "-c", source=MODULE)
    room.compile("kernel", "-nostdlib", "-static", "-no-pie", f"-Wl,-Ttext={base:#x},-e,give", source=MODULE)
    room.write("module core", b"".join(b"r 8 @ 0x%016X\n" % (base + at) for at in range(-below, 8)))
    for text in (f"module.o@{base:x}", "kernel"):
        ran = room.run("--addr2line", text, "--batch", "module core")
        told = [line.split(" @ ")[1].split("   ")[0] for line in ran.stdout.decode().splitlines() if " @ " in line]
        wanted = [f"0x{base - at:016X}" for at in range(below, 0, -1)] + ["give(), driver.c:2"] * 8
        tally.check(f"--addr2line {text}", [] if told == wanted else [f"it tells {told}"])


def session(tally: Tally, room: Room) -> None:
    """Where a session names a line's source, it names the function; --help has the option, and nothing else is done."""
    ran = room.run("--addr2line", "driver", "core", typed=b"who RDT\nwho RDT again\n")
    told = (b"played 9 lines: line 4 is bad\nline 9 @ 0xD0, event 6: write RDT 00000005\n  RDT  00000003 -> 00000005\n"
            b"line 3 @ before give(), driver.c:8, event 2: write RDT 00000003\n  RDT  00000000 -> 00000003\n"
            b"agreed 1, differed 1\n")
    ended(tally, room, "a session", ran, 1, told, b"em_debug: core: " + BAD)
    ran = room.run("--help")
    tally.check("--addr2line in --help", [] if b"  --addr2line <PROGRAM[@ADDRESS]>  " in ran.stdout else ["it is not"])
    ran = room.run("--addr2line", "nowhere", "--version")
    ended(tally, room, "--version", ran, 0, None, b"")


def refusals(tally: Tally, room: Room) -> None:
    room.write("text", b"no program\n")
    for words, status, told in REFUSED:
        ended(tally, room, " ".join(words), room.run(*words), status, b"", f"em_debug: {told}\n".encode())
    words = ["--addr2line", "driver", "--batch", "core"]
    ran = room.run(*words, TMPDIR=str(room.top / "nowhere"))
    ended(tally, room, "no temporary file", ran, 3, b"", b"em_debug: --addr2line: a temporary file cannot be written\n")
    for tool, what in (("addr2line", "here; Debian's binutils has it"), ("awk", "here, which puts the names in")):
        told = f"em_debug: --addr2line: there is no {tool} {what}\n".encode()
        (room.tools / tool).rename(room.top / tool)
        ended(tally, room, f"no {tool}", room.run(*words), 3, b"", told)
        (room.top / tool).rename(room.tools / tool)


def pages(tally: Tally, room: Room) -> None:
    """The page of such a script has the names: of a file, by an address, and of standard input."""
    script, said = (room.top / "core").read_bytes(), b"line 4: no command bogus: help says which there are\n"
    wanted = ["begin(), driver.c:6", "before give(), driver.c:8", "give(), driver.c:8", "1 0x%X", "0xD0"]
    moved, base = (room.top / "moved core").read_bytes(), room.bases["moved"]
    for words, typed, name, run_of in (
        (["--addr2line", "driver", "core"], b"", "core", script),
        (["--memory=64K", "--addr2line=driver", "--", "core"], b"", "core", script),
        (["--addr2line", "driver", "-"], script, "-", script),
        ([f"--addr2line=moved@{base:x}", "moved core"], b"", "moved core", moved),
    ):
        ran = room.run(*words, typed=typed, by="em_page")
        ended(tally, room, " ".join(words), ran, 1, None, f"em_record: {name}: ".encode() + said)
        record, title = b"".join(RECORD.findall(ran.stdout)), TITLE.search(ran.stdout)
        told = [line["source"] for line in recorded.parsed(record)["lines"] if "source" in line] if record else []
        # (the number that stands behind another word is no counter)
        wanted[3] = run_of.decode().splitlines()[6].partition("@ ")[2]
        faults = [] if told == wanted else [f"its sources are {told}, and not {wanted}"]
        shown = b"A run of the 82540EM" if name == "-" else name.encode() + b": a run of the 82540EM"
        faults += [] if title and title[1] == shown else [f"its title is {title}"]
        tally.check(f"./em_page {' '.join(words)}", faults)
    for words, status, told in REFUSED_PAGES:
        ended(tally, room, " ".join(words), room.run(*words, by="em_page"), status, b"", f"{told}\n".encode())
    ran = room.run("--help", by="em_page")
    is_told = b"--addr2line PROGRAM[@ADDRESS] SCRIPT" in ran.stdout
    tally.check("./em_page --help", [] if is_told else ["it has no --addr2line"])


def used() -> float:
    """The seconds of processors that what was waited for has taken."""
    spent = resource.getrusage(resource.RUSAGE_CHILDREN)
    return spent.ru_utime + spent.ru_stime


def many(tally: Tally, room: Room) -> None:
    """A long run, with some hundred counters."""
    start = 0x401000
    room.write("many", b"".join(b"w 2818 %X = ok @ 0x%016X\n" % (at % 8, start + at % 700) for at in range(MANY)))
    spent = []
    for words in ([], ["--addr2line", "driver"]):
        before = used()
        ran = room.run(*words, "--compare", "--all", "many")
        spent.append(used() - before)
        tally.check("--addr2line, a long run", [] if ran.stdout.startswith(b"agreed 100000, ") else [f"{ran}"])
    more = spent[1] - spent[0]
    tally.check("--addr2line, a long run", [] if more < MOST_SECONDS else [f"it takes {more:.1f} s more"])


def read_until(terminal: int, end: bytes) -> bytes:
    text = b""
    while not text.endswith(end) and select.select([terminal], [], [], SECONDS)[0]:
        try:
            octets = os.read(terminal, 4096)
        except OSError:
            break
        text += octets
    return text


def on_a_terminal(room: Room, *words: str) -> tuple[int, int]:
    """A run on a terminal of its own."""
    child, terminal = pty.fork()
    if child == 0:
        # a gate that was started in the background ignores Ctrl-C, and a program inherits that
        signal.signal(signal.SIGINT, signal.SIG_DFL)
        os.chdir(room.top)
        os.execve(shutil.which("bash"), ["bash", "em_debug", *words], room.environment)
    return child, terminal


def interrupts(tally: Tally, room: Room) -> None:
    """Ctrl-C drops the line that is being typed, and ends a run where nothing is typed."""
    child, terminal = on_a_terminal(room, "--addr2line", "driver", "core")
    read_until(terminal, PROMPT)
    os.write(terminal, b"peek 0 2\x03")
    time.sleep(0.5)
    os.write(terminal, b"line\n")
    answered = read_until(terminal, b"0\r\n" + PROMPT)
    os.write(terminal, b"\x04")
    status = os.waitstatus_to_exitcode(os.waitpid(child, 0)[1])
    os.close(terminal)
    is_well = status == 1 and answered.endswith(b"0\r\n" + PROMPT) and b"0000" not in answered
    tally.check("--addr2line, Ctrl-C", [] if is_well else [f"{answered!r}, status {status}"])
    # nobody writes to it, so what opens it waits
    os.mkfifo(room.top / "wait")
    child, terminal = on_a_terminal(room, "--addr2line", "driver", "--batch", "wait")
    time.sleep(1)
    os.write(terminal, b"\x03")
    status = os.waitstatus_to_exitcode(os.waitpid(child, 0)[1])
    os.close(terminal)
    faults = [] if status in (-signal.SIGINT, 128 + signal.SIGINT) else [f"status {status}"]
    tally.check("--addr2line, Ctrl-C with --batch", faults + [f"{file} is left" for file in room.temporary.iterdir()])


def try_named_counters(tally: Tally, program: str) -> None:
    missing = [name for name in ("cc", "addr2line", "awk") if shutil.which(name) is None]
    if missing:
        not_run(tally, f"names of program counters: there is no {' and no '.join(missing)} here")
        return
    with tempfile.TemporaryDirectory() as folder:
        room = Room(folder, program)
        script = named(tally, room)
        for part in (modules, session, refusals, pages, many, interrupts):
            part(tally, room)
        is_kept = (room.top / "core").read_bytes() == script
        tally.check("--addr2line, the script", [] if is_kept else ["it was written to"])
