"""em_guest's command line: the files that it names, the words that QEMU gets, and names for program counters."""
import os
import re
import subprocess
import time
from pathlib import Path

from guest_tools import LIBRARY, Guest, differ
from played_qemu import PlayedQemu, until
from tally import Tally, run


def files(tally: Tally, room: Path) -> None:
    """Files that can't be written, and the words of the command line."""
    guest = Guest(room, "full", "--over")
    until(guest.path.exists)
    guest.process.kill()
    guest.process.communicate()
    full = subprocess.Popen([room / "em_guest", "--over", "--run", "/dev/full", "--listen", room / "full-socket"],
                            stdout=subprocess.PIPE, stderr=subprocess.PIPE)
    qemu = PlayedQemu(room / "full-socket")
    qemu.boot()
    time.sleep(0.3)
    value = qemu.read(8)
    qemu.close()
    _, err = full.communicate(timeout=120)
    tally.check("a run that can't be written", differ({
        "STATUS": (value, 0x83), "status": (full.returncode, 0),
        "told once": (err.count(b"the run can't be written (No space left on device): it ends here"), 1)}))
    # a file that may have 4,096 octets ends with a whole line
    short = room / "short.em"
    words = [room / "em_guest", "--run", short, "--listen", room / "short-socket"]
    limited = subprocess.Popen(["bash", "-c", 'ulimit -f 4; trap "" XFSZ; exec "$@"', "bash", *words],
                               stdout=subprocess.PIPE, stderr=subprocess.PIPE)
    qemu = PlayedQemu(room / "short-socket")
    qemu.boot()
    for _ in range(2000):
        qemu.read(8)
    qemu.close()
    _, err = limited.communicate(timeout=120)
    text = short.read_text()
    tally.check("a run that is cut off", differ({
        "status": (limited.returncode, 0), "told once": (err.count(b"the run can't be written (File too large)"), 1),
        "its end": (text.endswith("\nr 00008 = 00000083\n"), True), "its octets": (4000 < len(text) <= 4096, True)}))
    # a QEMU that dies as it makes the device
    dying = room / "dying"
    dying.write_text("#!/bin/sh\nkill -SEGV $$\n")
    dying.chmod(0o755)
    tally.ended("QEMU dies at once", run([room / "em_guest", "--run", room / "dying.em", "--", dying]), 1, b"",
                b"em_guest: QEMU died of signal 11\nem_guest: that was before it had made the device: docs/guest.md says "
                b"which QEMU can\nem_guest: 0 accesses of registers, 0 refused; 0 frames arrived, 0 were dropped, 0 were "
                b"sent; 0 steps of engines refused\nem_guest: %b/dying.em has 2 lines: ./em_debug %b/dying.em\n"
                % (bytes(room), bytes(room)))
    (room / "there.em").write_text("mine\n")
    for words, status, sentence in (
        (["--run", room / "there.em", "--listen", room / "x"], 3, "it is there already; --over writes over it"),
        (["--run", room / "no" / "where", "--listen", room / "x"], 3, "No such file"),
        (["--run", room / "a.em", "--listen", room / ("x" * 200)], 3, "a socket's path has 1 to"),
        (["--run", room / "e.em", "--listen", room / "there.em"], 3, "--listen .*: Address already in use"),
        (["--run", room / "f.em", "--listen", room / "x", "--pcap-out", room / "there.em"], 3,
         "--pcap-out .*: it is there already"),
        (["--listen", room / "x", "--pcap-in", room / "no.pcap"], 3, "--pcap-in .*: No such file"),
        (["--listen", room / "x", "--net", f"unix:{room}/there.em:b"], 3, "--net unix:.*: Address already in use"),
        (["--run", room / "c.em", "--", room / "no-qemu"], 3, "can't be started: No such file"),
        ([], 2, "either a QEMU behind -- is wanted"), (["--"], 2, "behind -- a QEMU is wanted"),
        (["--bogus"], 2, "--bogus is no option"), (["--run"], 2, "its value is missing"),
        (["--listen", "x", "--over", "--run", room / "there.em", "--pcap-in", f"{room}/./there.em"], 2,
         "--run .*there.em: it is the file of --pcap-in too, and would be written over"),
        (["--listen", "x", "--run", "n.em", "--pcap-out", "n.em"], 2, "--pcap-out n.em: it is the file of --run too"),
        (["--run", "a", "--run", "b"], 2, "stands twice"), (["--pc", "--pc"], 2, "--pc stands twice"),
        (["--mac", "525400123456", "--mac", "525400123456"], 2, "stands twice"), (["--irq", "/a:1"] * 5, 2, "four times"), (["--mac", "5254001234"], 2, "12 hexadecimal digits"),
        (["--slot", "32"], 2, "1 to 31"), (["--profile", "linux"], 2, "--profile: table or adapter is wanted"), (["--irq", "x"], 2, "PATH:NUMBER"), (["--net", "tap", "--", "q"], 2, "user, user,.. or unix"),
        (["--listen", "x", "--pc"], 2, "go with a QEMU behind --"), (["--name", "x"], 2, "--symbols is missing"),
        (["--listen", "x", "--net", "user"], 2, "the wire is unix"), (["--qtest", "x", "--", "q"], 2, "goes with --listen"),
        (["--print", "--", "q", "-m", "many"], 2, "its size can't be read"),
        (["--listen", "x", "--net", "unix:a"], 3, "two paths are wanted"),
    ):
        given = ["--over", "--run", room / "d.em", *words] if status == 3 and "--run" not in words else words
        ran = run([room / "em_guest", *given], env=dict(os.environ, ASAN_OPTIONS="detect_leaks=1"))
        told = ran.stderr.decode()
        well = ran.returncode == status and re.search(sentence, told) and told.startswith("em_guest: ")
        tally.check(f"em_guest {' '.join(map(str, words))}", [] if well else [f"status {ran.returncode}: {told}"])
    version = re.search(r'EM_VERSION "(.*)"', (LIBRARY / "bunjelav.h").read_text())[1]
    tally.ended("--version", run([room / "em_guest", "--version"]), 0, f"em_guest {version}\n".encode(), b"")
    tally.check("a file that was there", differ({"it": ((room / "there.em").read_text(), "mine\n")}))


def printed(tally: Tally, room: Path) -> None:
    """The words for QEMU, by what the user's are."""
    cases = {
        ("-m", "1G"): ["size=1073741824,", "memory-backend=bunjelav-memory", "-nic none", "-qtest chardev:qtest"],
        ("-m", "size=64M,slots=2"): ["size=67108864,"], (): ["size=134217728,"], ("-m", "512k"): ["size=524288,"],
        ("-accel", "kvm"): ["!qtest"], ("-machine", "q35,accel=kvm"): ["!qtest"], ("-enable-kvm",): ["!qtest"],
        ("-object", "memory-backend-file,id=m"): ["!memory-backend-memfd"], ("-nic", "user"): ["-nic user", "!-nic none"],
        ("it's",): ["'it'\\''s'"],
    }
    for words, wanted in cases.items():
        ran = run([room / "em_guest", "--slot", "4", "--print", "--", "qemu", *words])
        line = ran.stdout.decode()
        faults = [f"{text} in {line}" for text in wanted if (text.lstrip("!") in line) == text.startswith("!")]
        faults += [] if "x-pci-proxy-dev,id=bunjelav,addr=4,fd=100" in line and line.count("\n") == 1 else [line]
        tally.check(f"--print -- qemu {' '.join(words)}", faults)
    for words, sentence in ((["-smp", "2"], "may be another one's"), (["-smp", "cpus=4,cores=2"], "may be another one's"),
                            (["-smp", "1,maxcpus=2"], ""), (["-smp", "cpus=1"], ""), ([], ""),
                            (["-accel", "kvm", "-smp", "2"], "with KVM no program counter is known")):
        told = run([room / "em_guest", "--pc", "--print", "--", "qemu", *words]).stderr.decode()
        tally.check(f"--pc -- qemu {' '.join(words)}", [] if (sentence in told) and bool(told) == bool(sentence) else [told])


def named(tally: Tally, room: Path) -> None:
    """Names for program counters, of a program and of a module that lies somewhere."""
    source, program, kept = room / "driver.c", room / "driver.o", room / "named.em"
    (room / "io.h").write_text("static inline void put(volatile int *at) {\n  *at = 1;\n}\n")
    source.write_text('#include "io.h"\n\nvoid poke(int *at) {\n  put(at);\n}\n')
    ran = run(["cc", "-g", "-O2", "-c", source, "-o", program])
    text = ("w 03818 00000001 @ 0xC0000000 # a remark\npoke 1000 00 @ before 0xC0000000\nr 8 @ 0x10\nr 8 @ 0xFFFFFFFFFFFFFFFF\n"
            "# @ 0xnone\nr 8 = 00000083\n")
    kept.write_text(text)
    ran = run([room / "em_guest", "--name", kept, "--symbols", f"{program}@0xC0000000"])
    lines = kept.read_text().splitlines()
    first = re.fullmatch(r"w 03818 00000001 @ poke\(\), driver\.c:[34] # a remark", lines[0])
    second = re.fullmatch(r"poke 1000 00 @ before poke\(\), driver\.c:[34]", lines[1])
    tally.check("--name", differ({"status": (ran.returncode, 0), "names": (bool(first and second), True),
                                  "others": (lines[2:], text.splitlines()[2:])}) + ([] if first else lines[:2]))
    # a program without lines has functions alone
    run(["strip", "--strip-debug", program])
    kept.write_text(text)
    ran = run([room / "em_guest", "--name", kept, "--symbols", f"{program}@0xC0000000"])
    tally.check("--name, without lines", differ({"status": (ran.returncode, 0), "lines": (
        kept.read_text().splitlines(), ["w 03818 00000001 @ poke() # a remark", "poke 1000 00 @ before poke()", *text.splitlines()[2:]])}))
    for words, sentence in ((["--symbols", f"{program}@xyz"], "in hexadecimal digits"),
                            (["--symbols", room / "nothing"], "addr2line can't read it")):
        before = kept.read_text()
        ran = run([room / "em_guest", "--name", kept, *words])
        tally.check(f"--name {words[1]}", differ({
            "status": (ran.returncode, 3), "told": (sentence in ran.stderr.decode(), True),
            "the run": (kept.read_text(), before)}))


PARTS = (files, printed, named)
