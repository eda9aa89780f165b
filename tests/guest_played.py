"""em_guest with a QEMU that is played: interrupts, captures, and all that a QEMU may do wrong."""
import os
import signal
import socket
import struct
import subprocess
import time
from pathlib import Path

from guest_tools import FRAME, RECEIVING, Guest, counted_run, differ, ended, set_up_rings
from played_qemu import BAR_READ, CONFIG_READ, SET_INTERRUPT, SYNC_MEMORY, message, transmit_descriptor, until
from tally import Tally, run

# ---- interrupts by -qtest, and captures


def by_qtest(tally: Tally, room: Path) -> None:
    listener = socket.socket(socket.AF_UNIX, socket.SOCK_STREAM)
    listener.bind(str(room / "qtest-socket"))
    listener.listen(1)
    listener.settimeout(60)
    guest = Guest(room, "qtest", "--qtest", str(room / "qtest-socket"), "--irq", "/machine/a:11", "--irq", "/machine/b:3")
    qemu = guest.qemu()
    qemu.boot()
    qemu.write(0xD0, 4)
    qemu.write(0xC8, 4)
    qtest, _ = listener.accept()
    qtest.settimeout(60)
    qtest.sendall(b"OK\nFAIL Unknown device\n")
    qemu.config_write(4, 2, 0x0407)
    qemu.config_write(4, 2, 7)
    qemu.read(0xC0)
    wanted = "".join(f"set_irq_in /machine/{path} unnamed-gpio-in {number} {level}\n"
                     for level in (1, 0, 1, 0) for path, number in (("a", 11), ("b", 3)))
    got = b""
    while len(got) < len(wanted):
        got += qtest.recv(4096)
    tally.check("interrupts by -qtest", differ({"lines": (got.decode(), wanted)}))
    time.sleep(0.1)
    qtest.close()
    qemu.write(0xC8, 4)
    qemu.close()
    ended(tally, "interrupts by -qtest, the end", guest, 0, "says FAIL Unknown device: --irq names an input")
    listener.close()
    guest = Guest(room, "no-qtest", "--qtest", str(room / "none"), "--irq", "/machine/a:11")
    qemu = guest.qemu()
    qemu.boot()
    qemu.write(0xD0, 4)
    for _ in range(3):
        qemu.write(0xC8, 4)
        qemu.read(0xC0)
    qemu.close()
    told = ended(tally, "no -qtest", guest, 0, "--qtest .*/none: No such file or directory: the guest has no interrupts")
    tally.check("no -qtest, told once", differ({"times": (told.count("--qtest"), 1)}))


def capture_in(tally: Tally, room: Path) -> None:
    """Frames at their times, from the first receiving on; a capture that is cut short."""
    frames = [(0, 0, FRAME), (0, 300_000, FRAME[:20]), (0, 0, FRAME + b"x")]
    octets = struct.pack("<IHHiIII", 0xA1B2C3D4, 2, 4, 0, 0, 65535, 1)
    octets += b"".join(struct.pack("<IIII", s, us, len(f), len(f)) + f for s, us, f in frames) + b"cut"
    (room / "in.pcap").write_bytes(octets)
    guest = Guest(room, "capture", "--pcap-in", str(room / "in.pcap"))
    qemu = guest.qemu()
    qemu.boot()
    time.sleep(0.1)
    began = time.monotonic()
    set_up_rings(qemu, 0)
    first = until(lambda: qemu.read(0x2810) >= 1)
    third = until(lambda: qemu.read(0x2810) == 3)
    passed = time.monotonic() - began
    tally.check("--pcap-in", differ({
        "the first": (first, True), "the others": (third and passed > 0.25, True),
        "the second": (qemu.peek(0x11000, 60), FRAME[:20] + bytes(40)), "the third": (qemu.peek(0x12000, 61), FRAME + b"x")}))
    qemu.close()
    ended(tally, "--pcap-in, the end", guest, 0, "3 frames arrived", "cut short, or damaged")
    (room / "long.pcap").write_bytes(octets[:24] + struct.pack("<IIII", 1, 0, 0x20000, 0x20000) + bytes(0x20000))
    guest = Guest(room, "long", "--pcap-in", str(room / "long.pcap"))
    qemu = guest.qemu()
    qemu.boot()
    qemu.write(0x0100, RECEIVING)
    time.sleep(0.3)
    qemu.close()
    ended(tally, "--pcap-in of a frame that is too long", guest, 0, "0 frames arrived", "cut short, or damaged")
    (room / "none.pcap").write_bytes(b"none")
    ran = run([room / "em_guest", "--run", room / "n.em", "--listen", room / "n", "--pcap-in", room / "none.pcap"])
    tally.ended("--pcap-in of what is none", ran, 3, b"",
                f"em_guest: --pcap-in {room}/none.pcap: it is no capture of Ethernet frames in pcap's classic form\n".encode())


# ---- what a QEMU may do wrong


def rubbish(tally: Tally, room: Path) -> None:
    """Each mistake ends the session with one sentence; a QEMU that dies ends it without one."""
    many_files = [os.open("/dev/null", os.O_RDWR) for _ in range(9)]
    mistakes = {
        "no command": (message(99), (), "a command that QEMU does not send"),
        "a negative command": (message(-1), (), "a command that QEMU does not send"),
        "an answer": (message(1, bytes(8)), (), "a command that QEMU does not send"),
        "another size": (message(CONFIG_READ, bytes(8)), (), "another size than its command has"),
        "a huge size": (message(BAR_READ, b"", 2**63), (), "another size than its command has"),
        "no descriptor": (message(SYNC_MEMORY, bytes(192)), (), "another number of descriptors"),
        "one of two": (message(SET_INTERRUPT), many_files[:1], "another number of descriptors"),
        "nine": (message(SYNC_MEMORY, bytes(192)), many_files, "more descriptors than eight"),
        "a descriptor too much": (message(CONFIG_READ, bytes(12)), many_files[:1], "another number of descriptors"),
    }
    for name, (octets, files, sentence) in mistakes.items():
        guest = Guest(room, f"wrong {name}")
        qemu = guest.qemu()
        qemu.boot()
        qemu.send(octets, tuple(files))
        ended(tally, f"{name}, from QEMU", guest, 1, f"QEMU's socket is closed: .*{sentence}")
        qemu.close()
    for name, octets in (("in a header", message(BAR_READ)[:9]), ("in its data", message(BAR_READ, bytes(24))[:30])):
        guest = Guest(room, f"dies {name}")
        qemu = guest.qemu()
        qemu.boot()
        qemu.send(octets)
        qemu.close()
        ended(tally, f"a QEMU that dies {name}", guest, 0, "accesses of registers")
    for file in many_files:
        os.close(file)


def impatient(tally: Tally, room: Path) -> None:
    """Many messages at once are answered one by one; a QEMU that takes no answers is given up."""
    guest = Guest(room, "impatient")
    qemu = guest.qemu()
    one = message(CONFIG_READ, struct.pack("<IIi", 0, 0, 4))
    qemu.send(one * 150)
    answers = [qemu.answer() for _ in range(150)]
    tally.check("150 messages at once", differ({"answers": (set(answers), {0x100E8086})}))
    try:
        for _ in range(100):
            qemu.send(one * 100)
    except OSError:
        pass
    ended(tally, "answers that are not taken", guest, 1, "QEMU's socket is closed: it takes no answer")
    qemu.close()


def stubborn(tally: Tally, room: Path) -> None:
    """Programs in QEMU's place: one that closes the socket and goes on, and one that does not end when it is asked to."""
    go = room / "go"
    words = ["bash", "-c", f"exec 100>&- 102>&-; until [ -e {go} ]; do sleep 0.1; done; exit 7"]
    process = subprocess.Popen([room / "em_guest", "--run", room / "closes.em", "--", *words], stderr=subprocess.PIPE)
    told = process.stderr.readline()
    go.touch()
    process.communicate(timeout=120)
    tally.check("a QEMU that gives the adapter up", differ({
        "status": (process.returncode, 7),
        "told": (told, b"em_guest: QEMU has given the adapter up, and goes on without it\n")}))
    for closes in ("", "os.close(100); "):
        ready = room / f"ready{closes}"
        code = f"import os, signal, time; signal.signal(15, signal.SIG_IGN); {closes}open({str(ready)!r}, 'w'); time.sleep(300)"
        process = subprocess.Popen([room / "em_guest", "--over", "--run", room / "deaf.em", "--", "python3", "-c", code],
                                   stderr=subprocess.PIPE)
        until(ready.exists)
        time.sleep(3.3 if closes else 0)
        process.send_signal(signal.SIGTERM)
        _, err = process.communicate(timeout=120)
        tally.check(f"a QEMU that is deaf to a signal {closes}", differ({
            "status": (process.returncode, 128 + signal.SIGTERM), "told": (b"ended by signal 15" in err, True)}))


def halves(tally: Tally, room: Path) -> None:
    """While half a message is there, the wire goes on, a second QEMU is turned away, and signals end it."""
    wire = room / "half"
    own = socket.socket(socket.AF_UNIX, socket.SOCK_DGRAM)
    own.bind(str(wire))
    guest = Guest(room, "halves", "--net", f"unix:{wire}.guest:{wire}")
    qemu = guest.qemu()
    qemu.boot()
    set_up_rings(qemu, 0)
    whole = message(CONFIG_READ, struct.pack("<IIi", 0, 0, 2))
    qemu.send(whole[:20])
    own.sendto(FRAME, str(wire) + ".guest")
    seen = {"the wire": (until(lambda: qemu.peek(0x100C, 1) == b"\x07"), True)}
    second = socket.socket(socket.AF_UNIX, socket.SOCK_STREAM)
    second.connect(str(guest.path))
    second.settimeout(60)
    seen["a second QEMU"] = (second.recv(1), b"")
    second.close()
    qemu.send(whole[20:])
    seen["the other half"] = (qemu.answer(), 0x8086)
    tally.check("half a message", differ(seen))
    guest.process.send_signal(signal.SIGTERM)
    ended(tally, "half a message, the end", guest, 128 + signal.SIGTERM, "a second QEMU was turned away", "ended by signal 15")
    tally.check("the socket's path", differ({"it": (guest.path.exists(), False)}))
    qemu.close()
    own.close()
    waits = Guest(room, "waits")
    until(waits.path.exists)
    waits.process.send_signal(signal.SIGINT)
    ended(tally, "a signal before a QEMU came", waits, 128 + signal.SIGINT, "ended by signal 2")


def killed(tally: Tally, room: Path) -> None:
    """Each access is in the run before it is answered, and so are the steps behind it: whatever ends em_guest."""
    guest = Guest(room, "killed")
    qemu = guest.qemu()
    qemu.boot()
    set_up_rings(qemu, 0)
    qemu.poke(0x20000, FRAME)
    qemu.poke(0x2000, transmit_descriptor(0x20000, 60) * 4)
    ends = []
    for tail in (1, 2, 4):
        qemu.read(8)
        ends.append(guest.kept.read_text().splitlines()[-1])
        qemu.write(0x3818, tail)
        ends.append(guest.kept.read_text().splitlines()[-1])
    guest.process.kill()
    guest.process.communicate()
    qemu.close()
    status = "r 00008 = 00000083"
    tally.check("the run's end at each answer", differ({"it": (
        ends, [status, "tx = sent 0 60", status, "tx = sent 1 60", status, "tx = sent 3 60"])}))
    counted_run(tally, "killed, played again", guest.kept, 7)


PARTS = (by_qtest, capture_in, rubbish, impatient, stubborn, halves, killed)
