"""The other end of em_guest's wire, with a QEMU that is played: a program, and a TAP device of the host's."""
import fcntl
import os
import re
import select
import shutil
import socket
import struct
import sys
from pathlib import Path

from guest_tools import FRAME, Guest, differ, ended, set_up_rings
from played_qemu import PlayedQemu, transmit_descriptor, until
from tally import TOP, Tally, run

# A peer that sends what it is told to, and then keeps what comes: each frame's length and octets, in hexadecimal digits.
PEER = """
import os, sys, time
room = sys.argv[1]
while not os.path.exists(room + "/ready"): time.sleep(0.02)
sys.stdout.buffer.write(bytes.fromhex(open(room + "/sends").read()))
sys.stdout.buffer.flush()
while not os.path.exists(room + "/go"): time.sleep(0.02)
with open(room + "/came", "w") as came:
    while len(head := sys.stdin.buffer.read(2)) == 2:
        frame = sys.stdin.buffer.read(int.from_bytes(head, "big"))
        came.write(frame.hex() + "\\n")
        came.flush()
        if frame[12:14] == b"\\xff\\xff": break
"""
ETH_P_ALL, SIOCSIFFLAGS, IFF_UP = 3, 0x8914, 1


def framed(*frames: bytes) -> bytes:
    return b"".join(len(frame).to_bytes(2, "big") + frame for frame in frames)


def tells(guest: Guest) -> bool:
    """Whether it comes to tell something, which is not taken yet."""
    return bool(select.select([guest.process.stderr], [], [], 60)[0])


def send(qemu: PlayedQemu, frames: list[bytes], tail: int = 0) -> None:
    """The guest sends frames, from descriptor `tail` on."""
    for i, frame in enumerate(frames):
        qemu.poke(0x40000 + 0x4000 * i, frame)
        qemu.poke(0x2000 + 16 * ((tail + i) % 8), transmit_descriptor(0x40000 + 0x4000 * i, len(frame)))
    qemu.write(0x3818, (tail + len(frames)) % 8)


def peer(tally: Tally, room: Path) -> None:
    """Frames both ways, each behind its length; what is no frame is passed over; the program ends, and the guest goes on."""
    folder = room / "peer-room"
    folder.mkdir()
    (folder / "peer.py").write_text(PEER)
    sends = framed(FRAME, b"", bytes(30000), FRAME[:20], FRAME + b"x")
    (folder / "sends").write_text(sends.hex())
    guest = Guest(room, "peer", "--peer", f"exec {sys.executable} {folder}/peer.py {folder}")
    qemu = guest.qemu()
    qemu.boot()
    set_up_rings(qemu, 0)
    (folder / "ready").touch()
    seen = {"received": (until(lambda: qemu.read(0x2810) == 3), True),
            "the first": (qemu.peek(0x10000, 60), FRAME), "a short one": (qemu.peek(0x11000, 60), FRAME[:20] + bytes(40)),
            "the third": (qemu.peek(0x12000, 61), FRAME + b"x")}
    # the program reads nothing yet: what it does not take is lost, and nothing waits for it
    long, most = FRAME[:14] + bytes(15000), 7
    for turn in range(20):
        send(qemu, [long] * most, turn * most % 8)
    seen["all are gone from the ring"] = (until(lambda: qemu.read(0x3810) == 20 * most % 8), True)
    (folder / "go").touch()
    until(lambda: (folder / "came").exists())
    # (as long as the program has not caught up, what is sent is lost)
    last, tail, ends = FRAME[:12] + b"\xff\xff" + bytes(46), 20 * most % 8, False
    for _ in range(100):
        send(qemu, [last], tail)
        tail = (tail + 1) % 8
        ends = until(lambda: (folder / "came").read_text().endswith(f"{last.hex()}\n"), 1)
        if ends:
            break
    seen["the program ends"] = (ends, True)
    seen["that is told"] = (tells(guest), True)
    send(qemu, [FRAME], tail)
    seen["the guest goes on"] = (until(lambda: qemu.read(0x3810) == (tail + 1) % 8), True)
    came = (folder / "came").read_text().split()
    whole = [long.hex()] * (len(came) - 1)
    seen["each frame is whole"] = (came[:-1] == whole and 2 < len(came) < 20 * most, True)
    tally.check("--peer", differ(seen))
    qemu.close()
    ended(tally, "--peer, the end", guest, 0, "3 frames arrived", "the program has closed its end",
          r"the wire's other end did not take \d+ of the frames")


def returned(tally: Tally, room: Path) -> None:
    """The program of docs/guest.md: what the guest sends comes back, with its addresses turned."""
    page = (TOP / "docs" / "guest.md").read_text()
    program = re.search(r"^    import sys\n(?:    .*\n)+", page, re.M)[0]
    (room / "returns.py").write_text("\n".join(line[4:] for line in program.splitlines()) + "\n")
    guest = Guest(room, "returned", "--peer", f"exec {sys.executable} {room}/returns.py")
    qemu = guest.qemu()
    qemu.boot()
    set_up_rings(qemu, 0)
    send(qemu, [FRAME])
    came = until(lambda: qemu.read(0x2810) == 1)
    tally.check("a peer that sends back", differ({
        "it came": (came, True), "it": (qemu.peek(0x10000, 60), FRAME[6:12] + FRAME[:6] + FRAME[12:])}))
    qemu.close()
    ended(tally, "a peer that sends back, the end", guest, 0, "1 frames arrived, 0 were dropped, 1 were sent")


def no_peer(tally: Tally, room: Path) -> None:
    """A program that ends at once, one that sends half a frame, and one that does not end when it is asked to."""
    for name, command, sentence in (("ends", "exit 3", "has closed its end"), ("half", "printf '\\0\\100abc'", "has closed its end"),
                                    ("deaf", "trap '' TERM; while :; do sleep 0.2; done", "3 accesses")):
        guest = Guest(room, f"peer {name}", "--peer", command)
        qemu = guest.qemu()
        qemu.boot()
        set_up = [qemu.read(8) for _ in range(2)]
        told = name == "deaf" or tells(guest)
        value = qemu.read(8)
        qemu.close()
        tally.check(f"a peer that is {name}", differ({"answers": ([*set_up, value], [0x83] * 3), "told": (told, True)}))
        ended(tally, f"a peer that is {name}, the end", guest, 0, sentence, "0 frames arrived")


def tap(tally: Tally, room: Path) -> None:
    """A TAP device, in a network of its own where nobody else is."""
    if not shutil.which("unshare") or not os.access("/dev/net/tun", os.W_OK) or run(["unshare", "-rn", "true"]).returncode:
        print("not run: --tap, which takes /dev/net/tun and a network namespace of its own", flush=True)
        return
    ran = run(["unshare", "-rn", sys.executable, __file__, room], cwd=TOP / "tests", timeout=120)
    told = ran.stdout.decode() + ran.stderr.decode()
    tally.check("--tap", [] if ran.returncode == 0 and re.search("^[1-9][0-9]* passed, 0 failed$", told, re.M) else [told])


def tap_inside(room: Path) -> int:
    """What `tap` tries, in that network: it is root there."""
    tally = Tally()
    guest = Guest(room, "tap", "--tap", "bunjelav0")
    qemu = guest.qemu()
    qemu.boot()
    set_up_rings(qemu, 0)
    send(qemu, [FRAME])
    seen = {"a device that is down": (until(lambda: qemu.read(0x3810) == 1), True)}
    host = socket.socket(socket.AF_PACKET, socket.SOCK_RAW, socket.htons(ETH_P_ALL))
    fcntl.ioctl(host, SIOCSIFFLAGS, struct.pack("16sH14x", b"bunjelav0", IFF_UP))
    host.bind(("bunjelav0", 0))
    host.settimeout(60)
    send(qemu, [FRAME + b"sent"], 1)
    came = host.recv(2000)
    while came[:14] != FRAME[:14]:
        came = host.recv(2000)
    seen["sent"] = (came, FRAME + b"sent")
    host.send(FRAME + b"received")
    wanted = (FRAME + b"received").hex().upper()
    seen["received"] = (until(lambda: f"arrive {wanted} = stored" in guest.kept.read_text()), True)
    second = run([room / "em_guest", "--run", room / "tap-2.em", "--listen", room / "tap-2", "--tap", "bunjelav0"])
    seen["it is one's only"] = (b"--tap bunjelav0: Device or resource busy" in second.stderr, True)
    tally.check("--tap", differ(seen))
    host.close()
    qemu.close()
    ended(tally, "--tap, the end", guest, 0, "2 were sent", "did not take 1 of the frames")
    return tally.close()


def words(tally: Tally, room: Path) -> None:
    for given, status, sentence in (
        (["--tap", "x" * 16], 3, "a device's name has 1 to 15 octets"), (["--tap", ""], 3, "1 to 15 octets"),
        (["--tap", "a", "--peer", "b"], 2, "the wire has one other end"),
        (["--net", "unix:a:b", "--peer", "b"], 2, "the wire has one other end"), (["--peer"], 2, "its value is missing"),
    ):
        ran = run([room / "em_guest", "--run", room / "words.em", "--over", "--listen", room / "words", *given],
                  env=dict(os.environ, ASAN_OPTIONS="detect_leaks=1"))
        told = ran.stderr.decode()
        well = ran.returncode == status and sentence in told
        tally.check(f"em_guest {' '.join(given)}", [] if well else [f"status {ran.returncode}: {told}"])


PARTS = (peer, returned, no_peer, tap, words)

if __name__ == "__main__":
    sys.exit(tap_inside(Path(sys.argv[1])))
