"""The driver of examples/c that logs what it writes into memory: its log becomes a script, in which the adapter finds the
descriptors and the packets where the driver put them."""
import re
import shutil
import tempfile
from pathlib import Path

from preload import not_run
from tally import TOP, Tally, run

GIVEN = TOP / "dist" / "x86_64-linux"
WORDS = ["cc", "-std=c99", "-pedantic", "-Wall", "-Wextra", "-Werror", "-g", "-fsanitize=address,undefined",
         "-fno-sanitize-recover=all", f"-I{GIVEN}", TOP / "examples/c/traced.c", GIVEN / "libbunjelav.a"]
OWN, OTHER = "525400123456", "020000000001"
# packet N is of N + 1, again and again; each other one is long
PAYLOADS = [bytes([number + 1]) * (1500 if number % 2 else 46) for number in range(12)]
SENT = [f"{OTHER}{OWN}0000{payload.hex().upper()}" for payload in PAYLOADS]
CAME = [f"{OWN}{OTHER}0000{payload.hex().upper()}" for payload in PAYLOADS]
BUFFERS, SIZE, COUNT, MOST_IN_LINE = 0x4000, 2048, 8, 1024


def try_traced_driver(tally: Tally, em_trace: str, em_debug: Path) -> None:
    if not shutil.which("cc"):
        not_run(tally, "a driver's log with what it writes into memory: there is no C compiler here")
        return
    with tempfile.TemporaryDirectory() as folder:
        program, capture, log = (Path(folder) / name for name in ("traced", "answers.pcap", "traced.log"))
        made = run([*WORDS, "-o", program])
        tally.check("traced.c", [made.stderr.decode()] if made.returncode or made.stderr else [])
        ran = run([program, capture])
        tally.ended("traced", ran, 0, b"12 of 12 packets were answered\n", None)
        log.write_bytes(ran.stderr)
        tally.check("traced, its log", log_faults(ran.stderr.decode()))
        ran = run([em_trace, "--frames", capture, log])
        tally.ended("the log of traced", ran, 0, None, None)
        script = ran.stdout
        tally.check("the times of traced", times_faults(log.read_text(), script.decode()))
        (Path(folder) / "traced.em").write_bytes(script)
        ran = run([em_debug, "--compare", Path(folder) / "traced.em"])
        is_so = re.fullmatch(rb"agreed 3, known 12, differed 0, bad 0, warnings \d+\n", ran.stdout)
        tally.check("the script of traced", [] if ran.returncode == 0 and is_so else [f"{ran}"])
        tally.check("what the script of traced does", played(em_debug, script.decode()))


def times_faults(log: str, script: str) -> list[str]:
    """Each line has its time, a microsecond after the one before it, and each access has it in the script."""
    times = re.findall(r"(?m)^\[ {4}(1\.\d{6})\] (read|write|mem) ", log)
    wanted = [time for time, word in times if word != "mem"]
    faults = [] if [time for time, _ in times] == [f"1.{at:06}" for at in range(len(log.splitlines()))] else ["its times"]
    told = re.findall(r"(?m)^[rw] .* # (1\.\d{6})$", script)
    return faults + ([] if told and set(told) <= set(wanted) and script.count("\nw ") - 1 == sum(
        word == "write" for _, word in times) else [f"the script has {told[:3]}, and not {wanted[:3]}"])


def log_faults(log: str) -> list[str]:
    """A packet stands in the log as it was sent, in lines of at most so many octets."""
    octets = re.findall(r"(?m)^\[ {4}1\.\d{6}\] mem 0x[0-9A-F]+ ([0-9A-F]+)$", log)
    longest = max(len(line) // 2 for line in octets)
    packet = SENT[1][: 2 * MOST_IN_LINE], SENT[1][2 * MOST_IN_LINE :]
    is_there = packet in zip(octets, octets[1:])
    return [] if longest == MOST_IN_LINE and is_there else [f"lines have up to {longest} octets", *octets[:3]]


def played(em_debug: Path, script: str) -> list[str]:
    """With a step of the transmit engine behind each tail that is written the packets are sent, and each answer lies in
    the buffer that the driver gave for it. No answer differs then, for whatever cause."""
    script = re.sub(r"(?m)^(w 03818 .*)$", r"\1\ntx", script)
    looks = [f"peek {BUFFERS + SIZE * (number % COUNT):X} {len(CAME[number]) // 2}" for number in range(4, len(CAME))]
    ran = run([em_debug, "--batch", "-"], "\n".join([script, "wire", *looks, ""]).encode())
    told = ran.stdout.decode()
    faults = [] if ran.returncode == 0 and "agreed 15, differed 0, bad 0" in told else [told[-500:]]
    if re.findall(r"sent \d+ (\d+)", told) != [str(len(frame) // 2) for frame in SENT]:
        faults.append("other frames are sent")
    faults += [f"{frame[:40]} was not sent" for frame in SENT if f" {frame}\n" not in told]
    return faults + [f"{frame[:40]} is not in its buffer" for frame in CAME[4:] if told.count(f"{frame}\n") != 1]
