"""em_guest with U-Boot as Debian has it: it stands in the place of a PC's firmware, and somebody types at it."""
import os
import re
import zlib
from pathlib import Path

import guest_packages
from guest_real import MACHINE, terminal
from guest_tools import counted_run, differ, tail_asked
from tally import TOP, Tally

OCTETS, PLACE = 300_000, 0x1000000
MAC = "52:54:00:ab:cd:ef"
PROMPT = b"=> "


def boots(tally: Tally, room: Path, qemu: str) -> None:
    """An address by DHCP, a ping, and a file by TFTP, whose CRC-32 is that of the file."""
    firmware = guest_packages.u_boot()
    if not firmware:
        print("not run: U-Boot, which apt has not", flush=True)
        return
    served, kept = room / "tftp", room / "uboot.em"
    served.mkdir()
    (served / "file").write_bytes(octets := os.urandom(OCTETS))
    typed = ["setenv autoload no", "dhcp", "ping 10.0.2.2", f"tftpboot {PLACE:x} 10.0.2.2:file",
             f"crc32 {PLACE:x} {OCTETS:x}", "reset"]
    status, told = terminal(
        [TOP / "em_guest", "--run", kept, "--pc", "--mac", MAC, "--net", f"user,tftp={served}", "--profile", "adapter",
         "--", qemu, "-machine", "pc,graphics=off", *MACHINE, "-m", "128", "-bios", firmware],
        [(b"stop autoboot", b" ")] + [(PROMPT, f"{line}\r".encode()) for line in typed])
    tally.check("U-Boot", differ({
        "status": (status, 0), "its address": (f"e1000: {MAC}" in told, True),
        "DHCP": ("DHCP client bound to address 10.0.2.15" in told, True),
        "ping": ("host 10.0.2.2 is alive" in told, True),
        "TFTP": (f"Bytes transferred = {OCTETS} " in told, True),
        "CRC-32": (re.findall(r"==> (\w{8})", told), [f"{zlib.crc32(octets):08x}"]),
        "none is refused": (bool(re.search(r" 0 refused; .* 0 were dropped, .* 0 steps of engines", told)), True)})
        + ([] if status == 0 else [told[-2000:]]))
    counted_run(tally, "U-Boot, played again", kept, 2000)
    number, who = tail_asked(kept, room)
    tally.check("U-Boot, who TDT", [] if re.search(rf"line {number} @ 0x\w+, event \d+: write TDT", who) else [who])
