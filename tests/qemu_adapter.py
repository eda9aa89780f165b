"""QEMU's e1000, an 82540EM, driven from outside over QEMU's qtest protocol.

Its processor does nothing: its firmware is a halt. Each access of a register goes through `read` and `write`, and QEMU
traces it (`memory_region_ops_read`, `memory_region_ops_write`). Guest memory is written and read without a trace.
"""

import os
import shutil
import socket
import subprocess
import tempfile
import time

QEMU = "qemu-system-x86_64"
BAR0 = 0xFEBC0000
MAC = "52:54:00:12:34:56"

# where PCI's configuration space is reached, and the adapter's place in it: bus 0, device 2
CONFIG_ADDRESS, CONFIG_DATA = 0xCF8, 0xCFC
ADAPTER = 0x80001000
COMMAND, BAR0_REGISTER = 0x04, 0x10
MEMORY_AND_MASTER = 6

# of the firmware's 64 KiB only the place where the processor begins: cli, hlt, and back to hlt
FIRMWARE, RESET_VECTOR, HALT = 65_536, 0xFFF0, bytes([0xFA, 0xF4, 0xEB, 0xFD])


def is_there():
    """Whether QEMU is installed."""
    return shutil.which(QEMU) is not None


class Adapter:
    """A running QEMU with an adapter. `log` is the file that its trace is written to."""

    def __init__(self, log, region=BAR0):
        self.region = region
        self.folder = tempfile.mkdtemp(prefix="qemu")
        firmware = bytearray(FIRMWARE)
        firmware[RESET_VECTOR : RESET_VECTOR + len(HALT)] = HALT
        bios = os.path.join(self.folder, "bios")
        with open(bios, "wb") as file:
            file.write(firmware)
        ours, theirs = (os.path.join(self.folder, name) for name in ("ours", "theirs"))
        self.wire = socket.socket(socket.AF_UNIX, socket.SOCK_DGRAM)
        self.wire.bind(ours)
        net = f"dgram,id=n,local.type=unix,local.path={theirs},remote.type=unix,remote.path={ours}"
        words = [QEMU, "-machine", "pc", "-m", "16", "-display", "none", "-vga", "none", "-nodefaults", "-bios", bios]
        words += ["-netdev", net, "-device", f"e1000,addr=2,netdev=n,mac={MAC}"]
        words += ["-qtest", "stdio", "-qtest-log", "none"]
        words += ["-trace", "memory_region_ops_read", "-trace", "memory_region_ops_write", "-D", log]
        pipe = subprocess.PIPE
        self.process = subprocess.Popen(words, stdin=pipe, stdout=pipe, stderr=subprocess.DEVNULL, text=True)
        self.theirs = theirs
        self.configure(BAR0_REGISTER, region)
        self.configure(COMMAND, MEMORY_AND_MASTER)

    def __enter__(self):
        return self

    def __exit__(self, *_):
        self.process.stdin.close()
        self.process.terminate()
        self.process.wait()
        self.wire.close()
        shutil.rmtree(self.folder)

    def ask(self, line):
        """Sends a line of the protocol, and gives the words of the answer behind OK."""
        self.process.stdin.write(line + "\n")
        self.process.stdin.flush()
        while True:
            words = self.process.stdout.readline().split()
            if words and words[0] == "OK":
                return words[1:]
            if not words or words[0] != "IRQ":
                raise RuntimeError(f"QEMU answers {words} to {line}")

    def configure(self, register, value):
        self.ask(f"outl {CONFIG_ADDRESS:#x} {ADAPTER | register:#x}")
        self.ask(f"outl {CONFIG_DATA:#x} {value:#x}")

    def read(self, offset):
        return int(self.ask(f"readl {self.region + offset:#x}")[0], 16)

    def write(self, offset, value):
        self.ask(f"writel {self.region + offset:#x} {value:#x}")

    def poke(self, address, octets):
        self.ask(f"write {address:#x} {len(octets):#x} 0x{octets.hex()}")

    def peek(self, address, size):
        return bytes.fromhex(self.ask(f"read {address:#x} {size:#x}")[0][2:])

    def send(self, frame):
        """A frame goes onto the adapter's wire."""
        self.wire.sendto(frame, self.theirs)

    def wait_for(self, address, octets, seconds=5):
        """Waits until these octets stand in guest memory."""
        end = time.monotonic() + seconds
        while self.peek(address, len(octets)) != octets:
            if time.monotonic() > end:
                raise RuntimeError(f"{octets.hex()} does not come to {address:#x}")
            time.sleep(0.0005)
