"""A QEMU that is played: the messages of its x-pci-proxy-dev over a socket, and guest memory in a file."""
import mmap
import os
import socket
import struct
import time
from pathlib import Path

SYNC_MEMORY, REPLY, CONFIG_WRITE, CONFIG_READ, BAR_WRITE, BAR_READ, SET_INTERRUPT, DEVICE_RESET = range(8)
WINDOW, PORTS = 0xFEB00000, 0xC000


def message(command: int, data: bytes = b"", size: int | None = None) -> bytes:
    return struct.pack("<iiQ", command, 0, len(data) if size is None else size) + data


def connected(path: Path) -> socket.socket:
    """A socket that is connected to one that a program listens at by then. (Its path is there before it listens.)"""
    end = time.monotonic() + 60
    while True:
        made = socket.socket(socket.AF_UNIX, socket.SOCK_STREAM)
        try:
            made.connect(str(path))
            return made
        except (FileNotFoundError, ConnectionRefusedError):
            made.close()
            if time.monotonic() > end:
                raise
            time.sleep(0.02)


class PlayedQemu:
    """One end of the socket, as QEMU holds it, with `octets` of guest memory at the address `base`."""

    def __init__(self, path: Path, base: int = 0, octets: int = 1 << 22) -> None:
        self.socket = connected(path)
        self.socket.settimeout(60)
        self.base, self.octets = base, octets
        self.file = os.memfd_create("guest")
        os.ftruncate(self.file, octets)
        self.memory = mmap.mmap(self.file, octets)
        self.raised = os.eventfd(0, os.EFD_NONBLOCK)
        self.resample = os.eventfd(0, os.EFD_NONBLOCK)

    def send(self, octets: bytes, files: tuple = ()) -> None:
        if files:
            socket.send_fds(self.socket, [octets], list(files))
        else:
            self.socket.sendall(octets)

    def answer(self) -> int:
        octets = b""
        while len(octets) < 24:
            got = self.socket.recv(24 - len(octets))
            if not got:
                raise EOFError
            octets += got
        command, _, size, value = struct.unpack("<iiQQ", octets)
        assert (command, size) == (REPLY, 8), octets
        return value

    def ask(self, command: int, data: bytes = b"") -> int:
        self.send(message(command, data))
        return self.answer()

    def sync(self, regions: list | None = None) -> None:
        """Guest memory lies in these files: address, octets, offset, file."""
        regions = regions if regions is not None else [(self.base, self.octets, 0, self.file)]
        rows = [[region[i] for region in regions] + [0] * (8 - len(regions)) for i in range(3)]
        data = b"".join(struct.pack("<8Q", *row) for row in rows)
        self.send(message(SYNC_MEMORY, data), tuple(region[3] for region in regions))

    def set_interrupt(self) -> None:
        self.send(message(SET_INTERRUPT), (self.raised, self.resample))

    def config_read(self, address: int, length: int) -> int:
        return self.ask(CONFIG_READ, struct.pack("<IIi", address, 0, length))

    def config_write(self, address: int, length: int, value: int) -> int:
        return self.ask(CONFIG_WRITE, struct.pack("<IIi", address, value, length))

    def bar_read(self, address: int, size: int = 4, is_memory: bool = True) -> int:
        return self.ask(BAR_READ, struct.pack("<QQI?3x", address, 0, size, is_memory))

    def bar_write(self, address: int, value: int, size: int = 4, is_memory: bool = True) -> int:
        return self.ask(BAR_WRITE, struct.pack("<QQI?3x", address, value, size, is_memory))

    def read(self, offset: int, size: int = 4) -> int:
        return self.bar_read(WINDOW + offset, size)

    def write(self, offset: int, value: int, size: int = 4) -> None:
        self.bar_write(WINDOW + offset, value, size)

    def reset(self) -> int:
        return self.ask(DEVICE_RESET)

    def boot(self) -> None:
        """What QEMU and a firmware do before a driver runs."""
        self.set_interrupt()
        self.reset()
        self.sync()
        self.config_write(0x10, 4, WINDOW)
        self.config_write(0x18, 4, PORTS)
        self.config_write(4, 2, 7)

    def interrupts(self) -> int:
        """How often the line was raised since this was asked last."""
        try:
            return os.eventfd_read(self.raised)
        except BlockingIOError:
            return 0

    def peek(self, address: int, length: int) -> bytes:
        return self.memory[address - self.base:address - self.base + length]

    def poke(self, address: int, octets: bytes) -> None:
        self.memory[address - self.base:address - self.base + len(octets)] = octets

    def close(self) -> None:
        self.socket.close()
        self.memory.close()
        for file in (self.file, self.raised, self.resample):
            os.close(file)


def transmit_descriptor(address: int, length: int, command: int = 0x0B) -> bytes:
    return struct.pack("<QHBBBBH", address, length, 0, command, 0, 0, 0)


def receive_descriptor(address: int, rest: int = 0) -> bytes:
    return struct.pack("<QQ", address, rest)


def until(what, seconds: float = 60) -> bool:
    """Whether it comes to be so within these seconds."""
    end = time.monotonic() + seconds
    while time.monotonic() < end:
        if what():
            return True
        time.sleep(0.01)
    return False
