"""The bench that a driver is tested on: the adapter, its memory and the wire here, the driver's program there.

Whatever passes is kept as a run that em_debug opens, with the driver's lines.
"""
import mmap
import os
from pathlib import Path
from typing import Callable, Dict, List, Optional

import where  # noqa: F401  (it finds the library)
from bunjelav import DriverWarning, Event, Machine, NoRegister, Refused, name_of
from fault import Fault, Stopped
from programs import Program, shared_memory

MEMORY = 65536
# octets that the records of a run may cost: more than any test's
BUDGET = 16777216
MAC = bytes.fromhex("525400123456")
# how often one call of a driver may ask the board for something: a start does so a few hundred times
ACCESSES = 20000
DESCRIPTOR = 16
# what one memory write takes
MOST_WRITTEN = 16384
RINGS = {"rx": ("RDBAL", "RDBAH", "RDLEN", "RDH", "RDT", "RCTL"),
         "tx": ("TDBAL", "TDBAH", "TDLEN", "TDH", "TDT", "TCTL")}
EN = 1 << 1


class Ring:
    """A ring as its registers set it up."""

    def __init__(self, machine: Machine, which: str) -> None:
        low, high, self.octets, self.head, self.tail, control = (machine[name] for name in RINGS[which])
        self.base = high << 32 | low
        self.count = self.octets // DESCRIPTOR
        self.is_enabled = bool(control & EN)

    def at(self, index: int) -> int:
        """Where a descriptor lies."""
        return self.base + DESCRIPTOR * index

    def has_work(self) -> bool:
        return self.is_enabled and self.head < self.count > self.tail != self.head


class Bench:
    def __init__(self, words: List[str], kept: Path, mac: bytes = MAC, eeprom: Optional[List[int]] = None,
                 base: int = 0,
                 memory: int = MEMORY) -> None:
        kept.parent.mkdir(parents=True, exist_ok=True)
        self.machine = Machine(memory=memory, budget=BUDGET, mac=mac, eeprom=eeprom, base=base)
        self.machine.record_to(kept)
        self.base, self.size = base, memory
        self._descriptor = shared_memory(memory)
        self.octets = mmap.mmap(self._descriptor, memory)
        self.machine.attach(self.octets, base)
        self.program = Program(words, self._descriptor, base, memory)
        self.warned: List[DriverWarning] = []
        self.machine.warn(self.warned.append)
        # the engines that do not act now, and what is done before each access of the driver
        self.held: set = set()
        self.before_access: Callable[[str], None] = lambda what: None
        # and what is done behind each step of an engine
        self.after_step: Callable[[Event], None] = lambda event: None
        self.accesses: List[str] = []
        self._turns = 0
        self._calls: Dict[str, Callable[[str], str]] = {"r": self._read, "w": self._write}

    def close(self) -> None:
        self.program.end()
        self.machine.close()
        os.close(self._descriptor)

    # ---- what the driver is asked

    def call(self, name: str, *words: object) -> str:
        """Calls a function of the driver, and serves it until it answers."""
        self.accesses = []
        self.program.say(" ".join(map(str, (name, *words))))
        for _ in range(ACCESSES):
            kind, _, rest = self._line(name).partition(" ")
            if kind == "=":
                return rest
            if kind == "?":
                raise Stopped(f"the driver has no function {name}")
            if kind not in self._calls:
                raise Stopped(f"{name}: the board's files were not those of the course")
            self.program.say(self._calls[kind](rest))
        register = self.program.last.split()[-1] if self.program.last else "STATUS"
        raise Stopped(f"{name} asked the board {ACCESSES} times and came to no end, the last access was "
                      f"{self.program.last}: which loop waits for what never comes?", f"look {register}", f"who {register}")

    def _line(self, name: str) -> str:
        try:
            return self.program.line()
        except Stopped as stopped:
            raise type(stopped)(f"{name}: {stopped.sentence}", *self._who_is_last()) from None

    def _who_is_last(self) -> List[str]:
        return [f"look {self.program.last.split()[-1]}"] if self.program.last else []

    def serve(self, kind: str, answer: Callable[[str], str]) -> None:
        """From now on the driver's lines of this kind are answered so."""
        self._calls[kind] = answer

    # ---- what the driver does

    def _access(self, verb: str, offset: int, place: str) -> None:
        """What stands before each access: its line, what the driver stored since the last one, and other actors' turns."""
        file, _, line = place.rpartition(":")
        self.machine.source(file, int(line))
        try:
            name = name_of(offset)
        except NoRegister:
            raise Fault(f"{place} accesses {offset:05X}h, where the adapter has no register: the manual's chapter 13 "
                        "has their offsets") from None
        self.program.last = f"at {place}, a {verb} of {name}"
        self.accesses.append(f"{verb} {name}")
        self.bring_rings()
        self.before_access(f"{verb} {name}")

    def _read(self, rest: str) -> str:
        offset, place = rest.split(" ", 1)
        self._access("read", int(offset, 16), place)
        value = self.machine.read(int(offset, 16))
        self.run_engines()
        return f"{value:x}"

    def _write(self, rest: str) -> str:
        offset, value, place = rest.split(" ", 2)
        self._access("write", int(offset, 16), place)
        self.machine.write(int(offset, 16), int(value, 16))
        self.run_engines()
        return "ok"

    def bring_rings(self) -> None:
        """What the driver stored in its rings becomes writes of guest memory, from the line at hand."""
        for which in RINGS:
            ring = Ring(self.machine, which)
            length = min(ring.octets, MOST_WRITTEN)
            if length and self.base <= ring.base and ring.base + length <= self.base + self.size:
                place = ring.base - self.base
                self.machine.sync_in_range(ring.base, self.octets[place : place + length])

    # ---- what the adapter and the wire do

    def run_engines(self) -> None:
        """Both engines act until they have nothing to do, but for those that are held."""
        self._run("rx", self.machine.rx_step)
        self._run("tx", self.machine.tx_step)

    def _run(self, which: str, step: Callable[[], Event]) -> None:
        while which not in self.held and Ring(self.machine, which).has_work():
            if which == "rx" and self.machine.fifo().frames == 0:
                return
            try:
                event = step()
            except Refused as refused:
                raise self._unusable(which, refused) from None
            self.after_step(event)

    def _unusable(self, which: str, refused: Refused) -> Fault:
        """A descriptor that the adapter can't use."""
        ring = Ring(self.machine, which)
        at = ring.at(ring.head)
        why = getattr(refused, "why", None) or refused
        hint = ""
        if "buffer" in str(why):
            hint = ": a descriptor wants the buffer's physical address, and not the driver's own pointer"
        head = RINGS[which][0]
        return Fault(f"the adapter can't use a descriptor ({why}){hint}", f"who {at:X} 8", f"who {head}")

    def arrive(self, frame: bytes) -> Event:
        """A frame comes in; the board stores what lies in its rings first, as it stands."""
        self._wire_acts()
        self.bring_rings()
        event = self.machine.arrive(frame)
        self.run_engines()
        return event

    def set_link(self, is_up: bool) -> None:
        self._wire_acts()
        self.machine.link = is_up

    def _wire_acts(self) -> None:
        """What comes now is the wire's: each time has a number, which stands in the run in place of a line."""
        self._turns += 1
        self.machine.source("wire", self._turns)

    def release(self, *engines: str) -> None:
        """The engines that were held act again."""
        self.held -= set(engines)
        self._wire_acts()
        self.bring_rings()
        self.run_engines()

    # ---- looks

    def ring(self, which: str) -> Ring:
        return Ring(self.machine, which)

    def octets_at(self, address: int, length: int) -> bytes:
        """Memory as the driver has it."""
        if not self.base <= address <= address + length <= self.base + self.size:
            raise Fault(f"there is no memory at {address:X}h, where a ring or a buffer is to lie: it ends at "
                        f"{self.base + self.size:X}h", "regs")
        return self.octets[address - self.base : address - self.base + length]
