"""Bunjelav: Intel's 82540EM as a model that can be stepped backwards, for Python 3.9 and later.

    from bunjelav import Machine

    m = Machine(memory=65536)
    m.link = True                  # the link goes up
    m.IMS = 4                      # the driver writes a register, by the manual's name
    m.read("ICR")                  # the driver reads one: an event, which clears the causes
    m["ICR"]                       # a look at it, which changes nothing
    m.memory[0x1000:0x1004] = b"abcd"
    m.back()                       # takes the newest event back
    m.copy()                       # a machine like it, for looking into the past while this one stays
    m.store()                      # as octets, of which Machine.load makes it again elsewhere
    m.last_change("ICR")           # who changed it last?
    m.why()                        # why was the newest step idle, the frame dropped, the call refused?
    m.warn(print)                  # what the driver gets wrong is printed as it happens
    m.attach(ram)                  # the adapter works on a bytearray, an mmap, or what else has octets
    m.record_to("core.em")         # from the first event on each is kept, with your line: em_debug core.em
    m.pcap_write("sent.pcap")      # the frames that were sent, for Wireshark; frames_of reads a capture
    Debugger("core.em").who("RDT") # a session of em_debug over a script or a kept run

A register is named as in the manual, in either case of its letters, or by its offset. A call that the model refuses
raises the exception of the refusal's name, as NoRegister or Range; it has changed nothing.

Numbers are tested before the library sees them: none is cut to the bits that a register or an address has.

It takes libbunjelav.so from where BUNJELAV_LIBRARY says, or from beside this file, or from bindings/c/out or dist/ of
the checkout that this file lies in. One machine is used by one thread at a time.
"""
from __future__ import annotations

import ctypes
import html
import operator
import os
import re
import sys
from pathlib import Path  # noqa: F401  (for an example)
from typing import Any, Callable, Dict, Iterable, Iterator, List, Optional, Tuple, Union

from . import _memory, _refusals, _tables
from ._captures import CapturedFrame, frames_of, must_of_file
from ._debugger import Answer, Debugger, DebuggerError, NotUnderstood, SessionEnded
from ._explain import Difference, DriverWarning, Explained, Fifo, Reason, line_of, numbers_of, trouble_of
from ._memory import Functions, GuestMemory, Region
from ._native import (
    DONE, SIZE_T, U32, U64, Register, bits_of, library, long_octets, must, name_of, number_of, octets_of, offset_of,
    refused, words_of,
)
from ._refusals import *  # noqa: F401, F403
from ._refusals import NoName, Refused
from ._told import KIND, UNDONE, Change, Event, Needs, RxDescriptor, TxDescriptor, event_of, slices

__all__ = [
    "Machine", "GuestMemory", "Event", "Change", "Needs", "RxDescriptor", "TxDescriptor", "Reason", "DriverWarning",
    "Difference", "Fifo", "CapturedFrame", "frames_of", "name_of", "offset_of", "bits_of", "words_of", "Debugger",
    "Answer", "DebuggerError", "NotUnderstood", "SessionEnded",
]
__all__ += _refusals.__all__
__version__ = _tables.VERSION

# the names of the files that perform events, by which their frames are known
_OWN = globals(), vars(_memory)
# A word of the PHY, as it is watched.
_PHY_WORD = re.compile(r"(?i:phy) ([0-9]{1,9})")


class Machine(Explained):
    """An adapter with its guest's memory and a journal of its latest events.

    memory: octets of guest memory, a multiple of 4,096. budget: what the journal's records may cost together; each
    costs at least 32. mac: the Ethernet address in the EEPROM. eeprom: its 64 words, in place of an address. base: the
    address of memory's first octet, a multiple of 4,096. Without one memory begins at 0 and has at most 16 MiB; with
    one it ends at 2^40 at most. profile: "table", what a polled driver in user space needs, or "adapter", what the
    drivers of operating systems need besides; of the latter memory ends at 2^40 at most without a base, too.
    """

    _handle: _tables.Handle
    _at: Any
    _ram: Union[None, Functions, Region]
    _places: Optional[Dict[str, bytes]]
    _source: bytes
    _undone: Optional[Reason]
    _warns: Optional[Callable[[DriverWarning], object]]
    memory: GuestMemory

    def __init__(
        self,
        memory: int = 65536,
        budget: int = 1048576,
        mac: bytes = bytes.fromhex("525400123456"),
        eeprom: Optional[List[int]] = None,
        base: Optional[int] = None,
        profile: str = "table",
    ) -> None:
        self._hold_none()
        sizes = [number_of(memory, 64, "a size", "Size"), number_of(budget, 64, "a budget", "Budget")]
        by_mac, by_eeprom = library.em_make, library.em_make_with_eeprom
        if profile not in _tables.PROFILES:
            raise refused(_tables.REFUSALS["NoProfile"])
        if base is not None or profile != "table":
            sizes.insert(0, number_of(base or 0, 64, "a base", "Size"))
            by_mac, by_eeprom = library.em_make_at, library.em_make_at_with_eeprom
        if profile != "table":
            sizes.insert(0, _tables.PROFILES[profile])
            by_mac, by_eeprom = library.em_make_as, library.em_make_as_with_eeprom
        if eeprom is not None:
            words = [number_of(word, 16, "a word of the EEPROM") for word in eeprom]
            if len(words) != 64:
                raise ValueError("an EEPROM has 64 words")
            must(by_eeprom(self._at, *sizes, (ctypes.c_uint16 * 64)(*words)))
            return
        address = octets_of(mac, "an Ethernet address")
        if len(address) != 6:
            raise ValueError("an Ethernet address has 6 octets")
        must(by_mac(self._at, *sizes, address))

    def _hold_none(self) -> None:
        set_own = super().__setattr__
        set_own("_handle", _tables.Handle())
        set_own("_at", ctypes.byref(self._handle))
        set_own("_ram", None)
        set_own("_places", None)
        set_own("_source", b"")
        set_own("_undone", None)
        set_own("_warns", None)
        set_own("memory", GuestMemory(self))

    def copy(self) -> Machine:
        """A machine that is equal to this one: in all that it shows, and in its journal, so that it goes back as far and
        to the same states. From then on neither knows what becomes of the other: the copy can go back while this one
        goes on. What is attached to this one is not attached to the copy, which has octets of its own; its run is not
        kept, and its warnings go nowhere. `copy.copy` and `copy.deepcopy` give the same."""
        made = self.__class__.__new__(self.__class__)
        made._hold_none()
        must(library.em_copy(self._at, made._at))
        object.__setattr__(made, "_undone", self._undone)
        return made

    def store(self) -> bytes:
        """The machine as octets, of which `load` makes it again, in another process or on another host: all but its
        journal and the tag. What is attached stays the caller's, and of a kept run nothing is stored. `pickle` does
        both.

        >>> m = Machine()
        >>> m.IMS = 4
        >>> again = Machine.load(m.store())
        >>> again["IMS"], again.reach
        (4, 0)
        """
        return long_octets(library.em_store, self._at)

    @classmethod
    def load(cls, octets: bytes) -> Machine:
        """The machine that `store` has written down as these octets. Its journal is empty, so that `back` goes back to
        where it was loaded, and no further; its run can't be kept or saved (Begun). The octets may come from anywhere:
        what no machine is stored as is refused, as StoredMagic, StoredVersion, StoredLength, StoredSum or StoredValue."""
        given = octets_of(octets, "a stored machine")
        made = cls.__new__(cls)
        made._hold_none()
        must(library.em_load(made._at, given, len(given)))
        return made

    def close(self) -> None:
        """Frees the machine; each later call raises NotMade."""
        library.em_free(self._at)
        if not self._handle.made:  # (within a function of its memory it is not freed)
            super().__setattr__("_ram", None)

    def __del__(self) -> None:
        if "_at" in self.__dict__:
            self.close()

    def __enter__(self) -> Machine:
        return self

    def __exit__(self, *why: object) -> None:
        self.close()

    def __copy__(self) -> Machine:
        return self.copy()

    def __deepcopy__(self, memo: Dict[int, object]) -> Machine:
        return self.copy()

    def __reduce__(self) -> Tuple[Callable[[bytes], Machine], Tuple[bytes]]:
        return type(self).load, (self.store(),)

    def _told(self, call: Callable[..., int], room: Any, *words: object) -> int:
        """What a call tells behind its other words."""
        must(call(self._at, *words, ctypes.byref(room)))
        return int(room.value)

    @property
    def profile(self) -> str:
        """Which profile it is of: "table" or "adapter"."""
        number = self._told(library.em_profile, U32())
        return next(name for name, one in _tables.PROFILES.items() if one == number)

    # ---- a run that is kept

    def record_to(
        self, path: Union[str, bytes, "os.PathLike[str]"], places: bool = True, mapped: bool = False
    ) -> None:
        """Keeps what happens to the machine from now on in a file, which is made, or made empty: each event as a line of the
        script language, with its answer and, unless `places` is false, with the line of the caller. It is written before its
        call returns, so it is there however the process ends; `em_debug FILE` takes it. The machine may have performed no
        event (else Begun). Where the file can't be opened, File is raised from the OSError. Without places a tag stands
        there. By a mapping (`mapped`) it is quicker; nobody else may cut the file then, which would end the process.

        >>> import tempfile
        >>> path = Path(tempfile.mkdtemp()) / "core.em"
        >>> m = Machine()
        >>> m.record_to(path)
        >>> m.IMS = 4
        >>> print(path.read_text().splitlines()[1])  # doctest: +ELLIPSIS
        w D0 4 =ok @...:1
        """
        record = library.em_record_mapped if mapped else library.em_record_to
        must_of_file(record(self._at, os.fsencode(path)), os.fsdecode(path))
        super().__setattr__("_places", {} if places else None)

    def save(self, path: Union[str, bytes, "os.PathLike[str]"]) -> None:
        """Writes the run so far to a file, where nobody kept it: the events that the journal has, as lines that play to the
        same machine, with their tags in the place of lines. For a frame that was dropped stands another one of the same
        length, which is dropped for the same reason. Begun is raised where events were taken back, or where the journal may
        have dropped some; where the file can't be written, File, from the OSError.

        >>> import tempfile
        >>> path = Path(tempfile.mkdtemp()) / "core.em"
        >>> m = Machine()
        >>> m.IMS = 4
        >>> m.save(path)
        >>> print(path.read_text().splitlines()[1])
        w D0 4 =ok
        """
        must_of_file(library.em_save(self._at, os.fsencode(path)), os.fsdecode(path))

    def recording(self) -> bool:
        """Whether the run is kept, and all that happened is in the file. Where the file could not be written, OSError says
        why, once; from then on the run is not kept."""
        error = ctypes.c_int()
        number = library.em_recording_status(self._at, ctypes.byref(error))
        if number == _tables.REFUSALS["Unrecorded"]:
            return False
        if number == _tables.REFUSALS["File"]:
            super().__setattr__("_places", None)
            raise OSError(error.value, os.strerror(error.value))
        must(number)
        return True

    def source(self, file: Union[str, bytes, "os.PathLike[str]"], line: int) -> None:
        """The calls from now on come from a line of this file: that of a driver, say, which is a process of its own. It
        stands in the lines of a run that is kept. With an empty name they come from where they are made again.

        >>> import tempfile
        >>> path = Path(tempfile.mkdtemp()) / "core.em"
        >>> m = Machine()
        >>> m.record_to(path)
        >>> m.source("driver.c", 57)
        >>> m.IMS = 4
        >>> print(path.read_text().splitlines()[1])
        w D0 4 =ok @driver.c:57
        """
        place = number_of(line, 32, "a line")
        super().__setattr__("_source", os.fsencode(file))  # (the library keeps no copy)
        must(library.em_source(self._at, self._source, place))

    def _here(self) -> None:
        """Tells the library which line the next call comes from: that of the newest frame outside of this package."""
        if self._places is None or self._source:
            return
        frame = sys._getframe(1)
        while any(frame.f_globals is own for own in _OWN) and frame.f_back is not None:
            frame = frame.f_back
        name = frame.f_code.co_filename
        if name not in self._places:  # (the library keeps no copy)
            self._places[name] = os.fsencode(name)
        library.em_source(self._at, self._places[name], frame.f_lineno)

    # ---- registers

    def read(self, register: Register) -> int:
        """The driver reads a register: an event, which may clear it."""
        value, offset = U32(), offset_of(register)
        self._here()
        self._came(library.em_read(self._at, offset, ctypes.byref(value)), _tables.Note(at=offset, kind=KIND["read"]))
        self._warn()
        return value.value

    def write(self, register: Register, value: int) -> None:
        """The driver writes a register."""
        given = number_of(value, 32, "what a register holds")
        offset = offset_of(register)
        self._here()
        self._came(library.em_write(self._at, offset, given), _tables.Note(at=offset, kind=KIND["write"]))
        self._warn()

    def read_sized(self, register: Register, octets: int) -> int:
        """The driver reads so many octets of the register window: four, as `read` does. Any other number is refused as
        Width."""
        value, offset = U64(), offset_of(register)
        width = number_of(octets, 32, "a number of octets", "Width")
        self._here()
        number = library.em_read_sized(self._at, offset, width, ctypes.byref(value))
        self._came(number, _tables.Note(at=offset, kind=KIND["read"]))
        self._warn()
        return value.value

    def write_sized(self, register: Register, octets: int, value: int) -> None:
        """The driver writes so many octets of the register window: four, the lowest of the value, as `write` does. Any
        other number is refused as Width."""
        given = number_of(value, 64, "what is written")
        offset, width = offset_of(register), number_of(octets, 32, "a number of octets", "Width")
        self._here()
        number = library.em_write_sized(self._at, offset, width, given)
        self._came(number, _tables.Note(at=offset, kind=KIND["write"]))
        self._warn()

    def look(self, register: Register) -> int:
        """What a read would give, with nothing changed."""
        return self._told(library.em_look, U32(), offset_of(register))

    def __getitem__(self, register: Register) -> int:
        return self.look(register)

    def __setitem__(self, register: Register, value: int) -> None:
        self.write(register, value)

    def __getattr__(self, name: str) -> int:
        if name.startswith("_"):
            raise AttributeError(name)
        try:
            return self.look(name)
        except NoName:
            raise AttributeError(name) from None

    def __setattr__(self, name: str, value: int) -> None:
        if isinstance(getattr(type(self), name, None), property):
            super().__setattr__(name, value)
            return
        try:
            self.write(name, value)
        except NoName:
            raise AttributeError(f"no register is called {name}") from None

    def registers(self) -> Dict[str, int]:
        """The registers that are not 0, by name, in the order of their offsets."""
        room, count = (_tables.Register * _tables.REGISTERS)(), SIZE_T()
        must(library.em_registers(self._at, room, len(room), ctypes.byref(count)))
        return {name_of(one.offset): one.value for one in room[: count.value]}

    # ---- memory, the wire, the link, the engines

    def poke(self, address: int, octets: bytes) -> None:
        """The driver writes 1 to 16,384 octets to guest memory: one event."""
        given, at = octets_of(octets, "what is written"), number_of(address, 64, "an address", "Range")
        self._here()
        self._came(library.em_poke(self._at, at, given, len(given)), _tables.Note(at=at, kind=KIND["poke"]), given)

    def sync_out(self, ram: bytearray) -> None:
        """Makes a bytearray, or another buffer, what guest memory is; it has to be as large. Octets that are the same
        are not written."""
        size = memoryview(ram).nbytes
        must(library.em_sync_out(self._at, (ctypes.c_uint8 * size).from_buffer(ram), size))

    def sync_in(self, ram: bytearray) -> int:
        """Makes guest memory what a bytearray is, which has to be as large, by a memory write in each page of 4,096
        octets that differs: from its first octet that differs to its last. Gives how many. Where the host refuses
        memory, the writes before stay."""
        writes, view = SIZE_T(), memoryview(ram)
        octets = bytes(view) if view.readonly else (ctypes.c_uint8 * view.nbytes).from_buffer(ram)
        self._here()
        must(library.em_sync_in(self._at, octets, view.nbytes, ctypes.byref(writes)), writes.value)
        return writes.value

    def sync_out_range(self, address: int, length: int) -> bytes:
        """Octets of guest memory: m.memory[address:address + length], which is refused where they leave it."""
        room = ctypes.create_string_buffer(max(number_of(length, 64, "a length", "Range"), 1))
        must(library.em_sync_out_range(self._at, number_of(address, 64, "an address", "Range"), room, length))
        return room.raw[:length]

    def sync_in_range(self, address: int, octets: bytes) -> int:
        """Makes guest memory these octets from an address on, by one memory write from the first that differs to the
        last, or by none. Gives how many."""
        writes, given = SIZE_T(), octets_of(octets, "what is written")
        at = number_of(address, 64, "an address", "Range")
        self._here()
        must(library.em_sync_in_range(self._at, at, given, len(given), ctypes.byref(writes)))
        return writes.value

    # ---- memory of the caller's

    def attach(self, ram: Any, base: int = 0) -> None:
        """From now on the adapter works on memory of the caller's, in each call that is an event: on a bytearray, an mmap
        or another buffer that can be written, which lies at `base` of guest memory; or on an object with
        `read(address, length)`, which gives octets, and `write(address, octets)`. What these raise is raised behind the
        call, from the refusal as Unread or Unwritten.

        A step brings over what it reads, and what lies where it will write: where that differs from what the machine has,
        as a write of guest memory, which is an event. What the step wrote goes out: the buffer, then the descriptor. A
        step back puts the caller's octets back; what the driver wrote itself stays.

        >>> m, ram = Machine(), bytearray(65536)
        >>> m.attach(ram)
        >>> m.link = True
        >>> ram[0x1000:0x1008] = (0x4000).to_bytes(8, "little")   # descriptor 0 gets its buffer
        >>> m.RDBAL, m.RDLEN, m.RDT, m.RCTL = 0x1000, 128, 1, 0x8002
        >>> m.arrive(bytes([0xFF] * 6) + bytes(54)).kind
        'stored'
        >>> m.run()
        1
        >>> ram[0x100C] & 1                       # DD: the adapter is done with it
        1
        >>> m.last_change(slice(0x1000, 0x1008)).event.kind
        'poke'
        >>> m.back(3)                             # two idle steps, and the one that wrote
        3
        >>> ram[0x100C] & 1
        0
        """
        has = [callable(getattr(ram, name, None)) for name in ("read", "write")]
        is_buffer = True
        try:
            memoryview(ram)
        except TypeError:
            is_buffer = False
        if not is_buffer and not all(has):
            raise TypeError(f"memory is a buffer, or has read and write, and not {type(ram).__name__}")
        at = number_of(base, 64, "an address", "Range")
        kept: Union[Region, Functions] = Region(ram, at) if is_buffer else Functions(ram)
        must(library.em_attach(self._at, ctypes.byref(kept.raw)))
        super().__setattr__("_ram", kept)

    def detach(self) -> None:
        """From now on guest memory is the machine's own again, as it has it."""
        must(library.em_detach(self._at))
        super().__setattr__("_ram", None)

    def _over(self, number: int, done: int = 0) -> None:
        """Raises the exception of a refusal; where memory of the caller's raised, from that."""
        raised = self._ram.raised if self._ram else None
        if isinstance(self._ram, Functions):
            self._ram.raised = None
        if raised is not None and not isinstance(raised, Exception):
            raise raised
        if number != DONE:
            raise refused(number, done) from raised

    def _came(self, number: int, note: _tables.Note, octets: bytes = b"", done: int = 0) -> None:
        """Keeps why an event did nothing, where it did nothing; raises the exception of a refusal, which has it too."""
        reason = None
        if number != DONE or note.kind in UNDONE:
            reason = self._reason(number, note, octets)
        if number != DONE:
            try:
                self._over(number, done)
            except Refused as refused:
                refused.why = reason
                raise

    def _reason(self, number: int, note: _tables.Note, octets: bytes) -> Optional[Reason]:
        """Why an event did nothing, of the machine as it left it."""
        told = _tables.Reason()
        call = library.em_why(self._at, ctypes.byref(note), number, octets, len(octets), ctypes.byref(told))
        if call != DONE or told.rule == 0:
            return None
        reason = Reason(_tables.RULES.get(told.rule, f"rule {told.rule}"), line_of(told), numbers_of(told))
        super().__setattr__("_undone", reason)
        return reason

    def needs(self, which: str) -> Needs:
        """What the next step of the engine of the ring "rx" or "tx" reads of guest memory, and what it writes there, by
        what the machine has."""
        if which not in _tables.RINGS:
            raise ValueError('a ring is "rx" or "tx"')
        reads, writes = (_tables.Range * 2)(), (_tables.Range * 2)()
        must(library.em_ring_needs(self._at, _tables.RINGS[which], reads, writes))
        return Needs(slices(reads), slices(writes))

    def written(self, k: int = 0) -> List[slice]:
        """What the k-th newest event wrote of guest memory."""
        written = (_tables.Range * 2)()
        must(library.em_written(self._at, number_of(k, 64, "a place in the journal", "NoEvent"), written))
        return slices(written)

    def arrive(self, frame: bytes) -> Event:
        """A frame arrives; the event says what became of it."""
        note, given = _tables.Note(kind=KIND["stored"]), octets_of(frame, "a frame")
        self._here()
        self._came(library.em_arrive(self._at, given, len(given), ctypes.byref(note)), note, given)
        return event_of(note)

    def rx_step(self) -> Event:
        """The receive engine handles a descriptor."""
        note = _tables.Note(kind=KIND["wrote"])
        self._here()
        self._came(library.em_rx_step(self._at, ctypes.byref(note)), note)
        return event_of(note)

    def tx_step(self) -> Event:
        """The transmit engine handles a descriptor."""
        note = _tables.Note(kind=KIND["fetched"])
        self._here()
        self._came(library.em_tx_step(self._at, ctypes.byref(note)), note)
        return event_of(note)

    def run(self, most: int = 2**32) -> int:
        """Both engines step until they are idle, first that which receives, and each at most so many times; gives how
        many steps were not idle. A refusal has as many as `done`, and is the end."""
        steps, most = 0, number_of(most, 64, "a number of steps")
        self._here()
        for engine, kind in ((library.em_run_rx, "wrote"), (library.em_run_tx, "fetched")):
            done = SIZE_T()
            number = engine(self._at, most, ctypes.byref(done))
            steps += done.value
            note = _tables.Note(kind=KIND[kind])
            if number == DONE and done.value < most:  # (it stopped at a step that was idle)
                must(library.em_event(self._at, 0, ctypes.byref(note)))
            self._came(number, note, done=steps)
        return steps

    @property
    def link(self) -> bool:
        """Whether the link is up; setting it is an event."""
        return self.look("STATUS") & 2 != 0

    @link.setter
    def link(self, up: bool) -> None:
        self._here()
        must(library.em_set_link(self._at, bool(up)))

    @property
    def line(self) -> bool:
        """Whether the interrupt line is asserted."""
        return self._told(library.em_line, U32()) != 0

    @property
    def loops(self) -> bool:
        """Whether frames that are sent come back, by RCTL.LBM or by the PHY's word 0: never in the first profile.

        Who carries the wire then lets each that is sent arrive, and no other.
        """
        return self._told(library.em_loops, U32()) != 0

    @property
    def wire(self) -> List[bytes]:
        """The frames that were sent, the first one first."""
        room, length = ctypes.create_string_buffer(_tables.MOST_SENT), SIZE_T()
        frames = []
        for index in range(self._told(library.em_wire_count, SIZE_T())):
            must(library.em_wire_frame(self._at, index, room, len(room), ctypes.byref(length)))
            frames.append(room.raw[: length.value])
        return frames

    def wire_next(self) -> Iterator[bytes]:
        """The frames that were sent and not handed over yet, in the order of sending: each is given once. Those that are
        sent again behind steps back, which took them off the wire, are new ones.

        >>> m = Machine()
        >>> list(m.wire_next())
        []
        """
        room, length = ctypes.create_string_buffer(_tables.MOST_SENT), SIZE_T()
        while True:
            number = library.em_wire_next(self._at, room, len(room), ctypes.byref(length))
            if number == _tables.REFUSALS["NoFrame"]:
                return
            must(number)
            yield room.raw[: length.value]

    def let_go(self) -> int:
        """Lets go of the octets of the frames that were sent before all that `back` can reach, and gives how many frames
        these are: the first ones. They are empty in `wire` from then on, and `wire_next` gives them no more.

        >>> Machine().let_go()
        0
        """
        return self._told(library.em_let_go, SIZE_T())

    def let_go_always(self, always: bool = True) -> None:
        """Has `wire_next` let go of frames, in lots, whenever it has handed each frame over; or no longer. No frame goes
        that was not handed over. A machine then keeps the octets of at most 1,024 frames more than it has events that
        `back` can take back.

        >>> m = Machine()
        >>> m.let_go_always()
        """
        must(library.em_let_go_always(self._at, bool(always)))

    def pcap_write(
        self, path: Union[str, bytes, "os.PathLike[str]"], nanoseconds: Optional[Iterable[int]] = None
    ) -> None:
        """Writes the frames that were sent to a file as a capture, pcap, the first one first; one that is there is
        replaced, whole or not at all. `nanoseconds` are their times since 1970, one for each. Without them a frame's
        time is the number of the line that sent it, where the run is kept, and else its own number, from 1 on, in
        microseconds. Where the file can't be written, File is raised from the OSError.

        >>> import tempfile
        >>> path = Path(tempfile.mkdtemp()) / "sent.pcap"
        >>> m = Machine()
        >>> m.pcap_write(path)
        >>> list(frames_of(path))
        []
        """
        times = None
        if nanoseconds is not None:
            given = [number_of(it, 64, "a time") for it in nanoseconds]
            count = self._told(library.em_wire_count, SIZE_T())
            if len(given) != count:
                raise ValueError(f"{count} frames were sent, and {len(given)} times are given")
            times = (U64 * max(count, 1))(*given)
        must_of_file(library.em_pcap_write(self._at, os.fsencode(path), times), os.fsdecode(path))

    # ---- back, and who did it

    def back(self, n: int = 1) -> int:
        """Takes the newest n events back, or as many as the journal holds; gives how many. Where attached memory refuses
        to be written it stops: `done` of Unwritten then counts the step whose octets were not put back, too."""
        done = SIZE_T()
        self._here()
        number = library.em_back(self._at, number_of(n, 64, "a number of events"), ctypes.byref(done))
        self._over(number, done.value)
        return done.value

    @property
    def reach(self) -> int:
        """How many events can be taken back."""
        return self._told(library.em_can_go_back, SIZE_T())

    def tag(self, tag: int) -> None:
        """The tag of the events from now on."""
        must(library.em_tag(self._at, number_of(tag, 64, "a tag")))

    def event(self, k: int = 0) -> Event:
        """What the k-th newest event was."""
        note = _tables.Note()
        place = number_of(k, 64, "a place in the journal", "NoEvent")
        must(library.em_event(self._at, place, ctypes.byref(note)))
        return event_of(note)

    def events(self) -> Iterator[Event]:
        """What the events of the journal were, the newest first."""
        for k in range(self.reach):
            yield self.event(k)

    def last_change(self, what: Union[Register, slice]) -> Optional[Change]:
        """Which event changed it last: a register, a slice of at most 16 octets of memory, "line", "link", "frames"
        (how many lie in the FIFO), "sent", or "PHY 17", a word of the PHY. None where no event of the journal did."""
        watch, change = self._watch(what), _tables.Change()
        number = library.em_last_change(self._at, ctypes.byref(watch), ctypes.byref(change))
        if number == _tables.REFUSALS["NoChange"]:
            return None
        must(number)
        is_octets = watch.kind == _tables.WATCHES["octets"]
        before = bytes(change.before)[: watch.octets] if is_octets else change.value
        return Change(change.back, before, self.event(change.back - 1))

    def _watch(self, what: Union[Register, slice]) -> _tables.Watch:
        if isinstance(what, slice):
            octets = self._watched(what)
            return _tables.Watch(_tables.WATCHES["octets"], 0, octets.start, len(octets))
        if isinstance(what, str) and what in ("line", "link", "frames", "sent"):
            return _tables.Watch(_tables.WATCHES[what], 0, 0, 0)
        phy = _PHY_WORD.fullmatch(what) if isinstance(what, str) else None
        if phy:
            return _tables.Watch(_tables.WATCHES["phy"], int(phy[1]), 0, 0)
        return _tables.Watch(_tables.WATCHES["register"], offset_of(what), 0, 0)

    def _watched(self, where: slice) -> range:
        """The octets of a slice, of which none may lie outside memory: who asks for them means each of them."""
        base, past = self.memory.base, self.memory.base + len(self.memory)
        if where.step not in (None, 1):
            raise ValueError("octets of memory are watched one beside another")
        ends = base if where.start is None else where.start, past if where.stop is None else where.stop
        start, stop = (end + past if end < 0 else end for end in map(operator.index, ends))
        if not (base <= start <= past and base <= stop <= past):
            raise refused(_tables.REFUSALS["Range"])
        return range(start, stop)

    # ---- rings

    def ring(self, which: str) -> List[Union[RxDescriptor, TxDescriptor]]:
        """The descriptors of the ring "rx" or "tx", as they lie in guest memory, up to one that leaves it. The library
        says whose each is, and what is wrong with it: where the head or the tail stands past the last descriptor, all
        are the driver's."""
        if which not in _tables.RINGS:
            raise ValueError('a ring is "rx" or "tx"')
        side, setup, one, entry = _tables.RINGS[which], _tables.RingSetup(), _tables.Descriptor(), _tables.Entry()
        must(library.em_ring(self._at, side, ctypes.byref(setup)))
        found: List[Union[RxDescriptor, TxDescriptor]] = []
        for index in range(setup.count):
            told = library.em_ring_descriptor(self._at, side, index, ctypes.byref(one))
            if told == _tables.REFUSALS["Range"]:
                break
            must(told)
            must(library.em_ring_entry(self._at, side, index, ctypes.byref(entry)))
            trouble = trouble_of(entry)
            octets, owned = bytes(one.octets), one.adapters == 1
            low = int.from_bytes(octets[:8], "little"), int.from_bytes(octets[8:10], "little")
            special = int.from_bytes(octets[14:], "little")
            if which == "rx":
                found.append(RxDescriptor(index, owned, *low, octets[12], octets[13], special, trouble))
            else:
                found.append(TxDescriptor(index, owned, *low, octets[11], octets[12], special, trouble))
        return found

    def __repr__(self) -> str:
        if not self._handle.made:
            return "<Machine, freed>"
        return f"<Machine, link {'up' if self.link else 'down'}, line {int(self.line)}, {self.reach} steps to go back>"

    def _repr_html_(self) -> str:
        """Registers and rings as tables, for a notebook, with what is wrong with the rings' descriptors; and why the
        newest event did nothing that did nothing."""
        rows = [(name, f"{value:08X}") for name, value in self.registers().items()]
        parts = [f"<p>{html.escape(repr(self))}</p>", _table("registers", ("name", "value"), rows)]
        if self._undone is not None:
            parts.insert(1, f"<p>{html.escape(self._undone.text)}</p>")
        for which, heads in (("rx", RxDescriptor._fields), ("tx", TxDescriptor._fields)):
            ring = self.ring(which)
            if ring:
                parts.append(_table(which, heads, [[*map(_shown, descriptor)] for descriptor in ring]))
        return "".join(parts)


def _shown(value: object) -> str:
    if isinstance(value, bool):
        return "yes" if value else ""
    return f"{value:X}" if isinstance(value, int) else str(value)


def _table(caption: str, heads: Iterable[str], rows: Iterable[Iterable[str]]) -> str:
    def row(cells: Iterable[str], tag: str) -> str:
        return "<tr>" + "".join(f"<{tag}>{html.escape(str(cell))}</{tag}>" for cell in cells) + "</tr>"

    body = "".join(row(cells, "td") for cells in rows)
    return f"<table><caption>{html.escape(caption)}</caption>{row(heads, 'th')}{body}</table>"
