"""Guest memory as a machine has it, and memory of the caller's that is attached to one."""
from __future__ import annotations

import ctypes
import operator
from typing import TYPE_CHECKING, Any, Iterator, Optional, Union, overload

from . import _tables
from ._native import U64, library, must, octets_of

if TYPE_CHECKING:
    from . import Machine


class GuestMemory:
    """The guest's memory by its addresses: m.memory[a], m.memory[a:b], and the same set, by writes of 16,384 octets at
    most. `base` is the address of its first octet."""

    MOST = 16384

    def __init__(self, machine: Machine) -> None:
        self._machine = machine

    def __len__(self) -> int:
        return self._machine._told(library.em_memory_size, U64())

    @property
    def base(self) -> int:
        return self._machine._told(library.em_memory_base, U64())

    def __iter__(self) -> Iterator[int]:
        return iter(self[:])

    def _range(self, where: Union[int, slice]) -> range:
        base, size = self.base, len(self)
        if isinstance(where, slice):
            if where.step not in (None, 1):
                raise ValueError("octets of memory are taken one after another")
            start, stop, _ = where.indices(base + size)
            return range(max(start, base), max(stop, base))
        at = operator.index(where)
        at += base + size if at < 0 else 0
        if not base <= at < base + size:
            raise IndexError(f"guest memory has {size} octets from {base:X}h on")
        return range(at, at + 1)

    @overload
    def __getitem__(self, where: int) -> int: ...

    @overload
    def __getitem__(self, where: slice) -> bytes: ...

    def __getitem__(self, where: Union[int, slice]) -> Union[int, bytes]:
        octets = self._range(where)
        room = ctypes.create_string_buffer(max(len(octets), 1))
        must(library.em_peek(self._machine._at, octets.start, room, len(octets)))
        return room.raw[: len(octets)] if isinstance(where, slice) else room.raw[0]

    @overload
    def __setitem__(self, where: int, value: int) -> None: ...

    @overload
    def __setitem__(self, where: slice, value: bytes) -> None: ...

    def __setitem__(self, where: Union[int, slice], value: Any) -> None:
        octets = self._range(where)
        given = octets_of(value, "memory") if isinstance(where, slice) else bytes([value])
        if len(given) != len(octets):
            raise ValueError(f"{len(given)} octets do not fit where {len(octets)} lie")
        for at in range(0, len(given), self.MOST):
            self._machine.poke(octets.start + at, given[at : at + self.MOST])


class Functions:
    """What the library is given for an object with `read` and `write`. What they raise is kept, since it can't go through
    the library."""

    def __init__(self, ram: Any) -> None:
        self.raised: Optional[BaseException] = None
        self._ram = ram
        read, write = _tables.READ(self._read), _tables.WRITE(self._write)
        self.raw = _tables.Ram(None, read, write, None, 0)
        self._kept = read, write

    def _read(self, _context: int, address: int, out: int, length: int) -> bool:
        try:
            octets = octets_of(self._ram.read(address, length), "what is read")
            if len(octets) != length:
                raise ValueError(f"{len(octets)} octets were read, and {length} were asked for")
            ctypes.memmove(out, octets, length)
            return True
        except BaseException as raised:  # (whatever it is, it is raised behind the call)
            self.raised = raised
            return False

    def _write(self, _context: int, address: int, octets: int, length: int) -> bool:
        try:
            self._ram.write(address, ctypes.string_at(octets, length))
            return True
        except BaseException as raised:
            self.raised = raised
            return False


class Region:
    """The same for a buffer, which lies at an address. It can't be resized while this is there."""

    raised: Optional[BaseException] = None

    def __init__(self, ram: Any, base: int) -> None:
        size = memoryview(ram).nbytes
        self._octets = (ctypes.c_uint8 * size).from_buffer(ram)
        self._region = _tables.Region(base, size, ctypes.addressof(self._octets))
        # (without functions)
        self.raw = _tables.Ram(regions=ctypes.pointer(self._region), count=1)
