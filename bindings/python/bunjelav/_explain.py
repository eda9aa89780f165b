"""What explains: why an event did nothing, what a driver gets wrong, what an event changed, and what waits."""
from __future__ import annotations

import ctypes
from typing import Any, Callable, Dict, List, NamedTuple, Optional, Union

from . import _tables
from ._native import SIZE_T, library, long_text, must, name_of, number_of


class Reason(NamedTuple):
    """Why an event did nothing: by which rule, the same in words, and the numbers that the rule goes by."""

    rule: str
    text: str
    numbers: Dict[str, Union[int, bytes]]

    def __str__(self) -> str:
        return self.text


class DriverWarning(NamedTuple):
    """What a driver seems to get wrong by an access: by which rule, the same in words, and the numbers of the rule."""

    rule: str
    text: str
    numbers: Dict[str, Union[int, bytes]]

    def __str__(self) -> str:
        return self.text


class Difference(NamedTuple):
    """What an event changed of a register, a slice of memory, "line", "link", "frames" or "sent"."""

    what: Union[str, slice]
    before: Union[int, bytes]
    after: Union[int, bytes]


class Fifo(NamedTuple):
    """How many frames wait in the FIFO, the octets of the first, a VLAN tag that was taken out of it, and the octets
    that are gathered for the next frame to be sent."""

    frames: int
    first: bytes
    tag: Optional[int]
    gathered: bytes


def numbers_of(told: ctypes.Structure) -> Dict[str, Union[int, bytes]]:
    """The numbers of a struct that are not 0, by name, but for its rule's."""
    found: Dict[str, Union[int, bytes]] = {}
    for name in (field[0] for field in told._fields_):
        value = getattr(told, name)
        number: Union[int, bytes] = value if isinstance(value, int) else bytes(value)
        if name not in ("rule", "text") and (number if isinstance(number, int) else any(number)):
            found[name] = number
    return found


_WATCHED = {number: name for name, number in _tables.WATCHES.items()}


def difference_of(told: _tables.Difference) -> Difference:
    what = _WATCHED.get(told.kind, f"watch {told.kind}")
    if what == "octets":
        where = slice(told.address, told.address + told.octets)
        return Difference(where, bytes(told.before)[: told.octets], bytes(told.after)[: told.octets])
    return Difference(name_of(told.offset) if what == "register" else what, told.value, told.now)


def line_of(told: ctypes.Structure) -> str:
    """The text of a struct."""
    return bytes(told.text).partition(b"\0")[0].decode()


def trouble_of(entry: _tables.Entry) -> str:
    """What is wrong with a descriptor, if anything is."""
    if entry.trouble == 0:
        return ""
    words = _tables.TROUBLES.get(entry.trouble, f"trouble {entry.trouble}")
    return f"{words} {entry.other}" if words == "over buffer" else words


class Explained:
    """A machine at which these looks are taken."""

    _at: Any
    _undone: Optional[Reason]
    _warns: Optional[Callable[[DriverWarning], object]]

    def why(self) -> Optional[Reason]:
        """Why the newest step that was idle, frame that was dropped or call that was refused did nothing, as it was
        then; None where there was none. A refusal has its reason as `why`, too.

        >>> from bunjelav import Machine
        >>> m = Machine()
        >>> m.rx_step().is_idle
        True
        >>> print(m.why())
        RCTL.EN is clear
        """
        return self._undone

    def warnings(self) -> List[DriverWarning]:
        """What a driver seems to get wrong by the newest event: a write of a register, or a read of ICR that gave 0.

        >>> from bunjelav import Machine
        >>> m = Machine()
        >>> m.RDT = 8
        >>> m.RCTL = 2
        >>> print(m.warnings()[0])
        warning enabled-before-ring: RCTL.EN is set while RDLEN is 0, set up the ring first
        """
        told, count = (_tables.Warning * 10)(), SIZE_T()
        must(library.em_warnings(self._at, told, ctypes.byref(count)))
        return [
            DriverWarning(_tables.WARNINGS.get(one.rule, f"rule {one.rule}"), line_of(one), numbers_of(one))
            for one in told[: count.value]
        ]

    def warn(self, told: Optional[Callable[[DriverWarning], object]]) -> None:
        """From now on each warning of an access goes to a function as it happens, as `m.warn(print)`; or to none."""
        super().__setattr__("_warns", told)

    def _warn(self) -> None:
        if self._warns is not None:
            for one in self.warnings():
                self._warns(one)

    def effect(self, k: int = 0) -> str:
        """All that the k-th newest event changed, a line each, with what was before and what is behind it."""
        return long_text(library.em_effect, self._at, number_of(k, 64, "a place in the journal", "NoEvent"))

    def differences(self, k: int = 0) -> List[Difference]:
        """All that the k-th newest event changed: registers, slices of memory, "line", "link", "frames" and "sent".

        >>> from bunjelav import Machine
        >>> m = Machine()
        >>> m.IMS = 4
        >>> m.differences()
        [Difference(what='IMS', before=0, after=4)]
        """
        place, count = number_of(k, 64, "a place in the journal", "NoEvent"), SIZE_T()
        room: Any = (_tables.Difference * 64)()
        number = library.em_differences(self._at, place, room, len(room), ctypes.byref(count))
        if number == _tables.REFUSALS["Room"]:
            room = (_tables.Difference * count.value)()
            number = library.em_differences(self._at, place, room, len(room), ctypes.byref(count))
        must(number)
        return [difference_of(one) for one in room[: count.value]]

    def fifo(self) -> Fifo:
        """What waits in the FIFO, and what is gathered for the next frame to be sent."""
        told, length = _tables.Fifo(), SIZE_T()
        must(library.em_fifo(self._at, ctypes.byref(told)))
        first = ctypes.create_string_buffer(max(told.octets, 1))
        must(library.em_fifo_frame(self._at, first, len(first), ctypes.byref(length)))
        gathered = ctypes.create_string_buffer(max(told.gathered, 1))
        must(library.em_gathered(self._at, gathered, len(gathered), ctypes.byref(length)))
        tag = told.tag if told.tagged else None
        return Fifo(told.frames, first.raw[: told.octets], tag, gathered.raw[: told.gathered])

    def fifo_room(self) -> int:
        """How many octets have room in the FIFO now: a frame of no more finds room, whatever it is."""
        octets = SIZE_T()
        must(library.em_fifo_room(self._at, ctypes.byref(octets)))
        return octets.value

    def fifo_text(self) -> str:
        """How many frames wait in the FIFO, and the first of them, as text."""
        return long_text(library.em_fifo_text, self._at)

    def ring_text(self, which: str) -> str:
        """The ring "rx" or "tx" as text: what the registers say, and up to 64 descriptors around the head."""
        if which not in _tables.RINGS:
            raise ValueError('a ring is "rx" or "tx"')
        return long_text(library.em_ring_text, self._at, _tables.RINGS[which])
