"""What is told of a machine: events, changes, descriptors, and what a step needs of memory."""
from __future__ import annotations

from typing import Iterable, List, NamedTuple, Union

from . import _tables


class Event(NamedTuple):
    """An event that was performed: what it was, where, how many octets, which value, and the caller's tag. Of a step of an
    engine that was not idle `at` is the descriptor's address, `value` its index, and `buffer` and `octets` say which
    octets of guest memory the step wrote into its buffer or read there."""

    kind: str
    at: int
    length: int
    value: int
    tag: int
    buffer: int = 0
    octets: int = 0

    @property
    def is_stored(self) -> bool:
        """Whether it is a frame that arrived and lies in the FIFO."""
        return self.kind == "stored"

    @property
    def is_idle(self) -> bool:
        """Whether it is a step of an engine that had nothing to do."""
        return self.kind.endswith("idle")


class Change(NamedTuple):
    """A change of what is watched: so many steps back lead before its event, where this was seen."""

    back: int
    before: Union[int, bytes]
    event: Event


# the kinds of events that did nothing
UNDONE = {number for number, words in _tables.KINDS.items() if words.endswith("idle") or words.startswith("dropped")}

KIND = {words: number for number, words in _tables.KINDS.items()}


class RxDescriptor(NamedTuple):
    """A receive descriptor; `owned` says that it is the adapter's, `trouble` what is wrong with it, if anything is."""

    index: int  # type: ignore[assignment]  # (a tuple has a method of this name)
    owned: bool
    address: int
    length: int
    status: int
    errors: int
    special: int
    trouble: str


class TxDescriptor(NamedTuple):
    """A transmit descriptor; `owned` says that it is the adapter's, `trouble` what is wrong with it, if anything is."""

    index: int  # type: ignore[assignment]  # (a tuple has a method of this name)
    owned: bool
    address: int
    length: int
    command: int
    status: int
    special: int
    trouble: str


class Needs(NamedTuple):
    """What a step reads of guest memory and what it writes there, as slices; none of them is empty."""

    reads: List[slice]
    writes: List[slice]


def slices(ranges: Iterable[_tables.Range]) -> List[slice]:
    return [slice(it.address, it.address + it.length) for it in ranges if it.length]


def event_of(note: _tables.Note) -> Event:
    kind = _tables.KINDS.get(note.kind, f"unknown kind {note.kind}")
    return Event(kind, note.at, note.length, note.value, note.tag, note.buffer, note.octets)
