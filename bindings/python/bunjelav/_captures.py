"""Captures: the frames of a pcap or a pcapng, and the error of a file that is not opened, read or written."""
from __future__ import annotations

import ctypes
import os
from typing import Iterator, NamedTuple, Optional, Union

from . import _tables
from ._native import DONE, SIZE_T, library, octets_of, refused

PathOf = Union[str, "os.PathLike[str]", "os.PathLike[bytes]"]

# how many octets the shortest frame on a wire has
_LEAST = 60
# no frame of a capture that tcpdump or Wireshark writes is longer
_ROOM = 262144


class CapturedFrame(NamedTuple):
    """A frame of a capture: what was captured of it, how many octets it had, and when it was captured, in nanoseconds
    since 1970 began, where the capture says that."""

    octets: bytes
    original: int
    nanoseconds: Optional[int]

    @property
    def is_cut(self) -> bool:
        """Whether fewer octets were captured than it had."""
        return len(self.octets) < self.original

    @property
    def arriving(self) -> bytes:
        """What arrives of it: its octets, and zeros up to 60 where it was captured before it was padded, since no
        frame on a wire has fewer."""
        return self.octets if self.original >= _LEAST else self.octets.ljust(_LEAST, b"\0")


class _Capture:
    """A capture that is open."""

    def __init__(self, source: Union[bytes, bytearray, memoryview, PathOf]) -> None:
        self._handle = _tables.Pcap()
        self._at = ctypes.byref(self._handle)
        self._room = ctypes.create_string_buffer(_ROOM)
        if isinstance(source, (bytes, bytearray, memoryview)):
            octets = octets_of(source, "a capture")
            must_of_file(library.em_pcap_of(self._at, octets, len(octets)), "")
        else:
            must_of_file(library.em_pcap_open(self._at, os.fsencode(source)), source)

    def __del__(self) -> None:
        if "_room" in self.__dict__:
            library.em_pcap_close(self._at)

    def next_frame(self) -> Optional[CapturedFrame]:
        """The next frame; none where the capture ends."""
        length, told = SIZE_T(), _tables.PcapFrame()
        words = ctypes.byref(length), ctypes.byref(told)
        number = library.em_pcap_next(self._at, self._room, len(self._room), *words)
        if number == _tables.REFUSALS["Room"]:
            self._room = ctypes.create_string_buffer(length.value)
            number = library.em_pcap_next(self._at, self._room, len(self._room), *words)
        if number == _tables.REFUSALS["CaptureEnd"]:
            return None
        if number != DONE:
            fault, offset = refused(number), SIZE_T()
            library.em_pcap_fault(self._at, ctypes.byref(offset))
            fault.offset = offset.value
            raise fault
        octets = ctypes.string_at(self._room, length.value)
        return CapturedFrame(octets, told.original, told.nanoseconds if told.timed else None)


def must_of_file(number: int, path: object) -> None:
    """Raises the exception of a refusal; of a file the host's error is its cause."""
    if number == _tables.REFUSALS["File"]:
        error = ctypes.get_errno()
        raise refused(number) from OSError(error, os.strerror(error), path)
    if number != DONE:
        raise refused(number)


def _frames(capture: _Capture) -> Iterator[CapturedFrame]:
    while True:
        frame = capture.next_frame()
        if frame is None:
            return
        yield frame


def frames_of(capture: Union[bytes, bytearray, memoryview, PathOf]) -> Iterator[CapturedFrame]:
    """The frames of a capture, pcap or pcapng, in a file at a path, or of the octets of one, in their order. The file
    is read whole before the first one. Where it can't be read, File is raised from the OSError, and at once; a fault
    within it, as CaptureCut, behind the frames before it: its `offset` says where it is.

    >>> for frame in frames_of("frames.pcap"):  # doctest: +SKIP
    ...     m.arrive(frame.arriving)
    """
    return _frames(_Capture(capture))
