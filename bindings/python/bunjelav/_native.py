"""The library, and what each call of it takes and gives: numbers, octets, names and refusals."""
from __future__ import annotations

import ctypes
import operator
import os
from pathlib import Path
from typing import Callable, Dict, Optional, Union

from . import _tables
from ._refusals import Refused

Register = Union[str, int]

DONE = 0
# the calls that give nothing
NOTHING = ("em_free", "em_pcap_close")
SIZE_T, U32, U64 = ctypes.c_size_t, ctypes.c_uint32, ctypes.c_uint64


def found() -> Path:
    """Where the library lies."""
    named = os.environ.get("BUNJELAV_LIBRARY")
    here = Path(__file__).resolve().parent
    places = [here, here.parent.parent / "c" / "out", here.parents[2] / "dist" / "x86_64-linux"]
    for place in [Path(named)] if named else [it / "libbunjelav.so" for it in places]:
        if place.is_file():
            return place
    raise ImportError("there is no libbunjelav.so: BUNJELAV_LIBRARY says where it lies, or bindings/c/build makes it")


def opened(path: Path) -> ctypes.CDLL:
    """The library, which is of this package's version: in another one a layout may be longer."""
    made = ctypes.CDLL(str(path), use_errno=True)
    for name, types in _tables.CALLS.items():
        call = getattr(made, name, None)
        if call is None:
            raise ImportError(f"{path} has no {name}: it is older than this package, which is {_tables.VERSION}")
        call.argtypes, call.restype = types, _tables.TEXTS.get(name, None if name in NOTHING else U32)
    version = made.em_version().decode()
    if version != _tables.VERSION:
        raise ImportError(f"{path} is of version {version}, and this package of {_tables.VERSION}")
    return made


library = opened(found())


# ---- refusals


def text_of(call: Callable[..., int], *words: int) -> Optional[str]:
    """The text that a call puts into room for it."""
    room, length = ctypes.create_string_buffer(128), SIZE_T()
    return room.raw[: length.value].decode() if call(*words, room, 128, ctypes.byref(length)) == DONE else None


_BY_NUMBER = {refusal.number: refusal for refusal in Refused.__subclasses__()}


def refused(number: int, done: int = 0) -> Refused:
    """The exception of a refusal, which says what the library says of it."""
    kind = _BY_NUMBER.get(number)
    text = library.em_strerror(number).decode().partition(": ")[2]
    made = kind(text) if kind else Refused(f"refusal {number}")
    made.done = done
    return made


def long_octets(call: Callable[..., int], *words: object) -> bytes:
    """The octets that a call puts into room for them, however many they are."""
    room, length = ctypes.create_string_buffer(4096), SIZE_T()
    number = call(*words, room, len(room), ctypes.byref(length))
    if number == _tables.REFUSALS["Room"]:
        room = ctypes.create_string_buffer(length.value + 1)  # (behind a text stands a zero)
        number = call(*words, room, len(room), ctypes.byref(length))
    must(number)
    return ctypes.string_at(room, length.value)


def long_text(call: Callable[..., int], *words: object) -> str:
    """The same of a text."""
    return long_octets(call, *words).decode()


def must(number: int, done: int = 0) -> None:
    """Raises the exception of a refusal."""
    if number != DONE:
        raise refused(number, done)


# ---- what is taken: the library sees no number that is longer than the call's


def number_of(value: int, bits: int, what: str, refusal: str = "") -> int:
    """A number of so many bits; another one is refused as the model would, where a refusal is named for it."""
    number = operator.index(value)
    if 0 <= number < 2**bits:
        return number
    if refusal:
        raise refused(_tables.REFUSALS[refusal])
    raise ValueError(f"{what} is a number from 0 to 2^{bits} - 1, and not {number}")


def octets_of(value: bytes, what: str) -> bytes:
    """Octets, given as bytes, as what has a buffer of them, or one by one."""
    if isinstance(value, (int, str)):
        raise TypeError(f"{what} is octets, and not {type(value).__name__}")
    return bytes(value)


# ---- names


def offset_of(register: Register) -> int:
    """The offset of a register, by its name or by itself."""
    if not isinstance(register, str):
        return number_of(register, 32, "an offset", "NoRegister")
    word, offset = register.encode(), U32()
    must(library.em_find(word, len(word), ctypes.byref(offset)))
    return offset.value


def name_of(offset: int) -> str:
    """The manual's name of the register at an offset."""
    name = text_of(library.em_name, number_of(offset, 32, "an offset", "NoRegister"))
    if name is None:
        raise refused(_tables.REFUSALS["NoRegister"])
    return name


def bits_of(register: Register, value: int) -> Dict[str, int]:
    """What each bit and each field of a register holds, by the manual's name, in a value of it.

    >>> bits_of("PBA", 0x00100030)
    {'RXA': 48, 'TXA': 16}
    """
    given, found, one = number_of(value, 32, "what a register holds"), {}, _tables.Field()
    offset = offset_of(register)
    must(library.em_field(offset, 0, ctypes.byref(one)))
    while one.mask:
        found[letters_of(one)] = (given & one.mask) // one.lowest
        must(library.em_field(offset, len(found), ctypes.byref(one)))
    return found


def words_of(register: Register, value: int) -> str:
    """A register's name, a value of it, and the names of the bits and fields that are set in it.

    >>> words_of("RCTL", 0x8002)
    'RCTL 00008002 EN BAM BSIZE=2048'
    """
    given = number_of(value, 32, "what a register holds")
    return long_text(library.em_value_text, offset_of(register), given)


def letters_of(told: _tables.Field) -> str:
    return bytes(told.name).partition(b"\0")[0].decode()
