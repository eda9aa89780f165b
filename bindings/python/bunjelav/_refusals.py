"""What the model refuses.

Written by bindings/tables.py, of the crate em_c: change it there, and run that.
"""
__all__ = [
    "Refused", "NoRegister", "Range", "Length", "DmaRange", "Extended", "TooLong", "Memory", "Budget", "NotMade",
    "MadeAlready", "Size", "NoFrame", "Room", "NoEvent", "NoChange", "NoWatch", "NoName", "NoRefusal", "NoRing",
    "NoDescriptor", "Busy", "Unread", "Unwritten", "NoRam", "Begun", "Recorded", "File", "Unrecorded", "Width",
    "NotOpen", "OpenAlready", "CaptureEnd", "CaptureMagic", "CaptureVersion", "CaptureCut", "CaptureBlock",
    "CaptureLink", "CaptureLength", "CaptureInterface", "NoProfile", "StoredMagic", "StoredVersion", "StoredLength",
    "StoredSum", "StoredValue",
]


class Refused(Exception):
    """Why a call did nothing: each refusal is a class of its own below this one, of the refusal's name."""

    # the refusal's number
    number = 0
    # of `run` how many steps, and of `sync_in` how many writes, went well before; they stay
    # of `back` how many events were taken back
    done = 0
    # of an event by which rule it was refused, as `Machine.why` says
    why: object = None
    # of what is wrong with a capture where in its file it is
    offset = 0


class NoRegister(Refused):
    """No register lies at the offset."""

    number = 1


class Range(Refused):
    """The range leaves guest memory."""

    number = 2


class Length(Refused):
    """A memory write outside 1 to 16,384 octets, or a frame outside 14 to 20,000."""

    number = 3


class DmaRange(Refused):
    """A descriptor or its buffer leaves guest memory."""

    number = 4


class Extended(Refused):
    """A transmit descriptor is extended (DEXT)."""

    number = 5


class TooLong(Refused):
    """The gathered octets would exceed 16,380."""

    number = 6


class Memory(Refused):
    """The host refused memory."""

    number = 9


class Budget(Refused):
    """The budget lies outside 65,536 to 16,777,216."""

    number = 24


class NotMade(Refused):
    """The handle holds no machine."""

    number = 26


class MadeAlready(Refused):
    """The handle holds a machine already."""

    number = 27


class Size(Refused):
    """Guest memory can not have that size, or not lie there."""

    number = 28


class NoFrame(Refused):
    """So many frames were not sent."""

    number = 29


class Room(Refused):
    """What is told has more octets than there is room for."""

    number = 30


class NoEvent(Refused):
    """The journal does not hold so many events."""

    number = 31


class NoChange(Refused):
    """The journal holds no change of what is watched."""

    number = 32


class NoWatch(Refused):
    """A watch of a kind that there is not."""

    number = 33


class NoName(Refused):
    """No register has the name."""

    number = 34


class NoRefusal(Refused):
    """No refusal has the number."""

    number = 35


class NoRing(Refused):
    """There is no ring of the number."""

    number = 36


class NoDescriptor(Refused):
    """The ring has no descriptor of the index."""

    number = 37


class Busy(Refused):
    """A function of the attached memory made the call."""

    number = 38


class Unread(Refused):
    """The caller's memory was not read: its function gave false, or no region has all octets."""

    number = 39


class Unwritten(Refused):
    """The caller's memory was not written: its function gave false, or no region has all octets."""

    number = 40


class NoRam(Refused):
    """What is attached has neither both functions nor a region."""

    number = 41


class Begun(Refused):
    """A run is kept from its first event on, and the machine has performed one."""

    number = 42


class Recorded(Refused):
    """The run is kept already."""

    number = 43


class File(Refused):
    """The file was not opened, or not written."""

    number = 44


class Unrecorded(Refused):
    """The run is not kept."""

    number = 45


class Width(Refused):
    """An access of a register that has not four octets."""

    number = 46


class NotOpen(Refused):
    """The handle holds no capture."""

    number = 47


class OpenAlready(Refused):
    """The handle holds a capture already."""

    number = 48


class CaptureEnd(Refused):
    """Each frame of the capture was handed over, and it ends there."""

    number = 49


class CaptureMagic(Refused):
    """The capture's file, or a section of it, begins with no number that is known."""

    number = 50


class CaptureVersion(Refused):
    """The capture, or a section of it, has a version that is not known."""

    number = 51


class CaptureCut(Refused):
    """The capture is cut within a header, a record or a block."""

    number = 52


class CaptureBlock(Refused):
    """A block of the capture has a wrong length."""

    number = 53


class CaptureLink(Refused):
    """The capture has another link type than Ethernet."""

    number = 54


class CaptureLength(Refused):
    """A packet of the capture has more octets than its snap length or its block allows."""

    number = 55


class CaptureInterface(Refused):
    """A packet of the capture is of an interface that its section has not described."""

    number = 56


class NoProfile(Refused):
    """There is no profile of the number."""

    number = 57


class StoredMagic(Refused):
    """The octets of a machine do not begin with BUNJELAV."""

    number = 58


class StoredVersion(Refused):
    """The octets of a machine have a version that is not known."""

    number = 59


class StoredLength(Refused):
    """The octets of a machine are not as many as they say."""

    number = 60


class StoredSum(Refused):
    """The octets of a machine have another check sum than they say."""

    number = 61


class StoredValue(Refused):
    """No machine is stored as these octets."""

    number = 62
