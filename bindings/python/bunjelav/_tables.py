"""Numbers, layouts and calls of bunjelav.h.

Written by bindings/tables.py, of the crate em_c: change it there, and run that.
"""
from ctypes import CFUNCTYPE, POINTER, Structure, c_bool, c_char_p, c_int, c_size_t, c_uint8, c_uint16, c_uint32
from ctypes import c_uint64, c_void_p

VERSION = "0.1.0"
REGISTERS = 392
MOST_SENT = 16384
MOST_WATCHED = 16

# by name, the number of each refusal
REFUSALS = {
    "NoRegister": 1,
    "Range": 2,
    "Length": 3,
    "DmaRange": 4,
    "Extended": 5,
    "TooLong": 6,
    "Memory": 9,
    "Budget": 24,
    "NotMade": 26,
    "MadeAlready": 27,
    "Size": 28,
    "NoFrame": 29,
    "Room": 30,
    "NoEvent": 31,
    "NoChange": 32,
    "NoWatch": 33,
    "NoName": 34,
    "NoRefusal": 35,
    "NoRing": 36,
    "NoDescriptor": 37,
    "Busy": 38,
    "Unread": 39,
    "Unwritten": 40,
    "NoRam": 41,
    "Begun": 42,
    "Recorded": 43,
    "File": 44,
    "Unrecorded": 45,
    "Width": 46,
    "NotOpen": 47,
    "OpenAlready": 48,
    "CaptureEnd": 49,
    "CaptureMagic": 50,
    "CaptureVersion": 51,
    "CaptureCut": 52,
    "CaptureBlock": 53,
    "CaptureLink": 54,
    "CaptureLength": 55,
    "CaptureInterface": 56,
    "NoProfile": 57,
    "StoredMagic": 58,
    "StoredVersion": 59,
    "StoredLength": 60,
    "StoredSum": 61,
    "StoredValue": 62,
}

# by number, what each kind of event is called
KINDS = {
    1: "read",
    2: "write",
    3: "poke",
    4: "link up",
    5: "link down",
    6: "receive idle",
    7: "wrote",
    8: "transmit idle",
    9: "fetched",
    10: "sent",
    11: "stored",
    12: "dropped: down",
    13: "dropped: disabled",
    14: "dropped: rejected",
    15: "dropped: undersize",
    16: "dropped: oversize",
    17: "dropped: missed",
}

# by name, the number of each kind of watch
WATCHES = {
    "register": 1,
    "octets": 2,
    "line": 3,
    "link": 4,
    "frames": 5,
    "sent": 6,
    "phy": 7,
}

# by name, the number of each ring
RINGS = {
    "rx": 1,
    "tx": 2,
}

# by name, the number of each profile
PROFILES = {
    "table": 0,
    "adapter": 1,
}

# by number, what each rule by which an event does nothing is called
RULES = {
    0: "no rule",
    1: "rx disabled",
    2: "rx no ring",
    3: "rx head past",
    4: "rx tail past",
    5: "rx empty",
    6: "rx no frame",
    7: "tx disabled",
    8: "tx no ring",
    9: "tx head past",
    10: "tx tail past",
    11: "tx empty",
    12: "frame down",
    13: "frame disabled",
    14: "frame unicast",
    15: "frame multicast",
    16: "frame broadcast",
    17: "frame undersize",
    18: "frame oversize",
    19: "frame vlan",
    20: "frame missed",
    21: "no register",
    22: "write range",
    23: "write length",
    24: "frame length",
    25: "rx descriptor",
    26: "rx buffer",
    27: "tx descriptor",
    28: "tx extended",
    29: "tx too long",
    30: "tx buffer",
    31: "memory",
    32: "frame control",
    33: "frame cfi",
    34: "frame pause",
    35: "tx link down",
}

# by number, what each rule by which an access has a warning is called
WARNINGS = {
    1: "bits dropped",
    2: "tail past ring",
    3: "enabled before ring",
    4: "descriptor unwritten",
    5: "status left",
    6: "interrupts before rings",
    7: "read again",
    8: "ring outside memory",
    9: "buffers overlap",
    10: "tail past head",
    11: "head while enabled",
    12: "written while owned",
}

# by number, what each thing that can be wrong with a descriptor is called
TROUBLES = {
    1: "outside",
    2: "extended",
    3: "no length",
    4: "too long",
    5: "buffer outside",
    6: "over ring",
    7: "over buffer",
}


READ = CFUNCTYPE(c_bool, c_void_p, c_uint64, c_void_p, c_size_t)
WRITE = CFUNCTYPE(c_bool, c_void_p, c_uint64, c_void_p, c_size_t)


class Region(Structure):
    _fields_ = [("base", c_uint64), ("size", c_uint64), ("octets", c_void_p)]


class Ram(Structure):
    _fields_ = [
        ("context", c_void_p),
        ("read", READ),
        ("write", WRITE),
        ("regions", POINTER(Region)),
        ("count", c_size_t),
    ]


class Handle(Structure):
    _fields_ = [("made", c_bool), ("held", c_void_p), ("ram", Ram), ("state", c_uint32)]


class Pcap(Structure):
    _fields_ = [("made", c_bool), ("held", c_void_p)]


class Register(Structure):
    _fields_ = [
        ("offset", c_uint32),
        ("value", c_uint32),
    ]


class PcapFrame(Structure):
    _fields_ = [
        ("nanoseconds", c_uint64),
        ("original", c_uint32),
        ("timed", c_uint32),
    ]


class Difference(Structure):
    _fields_ = [
        ("address", c_uint64),
        ("value", c_uint64),
        ("now", c_uint64),
        ("kind", c_uint32),
        ("offset", c_uint32),
        ("octets", c_size_t),
        ("before", c_uint8 * 16),
        ("after", c_uint8 * 16),
    ]


class Entry(Structure):
    _fields_ = [
        ("address", c_uint64),
        ("buffer", c_uint64),
        ("index", c_uint32),
        ("length", c_uint32),
        ("status", c_uint32),
        ("errors", c_uint32),
        ("command", c_uint32),
        ("adapters", c_uint32),
        ("head", c_uint32),
        ("tail", c_uint32),
        ("trouble", c_uint32),
        ("other", c_uint32),
        ("text", c_uint8 * 256),
    ]


class Field(Structure):
    _fields_ = [
        ("mask", c_uint32),
        ("lowest", c_uint32),
        ("name", c_uint8 * 16),
    ]


class Fifo(Structure):
    _fields_ = [
        ("frames", c_uint64),
        ("octets", c_uint64),
        ("gathered", c_uint64),
        ("tagged", c_uint32),
        ("tag", c_uint32),
    ]


class Note(Structure):
    _fields_ = [
        ("tag", c_uint64),
        ("at", c_uint64),
        ("length", c_uint32),
        ("value", c_uint32),
        ("kind", c_uint32),
        ("octets", c_uint32),
        ("buffer", c_uint64),
    ]


class Range(Structure):
    _fields_ = [
        ("address", c_uint64),
        ("length", c_uint64),
    ]


class Reason(Structure):
    _fields_ = [
        ("address", c_uint64),
        ("buffer", c_uint64),
        ("octets", c_uint64),
        ("most", c_uint64),
        ("base", c_uint64),
        ("memory", c_uint64),
        ("rule", c_uint32),
        ("index", c_uint32),
        ("count", c_uint32),
        ("value", c_uint32),
        ("to", c_uint8 * 6),
        ("text", c_uint8 * 256),
    ]


class RingSetup(Structure):
    _fields_ = [
        ("base", c_uint64),
        ("count", c_uint32),
        ("head", c_uint32),
        ("tail", c_uint32),
        ("buffer", c_uint32),
        ("enabled", c_uint32),
    ]


class Descriptor(Structure):
    _fields_ = [
        ("octets", c_uint8 * 16),
        ("adapters", c_uint32),
    ]


class Warning(Structure):
    _fields_ = [
        ("address", c_uint64),
        ("rule", c_uint32),
        ("offset", c_uint32),
        ("index", c_uint32),
        ("count", c_uint32),
        ("kept", c_uint32),
        ("written", c_uint32),
        ("causes", c_uint32),
        ("text", c_uint8 * 256),
    ]


class Watch(Structure):
    _fields_ = [
        ("kind", c_uint32),
        ("offset", c_uint32),
        ("address", c_uint64),
        ("octets", c_size_t),
    ]


class Change(Structure):
    _fields_ = [
        ("back", c_size_t),
        ("value", c_uint64),
        ("before", c_uint8 * 16),
    ]


# by call, the types of what it takes
CALLS = {
    "em_registers": [POINTER(Handle), POINTER(Register), c_size_t, POINTER(c_size_t)],
    "em_back": [POINTER(Handle), c_size_t, POINTER(c_size_t)],
    "em_can_go_back": [POINTER(Handle), POINTER(c_size_t)],
    "em_copy": [POINTER(Handle), POINTER(Handle)],
    "em_differences": [POINTER(Handle), c_size_t, POINTER(Difference), c_size_t, POINTER(c_size_t)],
    "em_ring_entry": [POINTER(Handle), c_uint32, c_uint32, POINTER(Entry)],
    "em_field": [c_uint32, c_size_t, POINTER(Field)],
    "em_value_text": [c_uint32, c_uint32, c_void_p, c_size_t, POINTER(c_size_t)],
    "em_fifo": [POINTER(Handle), POINTER(Fifo)],
    "em_fifo_room": [POINTER(Handle), POINTER(c_size_t)],
    "em_fifo_frame": [POINTER(Handle), c_void_p, c_size_t, POINTER(c_size_t)],
    "em_gathered": [POINTER(Handle), c_void_p, c_size_t, POINTER(c_size_t)],
    "em_let_go": [POINTER(Handle), POINTER(c_size_t)],
    "em_make": [POINTER(Handle), c_uint64, c_uint64, c_void_p],
    "em_make_with_eeprom": [POINTER(Handle), c_uint64, c_uint64, POINTER(c_uint16)],
    "em_make_at": [POINTER(Handle), c_uint64, c_uint64, c_uint64, c_void_p],
    "em_make_at_with_eeprom": [POINTER(Handle), c_uint64, c_uint64, c_uint64, POINTER(c_uint16)],
    "em_make_as": [POINTER(Handle), c_uint32, c_uint64, c_uint64, c_uint64, c_void_p],
    "em_make_as_with_eeprom": [POINTER(Handle), c_uint32, c_uint64, c_uint64, c_uint64, POINTER(c_uint16)],
    "em_free": [POINTER(Handle)],
    "em_poke": [POINTER(Handle), c_uint64, c_void_p, c_size_t],
    "em_peek": [POINTER(Handle), c_uint64, c_void_p, c_size_t],
    "em_memory_base": [POINTER(Handle), POINTER(c_uint64)],
    "em_memory_size": [POINTER(Handle), POINTER(c_uint64)],
    "em_name": [c_uint32, c_void_p, c_size_t, POINTER(c_size_t)],
    "em_find": [c_void_p, c_size_t, POINTER(c_uint32)],
    "em_wire_next": [POINTER(Handle), c_void_p, c_size_t, POINTER(c_size_t)],
    "em_tag": [POINTER(Handle), c_uint64],
    "em_event": [POINTER(Handle), c_size_t, POINTER(Note)],
    "em_pcap_of": [POINTER(Pcap), c_void_p, c_size_t],
    "em_pcap_next": [POINTER(Pcap), c_void_p, c_size_t, POINTER(c_size_t), POINTER(PcapFrame)],
    "em_pcap_fault": [POINTER(Pcap), POINTER(c_size_t)],
    "em_pcap_close": [POINTER(Pcap)],
    "em_profile": [POINTER(Handle), POINTER(c_uint32)],
    "em_ring_needs": [POINTER(Handle), c_uint32, POINTER(Range), POINTER(Range)],
    "em_written": [POINTER(Handle), c_size_t, POINTER(Range)],
    "em_refusal": [c_uint32, c_void_p, c_size_t, POINTER(c_size_t)],
    "em_read": [POINTER(Handle), c_uint32, POINTER(c_uint32)],
    "em_write": [POINTER(Handle), c_uint32, c_uint32],
    "em_look": [POINTER(Handle), c_uint32, POINTER(c_uint32)],
    "em_ring": [POINTER(Handle), c_uint32, POINTER(RingSetup)],
    "em_ring_descriptor": [POINTER(Handle), c_uint32, c_uint32, POINTER(Descriptor)],
    "em_run_rx": [POINTER(Handle), c_size_t, POINTER(c_size_t)],
    "em_run_tx": [POINTER(Handle), c_size_t, POINTER(c_size_t)],
    "em_read_sized": [POINTER(Handle), c_uint32, c_uint32, POINTER(c_uint64)],
    "em_write_sized": [POINTER(Handle), c_uint32, c_uint32, c_uint64],
    "em_store": [POINTER(Handle), c_void_p, c_size_t, POINTER(c_size_t)],
    "em_load": [POINTER(Handle), c_void_p, c_size_t],
    "em_sync_out": [POINTER(Handle), c_void_p, c_size_t],
    "em_sync_in": [POINTER(Handle), c_void_p, c_size_t, POINTER(c_size_t)],
    "em_sync_out_range": [POINTER(Handle), c_uint64, c_void_p, c_size_t],
    "em_sync_in_range": [POINTER(Handle), c_uint64, c_void_p, c_size_t, POINTER(c_size_t)],
    "em_ring_text": [POINTER(Handle), c_uint32, c_void_p, c_size_t, POINTER(c_size_t)],
    "em_fifo_text": [POINTER(Handle), c_void_p, c_size_t, POINTER(c_size_t)],
    "em_effect": [POINTER(Handle), c_size_t, c_void_p, c_size_t, POINTER(c_size_t)],
    "em_warnings": [POINTER(Handle), POINTER(Warning), POINTER(c_size_t)],
    "em_last_change": [POINTER(Handle), POINTER(Watch), POINTER(Change)],
    "em_why": [POINTER(Handle), POINTER(Note), c_uint32, c_void_p, c_size_t, POINTER(Reason)],
    "em_arrive": [POINTER(Handle), c_void_p, c_size_t, POINTER(Note)],
    "em_set_link": [POINTER(Handle), c_bool],
    "em_rx_step": [POINTER(Handle), POINTER(Note)],
    "em_tx_step": [POINTER(Handle), POINTER(Note)],
    "em_line": [POINTER(Handle), POINTER(c_uint32)],
    "em_loops": [POINTER(Handle), POINTER(c_uint32)],
    "em_wire_count": [POINTER(Handle), POINTER(c_size_t)],
    "em_wire_frame": [POINTER(Handle), c_size_t, c_void_p, c_size_t, POINTER(c_size_t)],
    "em_attach": [POINTER(Handle), POINTER(Ram)],
    "em_detach": [POINTER(Handle)],
    "em_record_to": [POINTER(Handle), c_char_p],
    "em_record_mapped": [POINTER(Handle), c_char_p],
    "em_recording_status": [POINTER(Handle), POINTER(c_int)],
    "em_source": [POINTER(Handle), c_char_p, c_uint32],
    "em_save": [POINTER(Handle), c_char_p],
    "em_let_go_always": [POINTER(Handle), c_bool],
    "em_pcap_write": [POINTER(Handle), c_char_p, POINTER(c_uint64)],
    "em_pcap_open": [POINTER(Pcap), c_char_p],
    "em_strerror": [c_uint32],
    "em_version": [],
}

# those that give a text, and its type
TEXTS = {
    "em_strerror": c_char_p,
    "em_version": c_char_p,
}
