"""Each call of the Python binding once, and each refusal: what they give was worked out from the manual's tables."""
import array
import copy
import doctest
import errno
import inspect
import mmap
import os
import pickle
import tempfile
import unittest
import zlib
from pathlib import Path

import bunjelav
from bunjelav import Machine, _tables, name_of, offset_of

RING, BUFFER = 0x1000, 0x4000
FRAME = bytes.fromhex("ffffffffffff525400999999") + bytes(48)


def receiving() -> Machine:
    """A machine that receives into a ring of 8 descriptors."""
    m = Machine()
    m.link = True
    for i in range(8):
        m.memory[RING + 16 * i : RING + 16 * i + 8] = (BUFFER + 0x800 * i).to_bytes(8, "little")
    m.RDBAL, m.RDLEN, m.RDT, m.RCTL = RING, 128, 4, 0x8002
    return m


class Making(unittest.TestCase):
    def test_an_address_and_words(self):
        self.assertEqual(Machine(mac=bytes([2, 0, 0, 0, 0, 1])).RAL0, 2)
        words = [0] * 64
        words[0] = 0x1234
        self.assertEqual(Machine(eeprom=words)["RAL0"], 0x1234)

    def test_what_is_refused(self):
        self.assertRaises(bunjelav.Size, Machine, memory=4097)
        self.assertRaises(bunjelav.Budget, Machine, budget=1)
        self.assertRaises(ValueError, Machine, mac=b"12345")
        self.assertRaises(ValueError, Machine, eeprom=[1])

    def test_freed(self):
        with Machine() as m:
            pass
        self.assertRaises(bunjelav.NotMade, m.read, "ICR")
        self.assertRaises(bunjelav.NotMade, m.copy)
        self.assertEqual(repr(m), "<Machine, freed>")


class Copies(unittest.TestCase):
    def test_a_copy_goes_back_by_itself(self):
        m = receiving()
        m.tag(5)
        m.arrive(FRAME)
        m.rx_step()
        for made in m.copy(), copy.copy(m), copy.deepcopy(m):
            self.assertEqual((made.registers(), made.reach), (m.registers(), m.reach))
            self.assertEqual((made.memory[:], list(made.events())), (m.memory[:], list(m.events())))
            made.IMS = 1
            self.assertEqual((made.event().tag, made["IMS"], m["IMS"]), (5, 1, 0))
            self.assertEqual(made.back(2), 2)
            self.assertEqual((made["RDH"], made.memory[BUFFER], made.fifo().frames), (0, 0, 1))
            self.assertEqual((m["RDH"], m.memory[BUFFER], m.fifo().frames), (1, 0xFF, 0))
        m.close()
        self.assertEqual(made.rx_step().kind, "wrote")

    def test_what_is_the_callers_is_not_copied(self):
        ram, warned = bytearray(65536), []
        m = Machine()
        m.attach(ram)
        m.warn(warned.append)
        made = m.copy()
        made.memory[0:4] = b"abcd"
        m.memory[4:8] = b"efgh"
        self.assertEqual((bytes(ram[:8]), made.memory[4:8]), (b"\0\0\0\0efgh", bytes(4)))
        made.RDLEN, made.RDT = 128, 8
        self.assertEqual(warned, [])
        self.assertFalse(made.recording())
        made.attach(ram)
        made.memory[0:4] = b"abcd"
        self.assertEqual(bytes(ram[:8]), b"abcdefgh")


def with_sum(octets: bytes, at: int, octet: int) -> bytes:
    """Another octet at a place, and the check sum that they then have."""
    made = octets[:at] + bytes([octet]) + octets[at + 1 : -4]
    return made + zlib.crc32(made).to_bytes(4, "little")


class Stored(unittest.TestCase):
    def running(self) -> Machine:
        """A machine that has sent two frames, of which one was handed over; one frame waits."""
        m = receiving()
        m.tag(5)
        m.memory[0x2000:0x2010] = BUFFER.to_bytes(8, "little") + bytes([60, 0, 0, 9]) + bytes(4)
        m.memory[BUFFER : BUFFER + 60] = FRAME
        m.TDBAL, m.TDLEN, m.TCTL, m.TDT = 0x2000, 128, 2, 1
        m.tx_step()
        self.assertEqual(next(m.wire_next()), FRAME)
        m.TDH = 0
        m.tx_step()
        m.arrive(FRAME)
        return m

    def test_a_loaded_machine_goes_on(self):
        m = self.running()
        octets = m.store()
        self.assertEqual((octets[:12], octets[12:20]), (b"BUNJELAV\1\0\0\0", (1).to_bytes(8, "little")))
        self.assertEqual(octets[-12:-4], len(octets).to_bytes(8, "little"))
        self.assertEqual(octets[-4:], zlib.crc32(octets[:-4]).to_bytes(4, "little"))
        for made in Machine.load(octets), Machine.load(bytearray(octets)), pickle.loads(pickle.dumps(m)):
            self.assertEqual((made.registers(), made.memory[:]), (m.registers(), m.memory[:]))
            self.assertEqual((made.store(), made.reach, made.fifo().frames), (octets, 0, 1))
            self.assertEqual((made.rx_step().kind, made.event().tag, made["RDH"]), ("wrote", 0, 1))
            self.assertEqual((list(made.wire_next()), made.back(5)), ([FRAME], 1))
            self.assertEqual((made["RDH"], made.fifo().frames), (0, 1))
            self.assertRaises(bunjelav.Begun, made.record_to, os.devnull)
            self.assertRaises(bunjelav.Begun, made.save, os.devnull)
        self.assertEqual((m.store(), m.fifo().frames), (octets, 1))
        self.assertEqual(type(made), Machine)

    def test_what_is_refused(self):
        octets = self.running().store()
        for wrong, refusal in (
            (b"", bunjelav.StoredMagic), (b"b" + octets[1:], bunjelav.StoredMagic), (octets[:8], bunjelav.StoredVersion),
            (octets[:8] + b"\2" + octets[9:], bunjelav.StoredVersion), (octets[:-1], bunjelav.StoredLength),
            (octets + b"\0", bunjelav.StoredLength), (octets[:50] + b"\x77" + octets[51:], bunjelav.StoredSum),
            (with_sum(octets, 20, 2), bunjelav.StoredValue), (with_sum(octets, 12, 3), bunjelav.StoredValue),
        ):
            self.assertRaises(refusal, Machine.load, wrong)
        self.assertRaises(TypeError, Machine.load, 5)
        self.assertRaises(TypeError, Machine.load, "BUNJELAV")
        m = Machine()
        m.close()
        self.assertRaises(bunjelav.NotMade, m.store)
        self.assertRaises(bunjelav.NotMade, pickle.dumps, m)


class Registers(unittest.TestCase):
    def test_read_write_look(self):
        m = Machine()
        m.IMS = 4
        m.link = True
        self.assertTrue(m.link and m.line)
        self.assertEqual((m["ICR"], m.ICR, m.look("icr"), m[0xC0]), (4, 4, 4, 4))
        self.assertEqual((m.read("ICR"), m.read("ICR")), (4, 0))
        self.assertFalse(m.line)
        m["RDT"] = 7
        m.write("RDH", 3)
        shown = m.registers()
        self.assertEqual(list(shown), ["STATUS", "IMS", "RDH", "RDT", "RAL0", "RAH0"])
        self.assertEqual((shown["RDT"], shown["STATUS"], shown["RAH0"]), (7, 0x83, 0x80005634))

    def test_what_is_refused(self):
        m = Machine()
        self.assertRaises(bunjelav.NoRegister, m.read, 4)
        self.assertRaises(bunjelav.NoName, m.read, "RAH16")
        self.assertRaises(ValueError, m.write, "RDT", 2**32)
        self.assertRaises(ValueError, m.write, "RDT", -1)
        with self.assertRaises(AttributeError):
            m.RTD = 1
        with self.assertRaises(AttributeError):
            m.RTD

    def test_accesses_by_their_octets(self):
        m = Machine()
        m.write_sized("RAL0", 4, 0xFEDCBA9812345678)
        self.assertEqual((m.read_sized("RAL0", 4), m.RAL0), (0x12345678, 0x12345678))
        for octets in (0, 1, 2, 8, 2**32 - 1, 2**32):
            self.assertRaises(bunjelav.Width, m.read_sized, "RAL0", octets)
            self.assertRaises(bunjelav.Width, m.write_sized, "RAL0", octets, 1)
        self.assertRaises(bunjelav.NoRegister, m.read_sized, 4, 4)
        self.assertRaises(ValueError, m.write_sized, "RAL0", 4, 2**64)
        self.assertEqual((m.reach, m.RAL0), (2, 0x12345678))

    def test_names(self):
        self.assertEqual((offset_of("ims"), offset_of(0xD0), name_of(0x5200 + 4 * 127)), (0xD0, 0xD0, "MTA[127]"))
        self.assertRaises(bunjelav.NoRegister, name_of, 4)


class MemoryAndFrames(unittest.TestCase):
    def test_memory(self):
        m = Machine()
        m.memory[4094:4099] = b"hello"
        m.memory[0] = 9
        self.assertEqual((m.memory[4094:4099], m.memory[0], m.memory[-1], len(m.memory)), (b"hello", 9, 0, 65536))
        self.assertEqual(m.memory[5:5], b"")
        m.memory[0:40000] = bytes([1]) * 40000
        self.assertEqual(m.event(0).length, 40000 - 2 * 16384)
        self.assertRaises(bunjelav.Range, m.poke, 65535, b"12")
        self.assertRaises(bunjelav.Length, m.poke, 0, b"")
        self.assertRaises(ValueError, m.memory.__setitem__, slice(0, 4), b"12345")
        self.assertRaises(IndexError, m.memory.__getitem__, 65536)
        self.assertRaises(IndexError, m.memory.__setitem__, -65537, 1)
        self.assertRaises(TypeError, m.memory.__setitem__, slice(0, 4), 4)
        self.assertEqual(list(m.memory), [1] * 40000 + [0] * 25536)
        self.assertIsInstance(m.memory, bunjelav.GuestMemory)

    def test_memory_at_a_base(self):
        base = 0x180000000
        m = Machine(memory=8192, base=base)
        m.memory[base + 4094 : base + 4099] = b"hello"
        self.assertEqual((m.memory.base, len(m.memory), m.event(0).at), (base, 8192, base + 4094))
        self.assertEqual(m.memory[base + 4095], ord("e"))
        self.assertEqual(m.memory[:], bytes(4094) + b"hello" + bytes(4093))
        self.assertEqual((m.memory[0:base], m.memory[base + 8191 :], m.memory[-1]), (b"", b"\0", 0))
        self.assertRaises(bunjelav.Range, m.poke, base - 1, b"12")
        self.assertRaises(IndexError, m.memory.__getitem__, base - 1)
        self.assertRaises(IndexError, m.memory.__getitem__, base + 8192)
        self.assertEqual(m.last_change(slice(base + 4094, base + 4099)).before, bytes(5))
        self.assertEqual(m.last_change(slice(-4098, -4093)).back, 1)
        self.assertRaises(bunjelav.Range, m.last_change, slice(base - 1, base))
        self.assertRaises(bunjelav.Range, m.last_change, slice(4094, 4099))
        ram = bytearray(8192)
        m.sync_out(ram)
        self.assertEqual(bytes(ram), m.memory[:])
        self.assertEqual(len(Machine(memory=2**40, base=0).memory), 2**40)
        self.assertEqual(Machine(memory=4096, base=4096, eeprom=[0] * 64).memory.base, 4096)
        for size, at in ((4096, 1), (0, 0), (4096, 2**40), (2**40, 4096)):
            self.assertRaises(bunjelav.Size, Machine, memory=size, base=at)

    def test_profile(self):
        m = Machine(profile="adapter")
        self.assertEqual((m.profile, m.read("EECD"), m.EECD, m.memory.base), ("adapter", 0x118, 0x118, 0))
        m.MDIC = 0x08220000  # the PHY's word 2 is read
        self.assertEqual(m.look("MDIC"), 0x18220141)
        self.assertEqual(bunjelav.name_of(0x20), "MDIC")
        m = Machine(profile="adapter", base=4096, memory=8192, eeprom=[0x5452] + [0] * 63)
        self.assertEqual((m.memory.base, m.RAL0, m.profile), (4096, 0x5452, "adapter"))
        self.assertEqual((Machine().profile, Machine(profile="table", base=0).profile), ("table", "table"))
        self.assertRaises(bunjelav.NoRegister, Machine().read, "EECD")
        self.assertRaises(bunjelav.NoProfile, Machine, profile="linux")
        self.assertRaises(bunjelav.NoProfile, Machine, profile="linux", memory=5)
        self.assertRaises(bunjelav.Size, Machine, profile="adapter", memory=5)

    def test_copied_out(self):
        m, ram = Machine(), bytearray(65536)
        m.memory[4094:4099] = b"hello"
        m.sync_out(ram)
        self.assertEqual(ram[4093:4100], b"\0hello\0")
        words = array.array("I", bytes([7]) * 65536)
        m.sync_out(words)
        self.assertEqual(words.tobytes(), bytes(ram))
        self.assertRaises(TypeError, m.sync_out, bytes(65536))
        self.assertRaises(bunjelav.Length, m.sync_out, bytearray(4096))

    def test_copied_in(self):
        m, ram = Machine(), bytearray(65536)
        ram[4094:4099] = b"hello"
        self.assertEqual((m.sync_in(ram), m.sync_in(ram)), (2, 0))
        self.assertEqual(m.event(0)[:3], ("poke", 4096, 3))
        self.assertEqual(m.event(1)[:3], ("poke", 4094, 2))
        self.assertEqual(m.memory[0:65536], bytes(ram))
        self.assertRaises(bunjelav.Length, m.sync_in, bytearray(4096))
        self.assertEqual(m.reach, 2)
        self.assertEqual(m.sync_in(array.array("I", bytes([7]) * 65536)), 16)
        self.assertEqual(m.sync_in(bytes(65536)), 16)

    def test_receiving(self):
        m = receiving()
        self.assertEqual(m.fifo_room(), 49152)
        self.assertTrue(m.arrive(FRAME).is_stored)
        self.assertEqual(m.fifo_room(), 49152 - 60)
        self.assertEqual((m.last_change("frames")[:2], m.last_change("sent")), ((1, 0), None))
        self.assertRaises(bunjelav.Length, m.arrive, b"short")
        self.assertEqual(m.rx_step(), ("wrote", RING, 0, 0, 0, BUFFER, 60))
        self.assertEqual(m.rx_step(), ("receive idle", 0, 0, 0, 0, 0, 0))
        first, second = m.ring("rx")[:2]
        self.assertEqual((first.owned, first.length, first.status), (False, 60, 7))
        self.assertEqual((second.owned, second.address), (True, BUFFER + 0x800))
        self.assertEqual(m.memory[BUFFER : BUFFER + 60], FRAME)

    def test_sending(self):
        m = Machine()
        m.memory[BUFFER : BUFFER + 60] = FRAME
        m.memory[0x2000:0x2010] = BUFFER.to_bytes(8, "little") + bytes([60, 0, 0, 1, 0, 0, 0, 0])
        m.memory[0x2010:0x2020] = BUFFER.to_bytes(8, "little") + bytes([60, 0, 0, 0x21, 0, 0, 0, 0])
        m.TDBAL, m.TDLEN, m.TCTL, m.TDT = 0x2000, 128, 2, 1
        self.assertEqual(m.tx_step(), ("sent", 0x2000, 60, 0, 0, BUFFER, 60))
        self.assertEqual(m.wire, [FRAME])
        self.assertEqual((list(m.wire_next()), list(m.wire_next())), ([FRAME], []))
        self.assertEqual((m.let_go(), m.wire), (0, [FRAME]))
        m.let_go_always()
        self.assertEqual((list(m.wire_next()), m.wire), ([], [FRAME]))
        self.assertEqual((m.last_change("sent")[:2], m.last_change("frames")), ((1, 0), None))
        m.TDT = 2
        self.assertRaises(bunjelav.Extended, m.tx_step)
        self.assertEqual([d.owned for d in m.ring("tx")][:3], [False, True, False])

    def test_whose_a_descriptor_is(self):
        m = Machine()
        self.assertEqual((m.ring("rx"), m.ring("tx")), ([], []))
        m.RDBAL, m.RDLEN, m.RDH, m.RDT = 0x1000, 0x80, 6, 1
        self.assertEqual([d.index for d in m.ring("rx") if d.owned], [0, 6, 7])
        # a head or a tail past the ring: all are the driver's
        m.RDH, m.RDT = 10, 3
        self.assertEqual([d.owned for d in m.ring("rx")], [False] * 8)
        m.RDH, m.RDT = 3, 10
        self.assertEqual([d.owned for d in m.ring("rx")], [False] * 8)
        # the ring leaves memory behind descriptor 6
        m.TDBAL, m.TDLEN, m.TDH, m.TDT = 0x10000 - 0x70, 0x80, 0, 2
        self.assertEqual([d.owned for d in m.ring("tx")], [True, True] + [False] * 5)
        m.TDBAH = 2**32 - 1
        self.assertEqual(m.ring("tx"), [])
        self.assertRaises(ValueError, m.ring, "both")

    def test_a_descriptor(self):
        m = Machine()
        # EOP and RS, so that the adapter sets DD
        m.memory[0x2000:0x2010] = BUFFER.to_bytes(8, "little") + bytes([60, 0, 0, 0x09, 0, 0, 0x34, 0x12])
        m.TDBAL, m.TDLEN, m.TCTL, m.TDT = 0x2000, 128, 2, 1
        m.tx_step()
        sent = m.ring("tx")[0]
        self.assertEqual(sent, (0, False, BUFFER, 60, 0x09, 1, 0x1234, ""))
        self.assertEqual((sent.length, sent.command, sent.status, sent.special), (60, 0x09, 1, 0x1234))
        m = receiving()
        m.memory[RING : RING + 16] = BUFFER.to_bytes(8, "little") + bytes([60, 0, 7, 8, 0x03, 0x05, 0x34, 0x12])
        given = m.ring("rx")[0]
        self.assertEqual((given.length, given.status, given.errors, given.special), (60, 3, 5, 0x1234))

    def test_running(self):
        m = receiving()
        for _ in range(3):
            m.arrive(FRAME)
        self.assertEqual((m.run(), m.run(), m.RDH), (3, 0, 3))

    def test_what_a_refused_run_did(self):
        m = receiving()
        for _ in range(3):
            m.arrive(FRAME)
        m.memory[RING + 32 : RING + 40] = (2**63).to_bytes(8, "little")
        with self.assertRaises(bunjelav.DmaRange) as told:
            m.run()
        self.assertEqual((told.exception.done, m.RDH), (2, 2))
        # the other engine's steps count too
        m = receiving()
        m.arrive(FRAME)
        m.memory[0x2000:0x2010] = (2**63).to_bytes(8, "little") + bytes([60, 0, 0, 1, 0, 0, 0, 0])
        m.TDBAL, m.TDLEN, m.TCTL, m.TDT = 0x2000, 128, 2, 1
        with self.assertRaises(bunjelav.DmaRange) as told:
            m.run()
        self.assertEqual((told.exception.done, m.RDH, m.TDH), (1, 1, 0))


class Numbers(unittest.TestCase):
    """No number is cut to the bits that the library's call has for it."""

    LONG = (-1, 2**64, -(2**64), 2**64 + 0x1000)
    LONGER_THAN_A_WORD = (*LONG, 2**32, 2**32 + 8)

    def is_refused(self, refusal, numbers, call, *words):
        m = receiving()
        m.tag(5)
        before = m.registers(), m.memory[:], m.reach
        for number in numbers:
            with self.subTest(call=call, number=number):
                self.assertRaises(refusal, getattr(m, call), *(number if it is None else it for it in words or [None]))
        self.assertEqual((m.registers(), m.memory[:], m.reach), before)

    def test_a_machine(self):
        for number in (*self.LONG, 2**64 + 65536):
            self.assertRaises(bunjelav.Size, Machine, memory=number)
            self.assertRaises(bunjelav.Budget, Machine, budget=number)
        for number in (2**32, 2**32 + 65536):
            self.assertRaises(bunjelav.Size, Machine, memory=number)
            self.assertRaises(bunjelav.Budget, Machine, budget=number)
        for number in (-1, 70000, 2**16, 2**32, 2**64):
            self.assertRaises(ValueError, Machine, eeprom=[number] * 64)
            self.assertRaises(ValueError, Machine, mac=[number] * 6)
        self.assertRaises(TypeError, Machine, mac=6)
        self.assertRaises(TypeError, Machine, memory=65536.0)

    def test_offsets(self):
        for call in ("read", "look"):
            self.is_refused(bunjelav.NoRegister, self.LONGER_THAN_A_WORD, call)
        self.is_refused(bunjelav.NoRegister, self.LONGER_THAN_A_WORD, "__getitem__")
        self.is_refused(bunjelav.NoRegister, self.LONGER_THAN_A_WORD, "write", None, 2)
        self.is_refused(bunjelav.NoRegister, self.LONGER_THAN_A_WORD, "last_change")
        for number in self.LONGER_THAN_A_WORD:
            self.assertRaises(bunjelav.NoRegister, name_of, number)
            self.assertRaises(bunjelav.NoRegister, offset_of, number)

    def test_values_and_tags(self):
        self.is_refused(ValueError, self.LONGER_THAN_A_WORD, "write", "RDT", None)
        self.is_refused(ValueError, self.LONGER_THAN_A_WORD, "__setitem__", "RDT", None)
        self.is_refused(ValueError, self.LONGER_THAN_A_WORD, "__setattr__", "RDT", None)
        self.is_refused(ValueError, self.LONG, "tag")
        m = Machine()
        m.tag(2**32)
        m.RDT = 1
        self.assertEqual(m.event().tag, 2**32)

    def test_addresses(self):
        self.is_refused(bunjelav.Range, self.LONGER_THAN_A_WORD, "poke", None, b"x")
        m = receiving()
        for number in (-65537, 65536, 2**32, 2**64, 2**64 + 0x1000):
            self.assertRaises(IndexError, m.memory.__getitem__, number)
            self.assertRaises(IndexError, m.memory.__setitem__, number, 1)
        for where in (slice(2**64, 2**64 + 4), slice(65534, 65537), slice(-65537, -65535), slice(2**32, 2**32 + 1)):
            self.assertRaises(bunjelav.Range, m.last_change, where)
        for number in (-1, 256, 2**32, 2**64):
            self.assertRaises(ValueError, m.memory.__setitem__, 0, number)

    def test_counts(self):
        self.is_refused(ValueError, self.LONG, "back")
        self.is_refused(ValueError, self.LONG, "run")
        self.is_refused(bunjelav.NoEvent, (*self.LONG, 2**32), "event")
        m = receiving()
        m.arrive(FRAME)
        self.assertEqual((m.run(2**32), m.back(2**32) > 0, m.reach), (1, True, 0))

    def test_octets(self):
        m = Machine()
        self.assertRaises(TypeError, m.poke, 0, 5)
        self.assertRaises(TypeError, m.poke, 0, "text")
        self.assertRaises(TypeError, m.arrive, 60)
        m.poke(0, array.array("I", [0x04030201, 0x08070605]))
        self.assertEqual((m.memory[0:9], m.event().length), (b"\1\2\3\4\5\6\7\x08\0", 8))


class Names(unittest.TestCase):
    def test_refusals_have_their_names(self):
        """Each of the library's refusals is an exception of the module, whatever else the module has."""
        self.assertEqual(len(_tables.REFUSALS), 45)
        for name, number in _tables.REFUSALS.items():
            refusal = getattr(bunjelav, name)
            self.assertTrue(issubclass(refusal, bunjelav.Refused) and issubclass(refusal, Exception), name)
            self.assertEqual((refusal.number, name in bunjelav.__all__), (number, True))
        try:
            raise bunjelav.Memory("none is left")
        except bunjelav.Memory as told:
            self.assertEqual(str(told), "none is left")

    def test_kinds_that_are_unknown(self):
        self.assertEqual(bunjelav._told.event_of(_tables.Note(0, 0, 0, 0, 99)).kind, "unknown kind 99")

    def test_the_version(self):
        self.assertEqual(bunjelav.__version__, _tables.VERSION)
        self.assertTrue((Path(bunjelav.__file__).parent / "py.typed").is_file())


class OwnMemory(unittest.TestCase):
    def test_a_driver_that_gives_buffers_back_in_batches(self):
        """What it writes where it makes no access is not undone: each of 2,000 frames comes once."""
        m, ram, next_one, wanted = Machine(), bytearray(65536), 0, 0
        m.link = True

        def acts(call, *words):
            m.sync_in(ram)
            call(*words)
            m.run()
            m.sync_out(ram)

        for i in range(8):
            ram[RING + 16 * i : RING + 16 * i + 8] = (BUFFER + 0x800 * i).to_bytes(8, "little")
        for register, value in ("RDBAL", RING), ("RDLEN", 128), ("RDT", 7), ("RCTL", 0x8002):
            acts(m.write, register, value)
        for number in range(2000):
            acts(m.arrive, FRAME[:56] + number.to_bytes(4, "little"))
            at = RING + 16 * next_one
            while number % 3 == 0 and ram[at + 12] & 1:
                buffer = BUFFER + 0x800 * next_one
                self.assertEqual(int.from_bytes(ram[buffer + 56 : buffer + 60], "little"), wanted)
                wanted, ram[at + 12] = wanted + 1, 0
                if wanted % 4 == 0:
                    acts(m.write, "RDT", next_one)
                next_one = (next_one + 1) % 8
                at = RING + 16 * next_one
        self.assertEqual(wanted, 1999)


def over(ram):
    """A machine that receives over memory of the caller's, with a frame that waits."""
    m = Machine()
    m.link = True
    for i in range(8):
        ram[RING + 16 * i : RING + 16 * i + 8] = (BUFFER + 0x800 * i).to_bytes(8, "little")
    m.RDBAL, m.RDLEN, m.RDT, m.RCTL = RING, 128, 7, 0x8002
    m.arrive(FRAME)
    return m


class Functions:
    """Memory by two functions, which can raise."""

    def __init__(self, ram):
        self.ram, self.asked, self.does = ram, [], lambda: None

    def read(self, address, length):
        self.asked.append(("read", address, length))
        self.does()
        return self.ram[address : address + length]

    def write(self, address, octets):
        self.asked.append(("write", address, len(octets)))
        self.does()
        self.ram[address : address + len(octets)] = octets


class Attached(unittest.TestCase):
    def test_buffers(self):
        for make in (bytearray, lambda n: mmap.mmap(-1, n), lambda n: memoryview(bytearray(n))):
            ram = make(65536)
            m = over(ram)
            before = bytes(ram[:])
            m.attach(ram)
            self.assertEqual((m.run(), bytes(ram[BUFFER : BUFFER + 60]), ram[RING + 12] & 1), (1, FRAME, 1))
            self.assertEqual(m.written(2), [slice(BUFFER, BUFFER + 60), slice(RING + 8, RING + 16)])
            self.assertEqual((m.event(3).kind, m.back(3), bytes(ram[:])), ("poke", 3, before))
            m.poke(0x3000, b"hello")
            self.assertEqual(bytes(ram[0x3000:0x3005]), b"hello")
            m.detach()
            m.poke(0x3000, b"there")
            self.assertEqual((bytes(ram[0x3000:0x3005]), m.rx_step().kind), (b"hello", "wrote"))

    def test_a_part_at_an_address(self):
        whole = bytearray(65536)
        m = over(whole)
        part = whole[RING : BUFFER + 59]
        m.attach(part, base=RING)
        self.assertRaises(bunjelav.Unread, m.rx_step)
        self.assertEqual((m.event().kind, m.RDH), ("stored", 0))
        part = whole[RING : BUFFER + 60]
        m.attach(part, base=RING)
        self.assertEqual((m.rx_step().kind, part[12] & 1, bytes(part[-60:])), ("wrote", 1, FRAME))
        self.assertRaises(bunjelav.Unwritten, m.poke, RING - 1, b"x")

    def test_functions(self):
        ram = bytearray(65536)
        m, functions = over(ram), Functions(ram)
        m.attach(functions)
        self.assertEqual(m.rx_step().kind, "wrote")
        wanted = [("read", RING, 16), ("read", BUFFER, 60), ("write", BUFFER, 60), ("write", RING + 8, 8)]
        self.assertEqual(functions.asked, wanted)
        self.assertEqual((ram[BUFFER : BUFFER + 60], m.back(), ram[RING + 12]), (FRAME, 1, 0))

    def test_functions_that_raise(self):
        ram = bytearray(65536)
        m, functions = over(ram), Functions(ram)
        m.attach(functions)
        reach = m.reach

        def refuses(raises, refusal, call, *words):
            def does():
                if functions.asked[-1][0] == ("read" if refusal is bunjelav.Unread else "write"):
                    raise raises

            functions.does = does
            with self.assertRaises(refusal) as caught:
                call(*words)
            self.assertIs(caught.exception.__cause__, raises)
            functions.does = lambda: None

        for call in (m.rx_step, m.run):
            refuses(OSError("no"), bunjelav.Unread, call)
            refuses(OSError("no"), bunjelav.Unwritten, call)
        refuses(OSError("no"), bunjelav.Unwritten, m.poke, 0, b"x")
        self.assertEqual((m.reach, m.RDH), (reach, 0))
        functions.read, good = lambda address, length: b"short", functions.read
        with self.assertRaises(bunjelav.Unread) as caught:
            m.rx_step()
        self.assertIsInstance(caught.exception.__cause__, ValueError)
        functions.read = good
        self.assertEqual(m.rx_step().kind, "wrote")
        refuses(OSError("no"), bunjelav.Unwritten, m.back)
        functions.does = lambda: exec("raise KeyboardInterrupt")
        m.arrive(FRAME)
        self.assertRaises(KeyboardInterrupt, m.rx_step)
        functions.does = lambda: None
        self.assertEqual(m.rx_step().kind, "wrote")

    def test_functions_that_call_the_machine(self):
        ram = bytearray(65536)
        m, functions, seen = over(ram), Functions(ram), []
        m.attach(functions)

        def calls():
            for call in (m.rx_step, m.run, m.back, m.detach, lambda: m.attach(ram), lambda: m.read("ICR"), lambda: m.arrive(FRAME)):
                self.assertRaises(bunjelav.Busy, call)
            m.close()
            seen.append(m.look("STATUS"))

        functions.does = calls
        self.assertEqual((m.rx_step().kind, seen), ("wrote", [0x83] * 4))
        m.close()
        self.assertRaises(bunjelav.NotMade, m.attach, ram)
        self.assertRaises(bunjelav.NotMade, m.detach)

    def test_what_is_no_memory(self):
        m = Machine()
        for wrong in (b"readonly", 5, "text", None, object()):
            self.assertRaises(TypeError, m.attach, wrong)
        self.assertRaises(bunjelav.Range, m.attach, bytearray(9), -1)

    def test_ranges(self):
        m = receiving()
        self.assertEqual((m.needs("rx"), m.needs("tx")), (([], []), ([], [])))
        self.assertRaises(ValueError, m.needs, "no")
        self.assertRaises(bunjelav.NoEvent, m.written, 1 << 20)
        m.arrive(FRAME)
        needs = m.needs("rx")
        self.assertEqual(needs.reads, [slice(RING, RING + 16)])
        m.rx_step()
        self.assertEqual(m.written(), needs.writes)
        self.assertEqual((m.sync_in_range(0x3000, b"abcd"), m.sync_in_range(0x3000, b"abcd")), (1, 0))
        self.assertEqual((m.sync_out_range(0x3000, 4), m.sync_out_range(65536, 0)), (b"abcd", b""))
        self.assertRaises(bunjelav.Range, m.sync_out_range, 65535, 2)
        self.assertRaises(bunjelav.Range, m.sync_in_range, 65535, b"ab")
        self.assertRaises(bunjelav.Length, m.sync_in_range, 0, bytes(16385))

    def test_batches(self):
        """A driver that clears DD in memory alone, and gives its buffers back at each fourth packet."""
        ram, wanted, next_one = bytearray(65536), 0, 0
        m = over(ram)
        m.back()
        m.attach(ram)
        for number in range(2000):
            m.arrive(FRAME[:56] + number.to_bytes(4, "little"))
            m.run()
            at = RING + 16 * next_one
            while number % 3 == 0 and ram[at + 12] & 1:
                buffer = BUFFER + 0x800 * next_one
                self.assertEqual(int.from_bytes(ram[buffer + 56 : buffer + 60], "little"), wanted)
                wanted, ram[at + 12] = wanted + 1, 0
                if wanted % 4 == 0:
                    m.RDT = next_one
                    m.run()
                next_one = (next_one + 1) % 8
                at = RING + 16 * next_one
        self.assertEqual(wanted, 1999)


def line() -> int:
    """The line of the caller."""
    frame = inspect.currentframe()
    assert frame is not None and frame.f_back is not None
    return frame.f_back.f_lineno


class Kept(unittest.TestCase):
    """A run that is kept, with the lines of its callers."""

    HEAD = "# em_debug --memory 65536 --budget 1048576 --mac 525400123456"

    def setUp(self) -> None:
        folder = tempfile.TemporaryDirectory()
        self.addCleanup(folder.cleanup)
        self.path = Path(folder.name) / "run.em"

    def kept(self) -> list:
        """The lines behind the head; this file by its last name."""
        lines = self.path.read_text().replace(__file__, "calls.py").splitlines()
        self.assertEqual(lines[0], self.HEAD)
        return lines[1:]

    def test_each_event(self):
        m = Machine()
        self.assertFalse(m.recording())
        m.record_to(self.path)
        at = line()
        m.link = True
        m.IMS = 4
        m.write("IMS", 4)
        m["IMS"] = 4
        m.read("ICR"), m["ICR"], m.ICR
        m.memory[0x3000:0x3003] = b"abc"
        m.memory[0x3000] = 9
        m.sync_in_range(0x3000, b"abc")
        m.arrive(FRAME)
        m.rx_step(), m.tx_step()
        m.run()
        m.back(2)
        ram = bytearray(m.memory[:])
        ram[5] = 1
        m.sync_in(ram)
        wanted = [
            f"link up =ok @calls.py:{at + 1}", *(f"w D0 4 =ok @calls.py:{at + n}" for n in (2, 3, 4)),
            f"r C0 =00000004 @calls.py:{at + 5}", f"poke 3000 616263 =ok @calls.py:{at + 6}",
            f"poke 3000 09 =ok @calls.py:{at + 7}", f"poke 3000 61 =ok @calls.py:{at + 8}",
            f"arrive {FRAME.hex().upper()} =dropped disabled @calls.py:{at + 9}",
            f"rx =idle @calls.py:{at + 10}", f"tx =idle @calls.py:{at + 10}",
            f"rx =idle @calls.py:{at + 11}", f"tx =idle @calls.py:{at + 11}", f"back 2 =back 2 @calls.py:{at + 12}",
            f"poke 5 01 =ok @calls.py:{at + 15}",
        ]
        self.assertEqual(self.kept(), wanted)
        self.assertTrue(m.recording())
        self.assertRaises(bunjelav.Recorded, m.record_to, self.path)
        m.close()
        self.assertEqual(self.kept(), wanted)

    def test_saved_afterwards(self):
        m = Machine()
        m.tag(0x1234)
        m.IMS = 4
        m.arrive(bytes([0xFF] * 14))
        m.save(self.path)
        self.assertEqual(self.kept(), ["w D0 4 =ok @0x1234", "arrive FFFFFFFFFFFF0000000000000000 =dropped down @0x1234"])
        with self.assertRaises(bunjelav.File) as refused:
            m.save("/nowhere/saved.em")
        self.assertEqual(refused.exception.__cause__.errno, errno.ENOENT)
        m.back()
        self.assertRaises(bunjelav.Begun, m.save, self.path)

    def test_without_places(self):
        m = Machine()
        m.record_to(str(self.path), places=False)
        m.IMS = 1
        m.tag(0x1234)
        m.IMS = 1
        self.assertEqual(self.kept(), ["w D0 1 =ok", "w D0 1 =ok @0x1234"])

    def test_another_source(self):
        m = Machine()
        m.record_to(self.path)
        m.source("driver.c", 57)
        m.IMS = 1
        m.source("", 0)
        m.IMS = 1
        at = line() - 1
        wanted = ["w D0 1 =ok @driver.c:57", f"w D0 1 =ok @calls.py:{at}"]
        self.assertEqual(self.kept(), wanted)
        self.assertRaises(ValueError, m.source, "driver.c", -1)

    def test_by_a_mapping(self):
        m = Machine()
        with self.assertRaises(bunjelav.File) as refused:
            m.record_to("/dev/full", mapped=True)
        self.assertEqual(refused.exception.__cause__.errno, errno.EINVAL)
        m.record_to(self.path, mapped=True)
        self.assertRaises(bunjelav.File, Machine().record_to, self.path, mapped=True)
        m.IMS = 4
        at = line() - 1
        # ahead of the lines the file is blank
        self.assertEqual(self.kept(), [f"w D0 4 =ok @calls.py:{at}", " " * len(self.kept()[-1])])
        self.assertTrue(m.recording())
        m.close()
        self.assertEqual(self.kept(), [f"w D0 4 =ok @calls.py:{at}"])

    def test_what_is_refused(self):
        m = Machine()
        with self.assertRaises(bunjelav.File) as refused:
            m.record_to("/nowhere/at/all")
        self.assertIsInstance(refused.exception.__cause__, FileNotFoundError)
        m.IMS = 1
        self.assertRaises(bunjelav.Begun, m.record_to, self.path)
        m.back()
        self.assertRaises(bunjelav.Begun, m.record_to, self.path)
        self.assertFalse(m.recording())
        self.assertFalse(self.path.exists())
        m.close()
        self.assertRaises(bunjelav.NotMade, m.record_to, self.path)
        self.assertRaises(bunjelav.NotMade, m.recording)

    def test_a_pipe_that_nobody_reads_any_more(self):
        os.mkfifo(self.path)
        reader = os.open(self.path, os.O_RDONLY | os.O_NONBLOCK)
        m = Machine()
        m.record_to(self.path)
        os.close(reader)
        m.IMS = 4
        self.assertEqual(m.read("IMS"), 4)
        self.assertRaises(BrokenPipeError, m.recording)
        self.assertFalse(m.recording())
        m.IMS = 8
        self.assertEqual(m.read("IMS"), 12)


class Explained(unittest.TestCase):
    def test_idle_steps(self):
        m = Machine()
        self.assertIsNone(m.why())
        self.assertTrue(m.tx_step().is_idle)
        self.assertEqual(m.why(), ("tx disabled", "TCTL.EN is clear", {}))
        m.RDLEN, m.RDT, m.RCTL = 128, 16, 2
        self.assertTrue(m.rx_step().is_idle)
        tail_past = ("rx tail past", "RDT 16 is past the ring of 8", {"index": 16, "count": 8})
        self.assertEqual(m.why(), tail_past)
        # it stays as it was then
        m.RDT = 4
        self.assertEqual((m.why(), str(m.why())), (tail_past, "RDT 16 is past the ring of 8"))
        self.assertEqual(m.run(), 0)
        self.assertEqual(m.why().rule, "tx disabled")
        m.TDLEN, m.TCTL = 128, 2
        self.assertEqual((m.run(0), m.why().rule), (0, "tx disabled"))
        self.assertEqual((m.run(), m.why().text), (0, "the ring is empty (TDH = TDT = 0)"))

    def test_drops(self):
        m = Machine()
        m.arrive(FRAME)
        self.assertEqual(m.why()[:2], ("frame down", "the link is down"))
        m.link, m.RCTL = True, 2
        m.arrive(FRAME)
        self.assertEqual((m.why().rule, m.why().numbers), ("frame broadcast", {"value": 0xFFF, "to": b"\xff" * 6}))
        m.RCTL = 0x8002
        m.arrive(FRAME)
        m.arrive(FRAME[:20])
        short = ("frame undersize", "24 octets with the FCS are below 64", {"octets": 24, "most": 64})
        self.assertEqual(m.why(), short)

    def test_refusals(self):
        m = receiving()
        with self.assertRaises(bunjelav.NoRegister) as found:
            m.read(4)
        self.assertEqual(found.exception.why, ("no register", "no register lies at 000004", {"address": 4}))
        self.assertIs(m.why(), found.exception.why)
        with self.assertRaises(bunjelav.Range) as found:
            m.poke(0xFFFA, bytes(16))
        self.assertEqual(found.exception.why.text, "16 octets at 00FFFA, memory ends at 010000")
        m.arrive(FRAME)
        m.RDBAL = 0x10000
        for step in (m.rx_step, m.run):
            with self.assertRaises(bunjelav.DmaRange) as found:
                step()
            self.assertEqual(found.exception.why.text, "descriptor 0 at 010000, memory ends at 010000")
        # what is no event has none
        with self.assertRaises(bunjelav.NoRegister) as found:
            m.look(4)
        self.assertIsNone(found.exception.why)

    def test_bits_and_fields(self):
        self.assertEqual(bunjelav.bits_of("RDT", 5), {})
        status = {"FD": 0, "LU": 1, "TXOFF": 0, "SPEED": 2, "ASDV": 0, "PCI66": 0}
        self.assertEqual(bunjelav.bits_of("STATUS", 0x82), status)
        self.assertEqual(bunjelav.words_of("STATUS", 0x82), "STATUS 00000082 LU SPEED=1000")
        self.assertRaises(bunjelav.NoRegister, bunjelav.bits_of, 4, 0)
        self.assertRaises(bunjelav.NoRegister, bunjelav.words_of, 4, 0)

    def test_warnings(self):
        m, told = Machine(), []
        m.RDLEN = 128
        self.assertEqual(m.warnings(), [])
        m.RDT = 8
        past = "warning tail-past-ring: RDT 8 is past the ring of 8, write an index below that"
        self.assertEqual(m.warnings(), [("tail past ring", past, {"offset": 0x2818, "index": 8, "count": 8})])
        m.warn(told.append)
        m.RDT = 9
        m.RDT = 7
        m.read("STATUS")
        self.assertEqual([str(one).partition(":")[0] for one in told],
                         ["warning tail-past-ring", "warning descriptor-unwritten", "warning buffers-overlap"])
        m.warn(None)
        m.RDT = 9
        self.assertEqual(len(told), 3)

    def test_rings_effects_and_the_fifo(self):
        m = receiving()
        self.assertEqual({one.trouble for one in m.ring("rx")}, {""})
        m.memory[RING : RING + 8] = (RING + 8).to_bytes(8, "little")
        m.memory[RING + 16 : RING + 24] = (BUFFER + 0x1000).to_bytes(8, "little")
        self.assertEqual([one.trouble for one in m.ring("rx")][:4], ["over ring", "over buffer 2", "over buffer 1", ""])
        self.assertIn("<td>over buffer 2</td>", m._repr_html_())
        text = m.ring_text("rx").splitlines()
        self.assertEqual((len(text), text[1].endswith("  its buffer lies over the ring")), (9, True))
        self.assertRaises(ValueError, m.ring_text, "both")
        self.assertEqual(m.effect(), f"  {RING + 17:06X}  48 -> 50\n")
        self.assertEqual(m.differences(), [(slice(RING + 17, RING + 18), b"\x48", b"\x50")])
        self.assertRaises(bunjelav.NoEvent, m.effect, m.reach)
        self.assertRaises(bunjelav.NoEvent, m.differences, m.reach)
        self.assertEqual(m.fifo(), (0, b"", None, b""))
        m.arrive(FRAME)
        self.assertEqual(m.fifo(), (1, FRAME, None, b""))
        self.assertTrue(m.fifo_text().startswith("1 frame waits\n"))
        # a text that is longer than the room that is tried first
        m.poke(0, bytes([7]) * 16384)
        self.assertGreater(len(m.effect()), 16384)
        self.assertEqual(len(m.differences()), 1024)


class Docs(unittest.TestCase):
    def test_the_examples(self):
        for module in (bunjelav, bunjelav._explain, bunjelav._native):
            tried = doctest.testmod(module)
            self.assertEqual((tried.failed, tried.attempted > 1), (0, True))


class Back(unittest.TestCase):
    def test_who_changed_the_phy(self):
        m = Machine(profile="adapter")
        self.assertIsNone(m.last_change("PHY 9"))
        m.MDIC = 0x04291234  # 1234 in word 9, which was 0E00 at power on
        m.link = True
        m.MDIC = 0x08290000  # a read, which changes no word
        self.assertEqual(m.last_change("PHY 9")[:2], (3, 0x0E00))
        self.assertEqual(m.last_change("phy 17")[:2], (2, 0xA800))
        self.assertEqual(m.last_change("PHY 1")[:2], (2, 0x7949))
        m.back(2)
        self.assertEqual((m.last_change("PHY 9")[:2], m.last_change("PHY 17")), ((1, 0x0E00), None))
        self.assertRaises(bunjelav.NoRegister, m.last_change, "PHY 32")
        self.assertRaises(bunjelav.NoName, m.last_change, "PHY")

    def test_back_and_who(self):
        m = Machine()
        self.assertEqual((m.back(), m.reach), (0, 0))
        self.assertRaises(bunjelav.NoEvent, m.event)
        self.assertIsNone(m.last_change("RDT"))
        m.tag(77)
        m.RDT = 5
        m.memory[0x100:0x102] = b"ab"
        m.link = True
        self.assertEqual(m.last_change("RDT"), (3, 0, ("write", 0x2818, 4, 5, 77, 0, 0)))
        self.assertEqual(m.last_change(slice(0x101, 0x103))[:2], (2, b"\0\0"))
        self.assertEqual(m.last_change("link")[:2], (1, 0))
        self.assertIsNone(m.last_change("line"))
        self.assertRaises(bunjelav.Length, m.last_change, slice(0, 17))
        self.assertRaises(bunjelav.Length, m.last_change, slice(4, 4))
        m.memory[65533] = 9
        self.assertEqual(m.last_change(slice(-4, -1))[:2], (1, b"\0\0\0"))
        self.assertIsNone(m.last_change("PHY 17"))
        m.back()
        self.assertEqual([e.kind for e in m.events()], ["link up", "poke", "write"])
        self.assertEqual((m.back(2), m.link, m.RDT, m.back(9), m.RDT), (2, False, 5, 1, 0))

    def test_tables(self):
        text = receiving()._repr_html_()
        self.assertIn("<td>RDBAL</td><td>00001000</td>", text)
        self.assertIn("<caption>rx</caption>", text)


if __name__ == "__main__":
    unittest.main()
