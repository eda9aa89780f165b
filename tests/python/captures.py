"""Captures in the Python binding: what was sent, written and read back, what is wrong with one, and files that fail."""
import os
import struct
import tempfile
import unittest
from pathlib import Path

import bunjelav
from bunjelav import CapturedFrame, Machine, frames_of

TOP = Path(__file__).resolve().parent.parent.parent
RING, BUFFER = 0x1000, 0x4000
FRAME = bytes.fromhex("ffffffffffff525400999999") + bytes(48)


def sent() -> Machine:
    """A machine that sent two frames."""
    m = Machine()
    m.link = True
    m.poke(BUFFER, FRAME)
    for i in range(2):
        m.poke(RING + 16 * i, BUFFER.to_bytes(8, "little") + bytes([len(FRAME), 0, 0, 1, 0, 0, 0, 0]))
    m.TDBAL, m.TDLEN, m.TCTL, m.TDT = RING, 128, 2, 2
    m.run()
    return m


class Captures(unittest.TestCase):
    def setUp(self):
        self.folder = tempfile.TemporaryDirectory()
        self.path = Path(self.folder.name) / "sent.pcap"

    def tearDown(self):
        self.folder.cleanup()

    def test_what_is_written_is_read(self):
        m = sent()
        m.pcap_write(self.path)
        self.assertEqual([*frames_of(self.path)], [CapturedFrame(FRAME, 60, 1000), CapturedFrame(FRAME, 60, 2000)])
        m.pcap_write(str(self.path), [5, 2**64 - 1])
        times = [frame.nanoseconds for frame in frames_of(str(self.path))]
        self.assertEqual(times, [5, 4294967295999999999])
        m.pcap_write(os.fsencode(self.path), iter((1, 2)))
        octets = self.path.read_bytes()
        for given in (octets, bytearray(octets), memoryview(octets)):
            self.assertEqual([it.octets for it in frames_of(given)], [FRAME, FRAME])
        # they arrive elsewhere, and are handed over no more than once
        other = Machine()
        other.link, other.RCTL = True, 0x8002
        for frame in frames_of(self.path):
            self.assertTrue(other.arrive(frame.arriving).is_stored)
        frames = frames_of(octets)
        self.assertEqual((next(frames).nanoseconds, len([*frames]), len([*frames])), (1, 1, 0))
        del frames
        self.assertEqual(len([*m.wire_next()]), 2)

    def test_the_line_of_a_run_that_is_kept(self):
        m = Machine()
        m.record_to(self.path.with_suffix(".em"))
        m.link = True
        m.poke(BUFFER, FRAME)
        m.poke(RING, BUFFER.to_bytes(8, "little") + bytes([len(FRAME), 0, 0, 1, 0, 0, 0, 0]))
        m.TDBAL, m.TDLEN, m.TCTL, m.TDT = RING, 128, 2, 1
        m.run()
        m.pcap_write(self.path)
        lines = self.path.with_suffix(".em").read_text().splitlines()
        at = next(i for i, line in enumerate(lines, 1) if line.startswith("tx =sent 0 60"))
        self.assertEqual([it.nanoseconds for it in frames_of(self.path)], [1000 * at])

    def test_cooked_packets_are_frames(self):
        # `tcpdump -i any`: link type 276, to this host, and sent by it, ARP and IPv4; the link type stands for the file, or for
        # its one interface
        behind, source = b"\xa1" * 46, bytes.fromhex("020000000001")
        packets = [struct.pack(">HHIHBB8s", protocol, 0, 3, 1, way, 6, source) + behind
                   for way, protocol in ((0, 0x0806), (4, 0x0800))]
        wanted = [bytes.fromhex("525400123456") + source + b"\x08\x06" + behind,
                  bytes(6) + source + b"\x08\x00" + behind]
        wanted[1] = b"\x02" + wanted[1][1:]
        classic = struct.pack("<IHHIIII", 0xA1B2C3D4, 2, 4, 0, 0, 262_144, 276)
        classic += b"".join(struct.pack("<IIII", 1, 2, len(it), len(it)) + it for it in packets)

        def block(kind: int, body: bytes) -> bytes:
            return struct.pack("<II", kind, 12 + len(body)) + body + struct.pack("<I", 12 + len(body))

        newer = block(0x0A0D0D0A, struct.pack("<IHHq", 0x1A2B3C4D, 1, 0, -1)) + block(1, struct.pack("<HHI", 276, 0, 0))
        newer += b"".join(block(6, struct.pack("<IIIII", 0, 0, 1_000_002, len(it), len(it)) + it + bytes(-len(it) % 4))
                          for it in packets)
        for octets in (classic, newer):
            self.path.write_bytes(octets)
            self.assertEqual([bytes(it.octets) for it in frames_of(self.path)], wanted)

    def test_files_that_fail(self):
        m = sent()
        for call in (m.pcap_write, frames_of):
            with self.assertRaises(bunjelav.File) as raised:
                call(Path(self.folder.name) / "none" / "sent.pcap")
            self.assertIsInstance(raised.exception.__cause__, FileNotFoundError)
        with self.assertRaises(bunjelav.File) as raised:
            frames_of(self.folder.name)
        self.assertIsInstance(raised.exception.__cause__, IsADirectoryError)
        self.path.with_name("sent.pcap.new").write_text("another's")
        with self.assertRaises(bunjelav.File) as raised:
            m.pcap_write(self.path)
        self.assertIsInstance(raised.exception.__cause__, FileExistsError)
        self.assertFalse(self.path.exists())

    def test_numbers(self):
        m = sent()
        for times in ([], [1], [1, 2, 3]):
            self.assertRaises(ValueError, m.pcap_write, self.path, times)
        self.assertRaises(ValueError, m.pcap_write, self.path, [0, 2**64])
        self.assertRaises(ValueError, m.pcap_write, self.path, [0, -1])
        self.assertRaises(TypeError, m.pcap_write, self.path, ["0", 1])
        self.assertRaises(TypeError, frames_of, 5)
        self.assertFalse(self.path.exists())
        m.close()
        self.assertRaises(bunjelav.NotMade, m.pcap_write, self.path)

    def test_faults(self):
        sent().pcap_write(self.path)
        octets = self.path.read_bytes()
        frames = frames_of(octets[:-1])
        self.assertEqual(next(frames).octets, FRAME)
        with self.assertRaises(bunjelav.CaptureCut) as raised:
            next(frames)
        self.assertEqual((raised.exception.offset, str(raised.exception)), (24 + 76, "the capture is cut short"))
        self.assertEqual([*frames], [])
        for fault, given in ((bunjelav.CaptureCut, b""), (bunjelav.CaptureMagic, b"none"),
                             (bunjelav.CaptureLink, octets[:20] + bytes(4))):
            self.assertRaises(fault, next, frames_of(given))
        self.assertEqual([*frames_of(octets[:24])], [])

    def test_frames_that_were_not_padded_or_cut(self):
        short = frames_of(TOP / "tests/data/pcap/arp-short.pcapng")
        self.assertEqual([(it.is_cut, it.original, len(it.octets), len(it.arriving)) for it in short],
                         [(False, 42, 42, 60), (False, 60, 60, 60), (True, 90, 60, 60)])

    def test_a_frame_that_is_long(self):
        sent().pcap_write(self.path)
        head = self.path.read_bytes()[:16]
        link, length = (1).to_bytes(4, "little"), (300_000).to_bytes(4, "little")
        long = head + bytes(4) + link + bytes(8) + length * 2 + bytes(300_000)
        self.assertEqual([len(it.octets) for it in frames_of(long)], [300_000])


if __name__ == "__main__":
    unittest.main()
