"""Five tests of a student's driver, as a course could hand them out.

    PYTHONPATH=bindings/python python3 examples/python/test_driver.py
"""
import signal
import unittest

from bunjelav import Machine
from driver import BUFFERS, COUNT, DESCRIPTOR, RING, STATUS, Driver


# seconds that a test may take
LIMIT = 10


def too_long(_signal, _frame):
    raise TimeoutError(f"it took {LIMIT} seconds: what loop of the driver waits for what the adapter never does?")


def frame(number):
    """A broadcast of 60 octets, told apart by its last."""
    return bytes.fromhex("FFFFFFFFFFFF0200000000010800") + bytes(45) + bytes([number])


class TheDriver(unittest.TestCase):
    def setUp(self):
        signal.signal(signal.SIGALRM, too_long)
        signal.alarm(LIMIT)
        self.addCleanup(signal.alarm, 0)
        self.nic = Machine()
        self.nic.link = True
        self.driver = Driver(self.nic)
        self.driver.start()

    def arrive(self, number):
        self.nic.arrive(frame(number))
        self.nic.run()

    def test_nothing_is_there_at_first(self):
        self.assertIsNone(self.driver.receive())
        self.assertFalse(self.nic.line)

    def test_a_packet_is_taken_whole(self):
        self.arrive(7)
        self.assertTrue(self.nic.line)
        self.assertEqual(self.driver.interrupted(), [frame(7)])
        self.assertFalse(self.nic.line, "the interrupt was not acknowledged")

    def test_packets_come_in_order_round_the_ring(self):
        taken = []
        for number in range(3 * COUNT):
            self.arrive(number)
            taken += self.driver.interrupted()
        self.assertEqual(taken, [frame(number) for number in range(3 * COUNT)])

    def test_no_buffer_lies_over_the_ring_or_another(self):
        for number in range(2 * COUNT):
            self.arrive(number)
            self.driver.interrupted()
        places = sorted(descriptor.address for descriptor in self.nic.ring("rx"))
        self.assertEqual(places, [BUFFERS + 2048 * index for index in range(COUNT)])

    def test_the_tail_is_written_behind_the_descriptor(self):
        """Who changed the status last, and who the tail? The tail's event must be the newer one."""
        self.arrive(1)
        self.driver.interrupted()
        status = RING + STATUS
        cleared, moved = self.nic.last_change(slice(status, status + 1)), self.nic.last_change("RDT")
        self.assertEqual((cleared.event.kind, cleared.event.length), ("poke", DESCRIPTOR))
        self.assertLess(moved.back, cleared.back, "the tail was written before the descriptor")


if __name__ == "__main__":
    unittest.main()
