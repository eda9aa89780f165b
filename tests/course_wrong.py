"""Wrong hand-ins of the course: what a student gets wrong, the points that are left, and what the sentence must say.

Each is an edit of a solution. The points were worked out by the tests that the fault must fail, and not by a run.
"""
from typing import List, NamedTuple, Tuple


class Wrong(NamedTuple):
    name: str
    lab: int
    file: str  # of the solution, with its language
    points: int  # of 10
    says: str  # in a sentence of the report
    edits: List[Tuple[str, str]]


WRONG = [
    # ---- lab 1
    Wrong("full duplex for link up", 1, "lab1.c", 8, "LU is its bit 1", [("& STATUS_LU", "& STATUS_FD")]),
    Wrong("an address the other way round", 1, "lab1.py", 8, "octet 0 is in the lowest bits of RAL0",
          [("low.to_bytes(4, \"little\")", "low.to_bytes(4, \"big\")")]),
    Wrong("a counter that is no sum", 1, "lab1.rs", 8, "a read of GPRC clears it",
          [("self.frames += u64", "self.frames = u64")]),
    Wrong("no START", 1, "lab1.c", 6, "which loop waits for what never comes?", [(" | EERD_START", "")]),
    Wrong("a wrong bit for DONE", 1, "lab1.rs", 6, "came to no end",
          [("value & EERD_DONE", "value & (EERD_DONE << 1)")]),
    Wrong("no shift of the address", 1, "lab1.py", 6, "EERD had another address",
          [("address << EERD_ADDR_SHIFT | EERD_START", "address | EERD_START")]),
    Wrong("a loop without an end", 1, "lab1.c", 8, "seconds of the processor without an end",
          [("bool link_is_up(void) {", "bool link_is_up(void) { for (volatile int i = 0;; i++);")]),
    Wrong("a crash", 1, "lab1.c", 8, "it crashed: Segmentation fault",
          [("mac[i] = (uint8_t)", "((volatile uint8_t *)8)[i] = (uint8_t)")]),
    Wrong("63 words", 1, "lab1.py", 8, "63 words were read", [("WORDS, GOOD_SUM = 64", "WORDS, GOOD_SUM = 63")]),
    Wrong("an exception", 1, "lab1.py", 8, "has no attribute 'status'",
          [("return self.nic.read(STATUS) & STATUS_LU != 0", "return self.status & STATUS_LU != 0")]),
    # ---- lab 2
    Wrong("a forgotten tail", 2, "lab2.c", 5, "RDH = RDT = 7. The descriptors from RDH up to but not RDT",
          [("  fill(next);\n  nic_write(RDT, next);\n", "  fill(next);\n")]),
    Wrong("DD that is left", 2, "lab2.py", 6, "the status of its descriptor was not cleared",
          [("        self.fill(self.next)\n        self.nic.write(RDT", "        self.nic.write(RDT")]),
    Wrong("a wrong BSIZE", 2, "lab2.rs", 6, "RCTL.BSIZE says that a buffer has 256",
          [("RCTL_BSIZE_2048", "RCTL_BSIZE_256")]),
    Wrong("RDT one too far", 2, "lab2.c", 5, "RDH = RDT = 1", [
        ("  nic_write(RDT, next);\n"
         "  next = (next + 1) % COUNT;\n",
         "  next = (next + 1) % COUNT;\n"
         "  nic_write(RDT, next);\n"),
    ]),
    Wrong("a pointer for an address", 2, "lab2.c", 0, "a descriptor wants the buffer's physical address",
          [("{.buffer = buffer_of(index)}", "{.buffer = (uintptr_t)nic_memory(buffer_of(index))}")]),
    Wrong("descriptors for octets", 2, "lab2.c", 0, "It is the ring's length in octets",
          [("nic_write(RDLEN, COUNT * sizeof ring[0])", "nic_write(RDLEN, COUNT)")]),
    Wrong("every address", 2, "lab2.py", 9, "RCTL.UPE lets every address pass",
          [("RCTL_EN | RCTL_BAM", "RCTL_EN | RCTL_UPE | RCTL_BAM")]),
    Wrong("no broadcast", 2, "lab2.rs", 0, "BAM is clear", [("RCTL_EN | RCTL_BAM", "RCTL_EN")]),
    Wrong("no EN", 2, "lab2.py", 0, "RCTL.EN is clear", [("RCTL_EN | RCTL_BAM", "RCTL_BAM")]),
    Wrong("one buffer for all", 2, "lab2.c", 6, "over another one's",
          [("return BUFFERS + SIZE * index", "return BUFFERS + 0 * index")]),
    Wrong("a loop for DD", 2, "lab2.py", 2, "the adapter acts only behind an access of a register", [
        ("        if not self.nic.memory[at + STATUS_AT] & RX_DD:\n"
         "            return None\n",
         "        while not self.nic.memory[at + STATUS_AT] & RX_DD:\n"
         "            pass\n"),
    ]),
    Wrong("the length's high octet forgotten", 2, "lab2.rs", 6, "the length stands in octets 8 and 9",
          [("[octets[LENGTH], octets[LENGTH + 1]]", "[octets[LENGTH], 0]")]),
    # ---- lab 3
    Wrong("a forgotten tail", 3, "lab3.c", 0, "TDT was never moved",
          [("  tail = after;\n  nic_write(TDT, tail);\n", "  tail = after;\n")]),
    Wrong("no EOP", 3, "lab3.py", 0, "waits for a descriptor with EOP", [("TX_EOP | TX_IFCS", "TX_IFCS")]),
    Wrong("a tail too early", 3, "lab3.rs", 4, "TDT is written last", [
        ("        self.tail = after;\n        nic.write(TDT, self.tail);\n", ""),
        ("        let buffer = BUFFERS",
         "        let tail = self.tail;\n"
         "        self.tail = after;\n"
         "        nic.write(TDT, self.tail);\n"
         "        let buffer = BUFFERS"),
        ("SIZE * u64::from(self.tail);", "SIZE * u64::from(tail);"),
        ("DESCRIPTOR as u64 * u64::from(self.tail)", "DESCRIPTOR as u64 * u64::from(tail)"),
    ]),
    Wrong("no look for room", 3, "lab3.c", 7, "one that is still the adapter's was written again",
          [(" || after == nic_read(TDH)", "")]),
    Wrong("no padding", 3, "lab3.py", 9, "PSP of TCTL pads it", [("TCTL_EN | TCTL_PSP", "TCTL_EN")]),
    Wrong("no wrap", 3, "lab3.c", 5, "TDT 8 is past the ring of 8",
          [("unsigned after = (tail + 1) % COUNT", "unsigned after = tail + 1")]),
    Wrong("a buffer that is used too early", 3, "lab3.py", 6, "written again before the adapter has sent it?",
          [("BUFFERS + SIZE * self.tail", "BUFFERS + SIZE * 0")]),
    Wrong("too long a packet", 3, "lab3.rs", 9, "an Ethernet frame has 1514 at most",
          [("packet.len() > LONGEST || ", "")]),
    Wrong("a descriptor for each two packets", 3, "lab3.c", 7, "has room for 7", [
        ("  if (length > LONGEST || after == nic_read(TDH)) return false;\n",
         "  if (length > LONGEST || tail != nic_read(TDH)) return false;\n"),
    ]),
    # ---- lab 4
    Wrong("acknowledged first", 4, "lab4.c", 1, "interrupt gave 0, and the adapter had interrupted",
          [("  uint32_t causes = nic_read(ICR);", "  nic_read(ICR);\n  uint32_t causes = nic_read(ICR);")]),
    Wrong("never acknowledged", 4, "lab4.py", 0, "Until then the line stays up",
          [("        causes = self.nic.read(ICR)\n", "        causes = INT_RXT0\n")]),
    Wrong("one packet for an interrupt", 4, "lab4.rs", 4, "1 of 5 packets were delivered",
          [("while let Some(packet) = self.take(nic)", "if let Some(packet) = self.take(nic)")]),
    Wrong("acknowledged last", 4, "lab4.c", 8, "took its cause away", [
        ("  uint32_t causes = nic_read(ICR);", "  take_packets();\n  uint32_t causes = nic_read(ICR);"),
        ("  if (causes & (INT_RXT0 | INT_RXO)) take_packets();\n", ""),
    ]),
    Wrong("IMS without RXT0", 4, "lab4.py", 2, "does not let the cause through",
          [("INT_RXT0 | INT_RXO | INT_LSC)", "INT_LSC)")]),
    Wrong("IMS without LSC", 4, "lab4.rs", 9, "the link went down, and the interrupt line",
          [("INT_RXT0 | INT_RXO | INT_LSC", "INT_RXT0 | INT_RXO")]),
    Wrong("each call is its own", 4, "lab4.c", 9, "the line may be another device's",
          [("return causes != 0;", "return true;")]),
    Wrong("the link as it was", 4, "lab4.py", 9, "LU of STATUS how it is",
          [("self.nic.read(STATUS) & STATUS_LU != 0", "self.nic.read(STATUS) & STATUS_FD != 0")]),
    # ---- lab 5: the other four drivers are not handed in
    Wrong("a driver that is written anew", 5, "driver1.c", 0, "find the fault, and change nothing else",
          [("/* Gives", "/* */\n" * 8 + "/* Gives")]),
    Wrong("half a correction", 5, "driver3.py", 0, "the first packet is not on the wire", [
        ("        self.nic.memory[at : at + DESCRIPTOR] = descriptor(buffer, len(packet))\n"
         "        self.nic.write(TDT, self.tail)\n",
         "        self.nic.write(TDT, self.tail)\n"
         "        self.nic.memory[at : at + DESCRIPTOR] = descriptor(buffer, len(packet))\n"),
    ]),
    Wrong("another line taken away", 5, "driver4.rs", 0, "1 of 2 packets were delivered", [
        ("        true\n", "        nic.write(ICR, INT_RXT0 | INT_RXO);\n        true\n"),
        ("        nic.read(ICR);\n", ""),
    ]),
    Wrong("a group that is never left", 5, "driver5.c", 0, "the driver is not in 01:00:5e:00:00:fb",
          [("& ~bit_of(group));", "| bit_of(group));")]),
    Wrong("a spare that is lost", 5, "driver2.py", 0, "frame 8 of a burst of 30",
          [("        self.spare = buffer\n", "")]),
    # ---- lab 6
    Wrong("a kernel's address for a physical one", 6, "lab6.py", 3, "outside",
          [("self.nic.physical(self.rx_pages[index])", "self.rx_pages[index]")]),
    Wrong("pages that are never freed", 6, "lab6.c", 7, "0 of their pages were freed",
          [("kfree(tx_pages[tx_done])", "(void)tx_pages[tx_done]")]),
    Wrong("pages that are freed too early", 6, "lab6.rs", 9, "while the adapter has it", [
        ("            nic.kfree(self.tx_pages[self.tx_done]);\n", ""),
        ("        nic.write(TDT, self.tx_tail as u32);\n"
         "        true",
         "        nic.write(TDT, self.tx_tail as u32);\n"
         "        nic.kfree(page);\n"
         "        true"),
    ]),
    Wrong("a page that is handed on and kept", 6, "lab6.c", 6, "which is not the driver's any more",
          [("      rx_pages[rx_next] = fresh;\n", "")]),
    Wrong("no look for a page", 6, "lab6.py", 9, "the program ended with the status 1", [
        ("            if fresh is not None:  # (else the packet is dropped, and its page used again)\n"
         "                self.nic.net_rx(self.rx_pages[self.rx_next], length)\n"
         "                self.rx_pages[self.rx_next] = fresh\n",
         "            self.nic.net_rx(self.rx_pages[self.rx_next], length)\n"
         "            self.rx_pages[self.rx_next] = fresh\n"),
    ]),
    Wrong("a descriptor as kalloc left it", 6, "lab6.c", 3, "DD set", [
        ("  rx_ring[index] = (struct rx_descriptor){.buffer = nic_address(rx_pages[index])};",
         "  rx_ring[index].buffer = nic_address(rx_pages[index]);"),
        ("  memset(rx_ring, 0, PAGE_SIZE);\n", ""),
    ]),
]
