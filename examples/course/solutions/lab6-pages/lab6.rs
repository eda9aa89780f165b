//! Lab 6, a solution.
use crate::nic::{Calls, Nic, PAGE_SIZE};
use crate::registers::*;

const COUNT: usize = 16;
/// A descriptor: octets, and where in it the length, the command and the status stand.
const DESCRIPTOR: usize = 16;
const LENGTH: usize = 8;
const COMMAND: usize = 11;
const STATUS_AT: usize = 12;

/// Addresses here are the kernel's; the adapter is given physical ones.
#[derive(Default)]
pub struct Driver {
    rx_ring: u64,
    tx_ring: u64,
    rx_pages: [u64; COUNT],
    tx_pages: [u64; COUNT],
    rx_next: usize,
    tx_tail: usize,
    tx_done: usize,
}

/// Tells the adapter where a ring lies that begins empty.
fn set_ring(nic: &mut Nic, ring: u64, [low, high, length, head]: [u32; 4]) {
    let at = nic.physical(ring);
    nic.write(low, at as u32);
    nic.write(high, (at >> 32) as u32);
    nic.write(length, (COUNT * DESCRIPTOR) as u32);
    nic.write(head, 0);
}

/// A page for a ring, all zeros.
fn new_ring(nic: &mut Nic) -> u64 {
    let ring = nic.kalloc().expect("a page for a ring");
    nic.put(ring, &[0; PAGE_SIZE]);
    ring
}

impl Driver {
    fn fill(&mut self, nic: &mut Nic, index: usize) {
        let mut octets = [0; DESCRIPTOR];
        octets[..LENGTH].copy_from_slice(&nic.physical(self.rx_pages[index]).to_le_bytes());
        nic.put(self.rx_ring + (DESCRIPTOR * index) as u64, &octets);
    }

    /// Frees the pages that are sent.
    fn free_sent(&mut self, nic: &mut Nic) {
        let head = nic.read(TDH) as usize;
        while self.tx_done != head {
            nic.kfree(self.tx_pages[self.tx_done]);
            self.tx_done = (self.tx_done + 1) % COUNT;
        }
    }

    fn take_packets(&mut self, nic: &mut Nic) {
        loop {
            let index = self.rx_next;
            let mut octets = [0; DESCRIPTOR];
            nic.get(self.rx_ring + (DESCRIPTOR * index) as u64, &mut octets);
            if octets[STATUS_AT] & RX_DD == 0 {
                return;
            }
            let length = u16::from_le_bytes([octets[LENGTH], octets[LENGTH + 1]]);
            // without a fresh page the packet is dropped, and its page used again
            if let Some(fresh) = nic.kalloc() {
                nic.net_rx(self.rx_pages[index], usize::from(length));
                self.rx_pages[index] = fresh;
            }
            self.fill(nic, index);
            nic.write(RDT, index as u32);
            self.rx_next = (index + 1) % COUNT;
        }
    }
}

impl Calls for Driver {
    fn start(&mut self, nic: &mut Nic) {
        self.rx_ring = new_ring(nic);
        for index in 0..COUNT {
            self.rx_pages[index] = nic.kalloc().expect("a page for a buffer");
            self.fill(nic, index);
        }
        set_ring(nic, self.rx_ring, [RDBAL, RDBAH, RDLEN, RDH]);
        nic.write(RDT, COUNT as u32 - 1);
        nic.write(RCTL, RCTL_EN | RCTL_BAM | RCTL_BSIZE_2048);
        self.tx_ring = new_ring(nic);
        set_ring(nic, self.tx_ring, [TDBAL, TDBAH, TDLEN, TDH]);
        nic.write(TDT, 0);
        nic.write(TCTL, TCTL_EN | TCTL_PSP);
        nic.read(ICR); // what was before does not count
        nic.write(IMS, INT_RXT0 | INT_RXO);
    }

    fn transmit_page(&mut self, nic: &mut Nic, page: u64, length: usize) -> bool {
        let after = (self.tx_tail + 1) % COUNT;
        self.free_sent(nic);
        if after == self.tx_done {
            return false;
        }
        self.tx_pages[self.tx_tail] = page;
        let mut octets = [0; DESCRIPTOR];
        octets[..LENGTH].copy_from_slice(&nic.physical(page).to_le_bytes());
        octets[LENGTH..LENGTH + 2].copy_from_slice(&(length as u16).to_le_bytes());
        octets[COMMAND] = TX_EOP | TX_IFCS | TX_RS;
        nic.put(self.tx_ring + (DESCRIPTOR * self.tx_tail) as u64, &octets);
        self.tx_tail = after;
        nic.write(TDT, self.tx_tail as u32);
        true
    }

    fn interrupt(&mut self, nic: &mut Nic) -> bool {
        let causes = nic.read(ICR);
        if causes & (INT_RXT0 | INT_RXO) != 0 {
            self.take_packets(nic);
        }
        causes != 0
    }
}
