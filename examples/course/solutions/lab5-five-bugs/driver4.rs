//! Driver 4 is driven by interrupts. Now and then a packet lies in memory, and nobody comes for it until the next one.
use crate::nic::{Calls, Nic};
use crate::registers::*;

const COUNT: u32 = 8;
const SIZE: u64 = 2048;
const RING: u64 = 0x1000;
const BUFFERS: u64 = 0x4000;
/// A descriptor: octets, and where in it the length and the status stand.
const DESCRIPTOR: usize = 16;
const LENGTH: usize = 8;
const STATUS_AT: usize = 12;

#[derive(Default)]
pub struct Driver {
    next: u32,
}

fn descriptor_at(index: u32) -> u64 {
    RING + DESCRIPTOR as u64 * u64::from(index)
}

fn buffer_of(index: u32) -> u64 {
    BUFFERS + SIZE * u64::from(index)
}

fn fill(nic: &mut Nic, index: u32) {
    let mut octets = [0; DESCRIPTOR];
    octets[..LENGTH].copy_from_slice(&buffer_of(index).to_le_bytes());
    nic.put(descriptor_at(index), &octets);
}

/// The length of the packet of a descriptor, if the adapter is done with it.
fn length_of(nic: &Nic, index: u32) -> Option<usize> {
    let mut octets = [0; DESCRIPTOR];
    nic.get(descriptor_at(index), &mut octets);
    let length = u16::from_le_bytes([octets[LENGTH], octets[LENGTH + 1]]);
    (octets[STATUS_AT] & RX_DD != 0).then_some(usize::from(length))
}

impl Calls for Driver {
    fn start(&mut self, nic: &mut Nic) {
        for index in 0..COUNT {
            fill(nic, index);
        }
        nic.write(RDBAL, RING as u32);
        nic.write(RDBAH, 0);
        nic.write(RDLEN, COUNT * DESCRIPTOR as u32);
        nic.write(RDH, 0);
        nic.write(RDT, COUNT - 1);
        nic.write(RCTL, RCTL_EN | RCTL_BAM | RCTL_BSIZE_2048);
        nic.read(ICR);
        nic.write(IMS, INT_RXT0 | INT_RXO | INT_LSC);
    }

    fn interrupt(&mut self, nic: &mut Nic) -> bool {
        let causes = nic.read(ICR);
        if causes == 0 {
            return false;
        }
        if causes & INT_LSC != 0 {
            let is_up = nic.read(STATUS) & STATUS_LU != 0;
            nic.link_changed(is_up);
        }
        while let Some(length) = length_of(nic, self.next) {
            let mut packet = vec![0; length];
            nic.get(buffer_of(self.next), &mut packet);
            nic.deliver(&packet);
            fill(nic, self.next);
            nic.write(RDT, self.next);
            self.next = (self.next + 1) % COUNT;
        }
        true
    }
}
