//! Driver 2 receives packets, and copies none before it has to: it has one buffer more than descriptors, which goes to the
//! descriptor whose packet is taken. Where packets come in bursts, some hold the octets of others.
use crate::nic::{Calls, Nic};
use crate::registers::*;

const COUNT: u32 = 8;
const SIZE: u64 = 2048;
const RING: u64 = 0x1000;
const BUFFERS: u64 = 0x4000;
/// A descriptor: octets, and where in it the length and the status stand.
const DESCRIPTOR: usize = 16;
const LENGTH: usize = 8;
const STATUS_AT: usize = 12;

#[derive(Default)]
pub struct Driver {
    next: u32,
    buffers: [u64; COUNT as usize],
    spare: u64,
}

fn descriptor_at(index: u32) -> u64 {
    RING + DESCRIPTOR as u64 * u64::from(index)
}

/// The length of the packet of a descriptor, if the adapter is done with it.
fn length_of(nic: &Nic, index: u32) -> Option<usize> {
    let mut octets = [0; DESCRIPTOR];
    nic.get(descriptor_at(index), &mut octets);
    let length = u16::from_le_bytes([octets[LENGTH], octets[LENGTH + 1]]);
    (octets[STATUS_AT] & RX_DD != 0).then_some(usize::from(length))
}

impl Driver {
    fn fill(&mut self, nic: &mut Nic, index: u32, buffer: u64) {
        let mut octets = [0; DESCRIPTOR];
        octets[..LENGTH].copy_from_slice(&buffer.to_le_bytes());
        nic.put(descriptor_at(index), &octets);
        self.buffers[index as usize] = buffer;
    }
}

impl Calls for Driver {
    fn start(&mut self, nic: &mut Nic) {
        for index in 0..COUNT {
            self.fill(nic, index, BUFFERS + SIZE * u64::from(index));
        }
        self.spare = BUFFERS + SIZE * u64::from(COUNT);
        nic.write(RDBAL, RING as u32);
        nic.write(RDBAH, 0);
        nic.write(RDLEN, COUNT * DESCRIPTOR as u32);
        nic.write(RDH, 0);
        nic.write(RDT, COUNT - 1);
        nic.write(RCTL, RCTL_EN | RCTL_BAM | RCTL_BSIZE_2048);
    }

    fn receive(&mut self, nic: &mut Nic) -> Option<Vec<u8>> {
        let index = self.next;
        let mut packet = vec![0; length_of(nic, index)?];
        let buffer = self.buffers[index as usize];
        self.fill(nic, index, self.spare);
        self.spare = buffer;
        nic.write(RDT, index);
        self.next = (index + 1) % COUNT;
        nic.get(buffer, &mut packet);
        Some(packet)
    }
}
