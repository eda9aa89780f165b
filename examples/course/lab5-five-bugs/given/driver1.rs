//! Driver 1 receives packets. It works for some of them, and then hands out packets that it had handed out before.
use crate::nic::{Calls, Nic};
use crate::registers::*;

const COUNT: u32 = 8;
const SIZE: u64 = 2048;
const RING: u64 = 0x1000;
const BUFFERS: u64 = 0x4000;
/// A descriptor: octets, and where in it the length and the status stand.
const DESCRIPTOR: usize = 16;
const LENGTH: usize = 8;
const STATUS_AT: usize = 12;

#[derive(Default)]
pub struct Driver {
    next: u32,
}

fn descriptor_at(index: u32) -> u64 {
    RING + DESCRIPTOR as u64 * u64::from(index)
}

fn buffer_of(index: u32) -> u64 {
    BUFFERS + SIZE * u64::from(index)
}

/// The length of the packet of a descriptor, if the adapter is done with it.
fn length_of(nic: &Nic, index: u32) -> Option<usize> {
    let mut octets = [0; DESCRIPTOR];
    nic.get(descriptor_at(index), &mut octets);
    let length = u16::from_le_bytes([octets[LENGTH], octets[LENGTH + 1]]);
    (octets[STATUS_AT] & RX_DD != 0).then_some(usize::from(length))
}

fn set_buffer(nic: &mut Nic, index: u32) {
    nic.put(descriptor_at(index), &buffer_of(index).to_le_bytes());
}

/// Gives a descriptor to the adapter.
fn give(nic: &mut Nic, index: u32) {
    set_buffer(nic, index);
    nic.write(RDT, index);
}

impl Calls for Driver {
    fn start(&mut self, nic: &mut Nic) {
        nic.put(RING, &[0; DESCRIPTOR * COUNT as usize]);
        nic.write(RDBAL, RING as u32);
        nic.write(RDBAH, 0);
        nic.write(RDLEN, COUNT * DESCRIPTOR as u32);
        nic.write(RDH, 0);
        for index in 0..COUNT {
            set_buffer(nic, index);
        }
        give(nic, COUNT - 1);
        nic.write(RCTL, RCTL_EN | RCTL_BAM | RCTL_BSIZE_2048);
    }

    fn receive(&mut self, nic: &mut Nic) -> Option<Vec<u8>> {
        let index = self.next;
        let mut packet = vec![0; length_of(nic, index)?];
        nic.get(buffer_of(index), &mut packet);
        self.next = (index + 1) % COUNT;
        give(nic, index);
        Some(packet)
    }
}
