//! Driver 5 receives packets of groups. Where it has left one group, it hears nothing of another.
use crate::nic::{Calls, Nic};
use crate::registers::*;

const COUNT: u32 = 8;
const SIZE: u64 = 2048;
const RING: u64 = 0x1000;
const BUFFERS: u64 = 0x4000;
/// A descriptor: octets, and where in it the length and the status stand.
const DESCRIPTOR: usize = 16;
const LENGTH: usize = 8;
const STATUS_AT: usize = 12;
/// Bits of a word of the MTA, and its octets.
const WORD: u32 = 32;
const WORD_OCTETS: u32 = 4;

#[derive(Default)]
pub struct Driver {
    next: u32,
}

fn descriptor_at(index: u32) -> u64 {
    RING + DESCRIPTOR as u64 * u64::from(index)
}

fn buffer_of(index: u32) -> u64 {
    BUFFERS + SIZE * u64::from(index)
}

fn fill(nic: &mut Nic, index: u32) {
    let mut octets = [0; DESCRIPTOR];
    octets[..LENGTH].copy_from_slice(&buffer_of(index).to_le_bytes());
    nic.put(descriptor_at(index), &octets);
}

/// The length of the packet of a descriptor, if the adapter is done with it.
fn length_of(nic: &Nic, index: u32) -> Option<usize> {
    let mut octets = [0; DESCRIPTOR];
    nic.get(descriptor_at(index), &mut octets);
    let length = u16::from_le_bytes([octets[LENGTH], octets[LENGTH + 1]]);
    (octets[STATUS_AT] & RX_DD != 0).then_some(usize::from(length))
}

/// The hash of a group, as RCTL.MO = 0 takes it: bits 47 to 36 of the address.
fn hash_of(group: [u8; 6]) -> u32 {
    u32::from(group[5]) << 4 | u32::from(group[4]) >> 4
}

fn word_of(group: [u8; 6]) -> u32 {
    MTA + hash_of(group) / WORD * WORD_OCTETS
}

fn bit_of(group: [u8; 6]) -> u32 {
    1 << (hash_of(group) % WORD)
}

impl Calls for Driver {
    fn start(&mut self, nic: &mut Nic) {
        for index in 0..COUNT {
            fill(nic, index);
        }
        nic.write(RDBAL, RING as u32);
        nic.write(RDBAH, 0);
        nic.write(RDLEN, COUNT * DESCRIPTOR as u32);
        nic.write(RDH, 0);
        nic.write(RDT, COUNT - 1);
        nic.write(RCTL, RCTL_EN | RCTL_BAM | RCTL_BSIZE_2048);
    }

    fn join(&mut self, nic: &mut Nic, group: [u8; 6]) {
        let word = nic.read(word_of(group));
        nic.write(word_of(group), word | bit_of(group));
    }

    fn leave(&mut self, nic: &mut Nic, group: [u8; 6]) {
        let word = nic.read(word_of(group));
        nic.write(word_of(group), word & bit_of(group));
    }

    fn receive(&mut self, nic: &mut Nic) -> Option<Vec<u8>> {
        let mut packet = vec![0; length_of(nic, self.next)?];
        nic.get(buffer_of(self.next), &mut packet);
        fill(nic, self.next);
        nic.write(RDT, self.next);
        self.next = (self.next + 1) % COUNT;
        Some(packet)
    }
}
