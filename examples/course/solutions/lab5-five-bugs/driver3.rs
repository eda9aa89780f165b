//! Driver 3 sends packets. Some go out as others that were sent before, or not at all.
use crate::nic::{Calls, Nic};
use crate::registers::*;

const COUNT: u32 = 8;
const SIZE: u64 = 2048;
const RING: u64 = 0x1000;
const BUFFERS: u64 = 0x4000;
const LONGEST: usize = 1514;
/// A descriptor: octets, and where in it the length and the command stand.
const DESCRIPTOR: usize = 16;
const LENGTH: usize = 8;
const COMMAND: usize = 11;

#[derive(Default)]
pub struct Driver {
    tail: u32,
}

/// A descriptor as the adapter is to find it.
fn descriptor(buffer: u64, length: u16) -> [u8; DESCRIPTOR] {
    let mut octets = [0; DESCRIPTOR];
    octets[..LENGTH].copy_from_slice(&buffer.to_le_bytes());
    octets[LENGTH..LENGTH + 2].copy_from_slice(&length.to_le_bytes());
    octets[COMMAND] = TX_EOP | TX_IFCS | TX_RS;
    octets
}

impl Driver {
    /// The index of a free descriptor, if there is one. The tail goes behind it, once it is written.
    fn claim(&mut self, nic: &mut Nic) -> Option<u32> {
        let (index, after) = (self.tail, (self.tail + 1) % COUNT);
        if after == nic.read(TDH) {
            return None;
        }
        self.tail = after;
        Some(index)
    }
}

impl Calls for Driver {
    fn start(&mut self, nic: &mut Nic) {
        nic.put(RING, &[0; DESCRIPTOR * COUNT as usize]);
        nic.write(TDBAL, RING as u32);
        nic.write(TDBAH, 0);
        nic.write(TDLEN, COUNT * DESCRIPTOR as u32);
        nic.write(TDH, 0);
        nic.write(TDT, 0);
        nic.write(TCTL, TCTL_EN | TCTL_PSP);
    }

    fn transmit(&mut self, nic: &mut Nic, packet: &[u8]) -> bool {
        if packet.len() > LONGEST {
            return false;
        }
        let index = match self.claim(nic) {
            Some(index) => index,
            None => return false,
        };
        let buffer = BUFFERS + SIZE * u64::from(index);
        nic.put(buffer, packet);
        nic.put(RING + DESCRIPTOR as u64 * u64::from(index), &descriptor(buffer, packet.len() as u16));
        nic.write(TDT, self.tail);
        true
    }
}
