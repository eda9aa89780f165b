//! Lab 3, a solution.
use crate::nic::{Calls, Nic};
use crate::registers::*;

const COUNT: u32 = 8;
const SIZE: u64 = 2048;
const RING: u64 = 0x1000;
const BUFFERS: u64 = 0x4000;
const LONGEST: usize = 1514;
/// A descriptor: octets, and where in it the length and the command stand.
const DESCRIPTOR: usize = 16;
const LENGTH: usize = 8;
const COMMAND: usize = 11;

#[derive(Default)]
pub struct Driver {
    tail: u32,
}

/// A descriptor as the adapter is to find it.
fn descriptor(buffer: u64, length: u16) -> [u8; DESCRIPTOR] {
    let mut octets = [0; DESCRIPTOR];
    octets[..LENGTH].copy_from_slice(&buffer.to_le_bytes());
    octets[LENGTH..LENGTH + 2].copy_from_slice(&length.to_le_bytes());
    octets[COMMAND] = TX_EOP | TX_IFCS | TX_RS;
    octets
}

impl Calls for Driver {
    fn start(&mut self, nic: &mut Nic) {
        nic.put(RING, &[0; DESCRIPTOR * COUNT as usize]);
        nic.write(TDBAL, RING as u32);
        nic.write(TDBAH, 0);
        nic.write(TDLEN, COUNT * DESCRIPTOR as u32);
        nic.write(TDH, 0);
        nic.write(TDT, 0);
        nic.write(TCTL, TCTL_EN | TCTL_PSP);
    }

    fn transmit(&mut self, nic: &mut Nic, packet: &[u8]) -> bool {
        let after = (self.tail + 1) % COUNT;
        if packet.len() > LONGEST || after == nic.read(TDH) {
            return false;
        }
        let buffer = BUFFERS + SIZE * u64::from(self.tail);
        nic.put(buffer, packet);
        nic.put(RING + DESCRIPTOR as u64 * u64::from(self.tail), &descriptor(buffer, packet.len() as u16));
        self.tail = after;
        nic.write(TDT, self.tail);
        true
    }
}
