//! Lab 1, a solution.
use crate::nic::{Calls, Nic};
use crate::registers::*;

const WORDS: u32 = 64;
const GOOD_SUM: u16 = 0xBABA;

#[derive(Default)]
pub struct Driver {
    frames: u64,
}

impl Calls for Driver {
    fn link_is_up(&mut self, nic: &mut Nic) -> bool {
        nic.read(STATUS) & STATUS_LU != 0
    }

    fn mac_address(&mut self, nic: &mut Nic) -> [u8; 6] {
        let low = nic.read(RAL0).to_le_bytes();
        let high = nic.read(RAH0).to_le_bytes();
        [low[0], low[1], low[2], low[3], high[0], high[1]]
    }

    fn eeprom_word(&mut self, nic: &mut Nic, address: u32) -> u16 {
        nic.write(EERD, address << EERD_ADDR_SHIFT | EERD_START);
        loop {
            let value = nic.read(EERD);
            if value & EERD_DONE != 0 {
                return (value >> EERD_DATA_SHIFT) as u16;
            }
        }
    }

    fn eeprom_is_good(&mut self, nic: &mut Nic) -> bool {
        let sum = (0..WORDS).fold(0u16, |sum, at| sum.wrapping_add(self.eeprom_word(nic, at)));
        sum == GOOD_SUM
    }

    fn frames_received(&mut self, nic: &mut Nic) -> u64 {
        self.frames += u64::from(nic.read(GPRC));
        self.frames
    }
}
