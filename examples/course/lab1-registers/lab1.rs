//! Lab 1: the adapter's registers. The handout says what each function gives.
#![allow(unused)]
use crate::nic::{Calls, Nic};
use crate::registers::*;

#[derive(Default)]
pub struct Driver {}

impl Calls for Driver {
    fn link_is_up(&mut self, nic: &mut Nic) -> bool {
        false // STATUS
    }

    fn mac_address(&mut self, nic: &mut Nic) -> [u8; 6] {
        [0; 6] // RAL0, RAH0
    }

    fn eeprom_word(&mut self, nic: &mut Nic, address: u32) -> u16 {
        0 // EERD
    }

    fn eeprom_is_good(&mut self, nic: &mut Nic) -> bool {
        false
    }

    fn frames_received(&mut self, nic: &mut Nic) -> u64 {
        0 // GPRC
    }
}
