//! Lab 4: the driver of lab 2, by interrupts. The handout says what each function does.
#![allow(unused)]
use crate::nic::{Calls, Nic};
use crate::registers::*;

const COUNT: u32 = 8;
const SIZE: u64 = 2048;
const RING: u64 = 0x1000;
const BUFFERS: u64 = 0x4000;
// A descriptor: octets, and where in it the length and the status stand.
const DESCRIPTOR: usize = 16;
const LENGTH: usize = 8;
const STATUS_AT: usize = 12;

#[derive(Default)]
pub struct Driver {}

impl Calls for Driver {
    fn start(&mut self, nic: &mut Nic) {
        // 1. the receive ring and RCTL, as in lab 2
        // 2. what ICR had before does not count
        // 3. IMS lets the causes through that the routine answers
    }

    fn interrupt(&mut self, nic: &mut Nic) -> bool {
        // 1. which causes are there?
        // 2. nic.link_changed, where the link changed
        // 3. nic.deliver each packet that lies in the ring, and give its descriptor back
        false
    }
}
