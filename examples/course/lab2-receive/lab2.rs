//! Lab 2: packets are received. The handout says what each function does.
#![allow(unused)]
use crate::nic::{Calls, Nic};
use crate::registers::*;

// Where in the board's memory of 64 KiB the ring and its buffers lie: physical addresses.
const COUNT: u32 = 8;
const SIZE: u64 = 2048;
const RING: u64 = 0x1000;
const BUFFERS: u64 = 0x4000;
// A descriptor: octets, and where in it the length and the status stand.
const DESCRIPTOR: usize = 16;
const LENGTH: usize = 8;
const STATUS_AT: usize = 12;

#[derive(Default)]
pub struct Driver {}

impl Calls for Driver {
    fn start(&mut self, nic: &mut Nic) {
        // 1. each descriptor gets its buffer's address; all else in it is 0
        // 2. RDBAL, RDBAH, RDLEN, RDH, RDT
        // 3. RCTL, last of all
    }

    fn receive(&mut self, nic: &mut Nic) -> Option<Vec<u8>> {
        // 1. is the next descriptor done? Else there is no packet
        // 2. copy the packet
        // 3. make the descriptor new, and give it back
        None
    }
}
