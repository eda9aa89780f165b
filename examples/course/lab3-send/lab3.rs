//! Lab 3: packets are sent. The handout says what each function does.
#![allow(unused)]
use crate::nic::{Calls, Nic};
use crate::registers::*;

// Where in the board's memory of 64 KiB the ring and its buffers lie: physical addresses.
const COUNT: u32 = 8;
const SIZE: u64 = 2048;
const RING: u64 = 0x1000;
const BUFFERS: u64 = 0x4000;
// How long a packet can be.
const LONGEST: usize = 1514;
// A descriptor: octets, and where in it the length, the command and the status stand.
const DESCRIPTOR: usize = 16;
const LENGTH: usize = 8;
const COMMAND: usize = 11;
const STATUS_AT: usize = 12;

#[derive(Default)]
pub struct Driver {}

impl Calls for Driver {
    fn start(&mut self, nic: &mut Nic) {
        // 1. all descriptors are 0
        // 2. TDBAL, TDBAH, TDLEN, TDH, TDT
        // 3. TCTL, last of all
    }

    fn transmit(&mut self, nic: &mut Nic, packet: &[u8]) -> bool {
        // 1. is there room? Else the packet is not taken
        // 2. copy the packet to the descriptor's buffer
        // 3. write the descriptor
        // 4. give it to the adapter
        false
    }
}
