//! Lab 6: a driver for a kernel with pages, whose memory begins at 80000000h. The handout says what each function does.
#![allow(unused)]
use crate::nic::{Calls, Nic, PAGE_SIZE};
use crate::registers::*;

const COUNT: usize = 16;
// A descriptor: octets, and where in it the length, the command and the status stand.
const DESCRIPTOR: usize = 16;
const LENGTH: usize = 8;
const COMMAND: usize = 11;
const STATUS_AT: usize = 12;

/// The page of each descriptor: the kernel's addresses.
#[derive(Default)]
pub struct Driver {
    rx_pages: [u64; COUNT],
    tx_pages: [u64; COUNT],
}

impl Calls for Driver {
    fn start(&mut self, nic: &mut Nic) {
        // both rings, each in a page of kalloc's; a page for each receive descriptor; RCTL and TCTL; IMS last
    }

    fn transmit_page(&mut self, nic: &mut Nic, page: u64, length: usize) -> bool {
        // 1. kfree the pages that are sent
        // 2. is there room? Else the page stays its caller's
        // 3. the descriptor with the page's physical address, and then TDT
        false
    }

    fn interrupt(&mut self, nic: &mut Nic) -> bool {
        // for each packet: a new page from kalloc takes the place of its page, which net_rx gets. Without a new page the
        // packet is dropped, and its page stays
        false
    }
}
