//! A polled driver: it is started, sends packets and takes received ones. `events` are those of its present call.

use crate::machine::{Machine, Octets, EERD_DONE, EERD_START, RAH_AV};
use crate::registers::*;
use crate::text::put_octets;

const RX_RING: u64 = 0;
const TX_RING: u64 = 0x80;
const RX_BUFFERS: u64 = 0x1000;
const TX_BUFFERS: u64 = 0x5000;
const COUNT: u32 = 8;
const BUFFER: u64 = 2048;

pub struct Driver<'a> {
    pub machine: &'a mut Machine,
    pub events: usize,
}

/// How many packets a call moved, and why it stopped, if it did.
pub type Moved = (usize, Option<&'static str>);

impl Driver<'_> {
    #[inline]
    fn read(&mut self, place: usize) -> u32 {
        self.events += 1;
        self.machine.read(place)
    }

    #[inline]
    fn write(&mut self, place: usize, value: u32) {
        self.events += 1;
        self.machine.write(place, value);
    }

    /// The layout is inside memory, so it is never refused.
    #[inline]
    fn poke(&mut self, address: u64, octets: Octets) {
        self.events += 1;
        let done = self.machine.poke(address, octets);
        debug_assert!(done.is_ok());
    }

    pub fn start(&mut self) -> Result<(), &'static str> {
        self.write(IMC, u32::MAX);
        self.write(CTRL, 0x0400_0000);
        self.write(IMC, u32::MAX);
        self.write(CTRL, 0x0000_0041);
        let mut words = [0u16; 64];
        for (word, address) in words.iter_mut().zip(0u32..) {
            self.write(EERD, address << 8 | EERD_START);
            let value = self.read(EERD);
            if value & EERD_DONE == 0 {
                return Err("Broken");
            }
            *word = (value >> 16) as u16;
        }
        if words.iter().fold(0u16, |sum, &word| sum.wrapping_add(word)) != 0xBABA {
            return Err("Checksum");
        }
        self.write(RAL0, u32::from(words[0]) | u32::from(words[1]) << 16);
        self.write(RAL0 + 1, u32::from(words[2]) | RAH_AV);
        for place in MTA..MTA + 128 {
            self.write(place, 0);
        }
        self.descriptors(RX_RING, RX_BUFFERS);
        self.write(RDBAL, RX_RING as u32);
        self.write(RDBAH, 0);
        self.write(RDLEN, 16 * COUNT);
        self.write(RDH, 0);
        self.write(RDT, COUNT - 1);
        self.write(RCTL, 0x0000_801A);
        self.descriptors(TX_RING, TX_BUFFERS);
        self.write(TDBAL, TX_RING as u32);
        self.write(TDBAH, 0);
        self.write(TDLEN, 16 * COUNT);
        self.write(TDH, 0);
        self.write(TDT, 0);
        self.write(TIPG, 0x0060_200A);
        self.write(TCTL, 0x0004_010A);
        Ok(())
    }

    fn descriptors(&mut self, ring: u64, buffers: u64) {
        for i in 0..u64::from(COUNT) {
            let mut descriptor = [0; 16];
            descriptor[..8].copy_from_slice(&(buffers + BUFFER * i).to_le_bytes());
            self.poke(ring + 16 * i, Octets::from(&descriptor[..]));
        }
    }

    /// Takes at most n received packets, whose octets go to `text`.
    pub fn receive(&mut self, n: usize, text: &mut Vec<u8>) -> Moved {
        text.clear();
        if n == 0 {
            return (0, None);
        }
        let mut tail = self.read(RDT);
        if tail >= COUNT {
            return (0, Some("Broken"));
        }
        for count in 0..n {
            let index = (tail + 1) % COUNT;
            let at = (RX_RING + 16 * u64::from(index)) as usize;
            let descriptor = &self.machine.memory[at..at + 16];
            let len = usize::from(u16::from_le_bytes([descriptor[8], descriptor[9]]));
            let status = descriptor[12];
            if status & 1 == 0 {
                return (count, None);
            }
            if status & 2 == 0 || len == 0 || len > BUFFER as usize {
                return (count, Some("Broken"));
            }
            let from = (RX_BUFFERS + BUFFER * u64::from(index)) as usize;
            put_octets(text, &self.machine.memory[from..from + len]);
            self.poke(at as u64 + 12, Octets::from(&[0][..]));
            self.write(RDT, index);
            tail = index;
        }
        (n, None)
    }

    /// Hands a packet over, if a descriptor is free.
    pub fn send(&mut self, packet: Octets) -> Moved {
        let tail = self.read(TDT);
        let head = self.read(TDH);
        if tail >= COUNT || head >= COUNT {
            return (0, Some("Broken"));
        }
        if (tail + 1) % COUNT == head {
            return (0, None);
        }
        if !(14..=1518).contains(&packet.len) {
            return (0, Some("PacketLength"));
        }
        let buffer = TX_BUFFERS + BUFFER * u64::from(tail);
        self.poke(buffer, packet);
        let mut descriptor = [0; 16];
        descriptor[..8].copy_from_slice(&buffer.to_le_bytes());
        descriptor[8..10].copy_from_slice(&(packet.len as u16).to_le_bytes());
        descriptor[11] = 0x0B;
        self.poke(TX_RING + 16 * u64::from(tail), Octets::from(&descriptor[..]));
        self.write(TDT, (tail + 1) % COUNT);
        (1, None)
    }
}
