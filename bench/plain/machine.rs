//! The adapter with its journal: accesses of registers and guest memory, the link, resets, and steps back.

use crate::fifo::{after, Fifo, OCTETS};
use crate::journal::{Counted, Journal, Transmitted, Undo};
use crate::journal::{BROADCAST, CLASS, GOOD, MULTICAST, REPORTED, SENT, TAGGED};
use crate::registers::*;

const MEMORY: usize = 65_536;
const BUDGET: usize = 1_048_576;
const MAC: [u8; 6] = [0x52, 0x54, 0x00, 0x12, 0x34, 0x56];
const MOST_POKE: usize = 16_384;

pub const CTRL_RST: u32 = 1 << 26;
pub const CTRL_VME: u32 = 1 << 30;
pub const RAH_AV: u32 = 1 << 31;
pub const EERD_START: u32 = 1 << 0;
pub const EERD_DONE: u32 = 1 << 4;
const STATUS: u32 = 0x81;
const STATUS_LU: u32 = 1 << 1;

#[derive(Clone, Copy)]
pub enum Refusal {
    NoRegister,
    Range,
    Length,
    DmaRange,
    Extended,
    TooLong,
}

/// Octets, and zero octets behind them up to `len`.
#[derive(Clone, Copy)]
pub struct Octets<'a> {
    pub data: &'a [u8],
    pub len: usize,
}

impl<'a> From<&'a [u8]> for Octets<'a> {
    fn from(data: &'a [u8]) -> Octets<'a> {
        Octets {
            data,
            len: data.len(),
        }
    }
}

/// All that a reset clears, in one box, so that a reset and its step back exchange two boxes.
pub struct Live {
    pub registers: Registers,
    pub fifo: Fifo,
    /// What was gathered, while the box lies in the journal.
    gathered: Vec<u8>,
}

impl Live {
    fn new() -> Box<Live> {
        Box::new(Live {
            registers: [0; REGISTERS],
            fifo: Fifo::new(),
            gathered: Vec::new(),
        })
    }
}

pub struct Machine {
    pub memory: Vec<u8>,
    pub live: Box<Live>,
    /// The frames that were sent, one behind the other, and then the gathered octets.
    pub wire: Vec<u8>,
    /// Where each sent frame ends, and where the last one does.
    pub ends: Vec<usize>,
    pub sent: usize,
    pub link: bool,
    eeprom: [u16; 64],
    pub journal: Journal,
    spares: Vec<Box<Live>>,
}

impl Machine {
    pub fn new() -> Machine {
        let mut eeprom = [0u16; 64];
        for (word, pair) in eeprom.iter_mut().zip(MAC.chunks_exact(2)) {
            *word = u16::from_le_bytes([pair[0], pair[1]]);
        }
        let sum = eeprom.iter().fold(0u16, |sum, &word| sum.wrapping_add(word));
        eeprom[63] = 0xBABAu16.wrapping_sub(sum);
        let mut machine = Machine {
            memory: vec![0; MEMORY],
            live: Live::new(),
            wire: Vec::new(),
            ends: Vec::new(),
            sent: 0,
            link: false,
            eeprom,
            journal: Journal::new(BUDGET),
            spares: Vec::new(),
        };
        machine.load_address();
        machine
    }

    /// The first receive address, as a reset loads it from the EEPROM.
    fn load_address(&mut self) {
        let [low, middle, high] = [0, 1, 2].map(|word| u32::from(self.eeprom[word]));
        self.live.registers[RAL0] = low | middle << 16;
        self.live.registers[RAL0 + 1] = high | RAH_AV;
    }

    #[inline]
    pub fn keep(&mut self, undo: Undo) {
        self.journal.keep(undo, &mut self.spares);
    }

    /// Where so many octets from an address on lie in guest memory, if they do.
    #[inline]
    pub fn held(&self, address: u64, len: usize) -> Option<usize> {
        let size = self.memory.len() as u64;
        (address <= size && len as u64 <= size - address).then_some(address as usize)
    }

    #[inline]
    fn look(&self, place: usize) -> u32 {
        match kind(place) {
            Kind::Status => STATUS | if self.link { STATUS_LU } else { 0 },
            // ICS and IMC are never stored
            _ => self.live.registers[place],
        }
    }

    #[inline]
    pub fn read(&mut self, place: usize) -> u32 {
        let value = self.look(place);
        let registers = &mut self.live.registers;
        let undo = match kind(place) {
            Kind::CausesRead | Kind::Counter => {
                registers[place] = 0;
                Undo::Register {
                    place: place as u16,
                    old: value,
                }
            }
            Kind::PairHigh => {
                let low = registers[place - 1];
                (registers[place - 1], registers[place]) = (0, 0);
                Undo::Pair {
                    place: place as u16 - 1,
                    low,
                    high: value,
                }
            }
            _ => Undo::Nothing,
        };
        self.keep(undo);
        value
    }

    #[inline]
    pub fn write(&mut self, place: usize, value: u32) {
        let registers = &mut self.live.registers;
        let (place, now) = match kind(place) {
            Kind::Stored => (place, value & mask(place)),
            Kind::Control if value & CTRL_RST != 0 => return self.reset(),
            Kind::Control => (place, value),
            Kind::EepromRead => (place, eeprom_read(&self.eeprom, value)),
            Kind::CausesRead => (ICR, registers[ICR] & !value),
            Kind::CausesSet => (ICR, registers[ICR] | value & CAUSES),
            Kind::MaskSet => (IMS, registers[IMS] | value & CAUSES),
            Kind::MaskClear => (IMS, registers[IMS] & !value),
            Kind::Status | Kind::Counter | Kind::PairLow | Kind::PairHigh => {
                return self.keep(Undo::Nothing);
            }
        };
        let old = std::mem::replace(&mut registers[place], now);
        self.keep(Undo::Register {
            place: place as u16,
            old,
        });
    }

    fn reset(&mut self) {
        let mut live = self.spares.pop().unwrap_or_else(Live::new);
        live.registers.fill(0);
        live.fifo.clear();
        std::mem::swap(&mut live, &mut self.live);
        self.load_address();
        live.gathered.clear();
        live.gathered.extend_from_slice(&self.wire[self.sent..]);
        self.wire.truncate(self.sent);
        self.keep(Undo::Reset(live));
    }

    #[inline]
    pub fn poke(&mut self, address: u64, octets: Octets) -> Result<(), Refusal> {
        let at = self.held(address, octets.len).ok_or(Refusal::Range)?;
        if !(1..=MOST_POKE).contains(&octets.len) {
            return Err(Refusal::Length);
        }
        let target = &mut self.memory[at..at + octets.len];
        self.journal.save(target);
        target[..octets.data.len()].copy_from_slice(octets.data);
        target[octets.data.len()..].fill(0);
        self.keep(Undo::Poke {
            at: at as u32,
            len: octets.len as u16,
        });
        Ok(())
    }

    pub fn set_link(&mut self, up: bool) {
        if self.link == up {
            return self.keep(Undo::Nothing);
        }
        self.link = up;
        let raised = raise(&mut self.live.registers, LSC);
        self.keep(Undo::Link { raised });
    }

    /// Takes the newest event back, if the journal holds one.
    #[inline]
    pub fn back(&mut self) -> bool {
        let Some(undo) = self.journal.take() else {
            return false;
        };
        let registers = &mut self.live.registers;
        match undo {
            Undo::Nothing => {}
            Undo::Register { place, old } => registers[place as usize] = old,
            Undo::Pair { place, low, high } => {
                registers[place as usize] = low;
                registers[place as usize + 1] = high;
            }
            Undo::Link { raised } => {
                self.link = !self.link;
                registers[ICR] &= !u32::from(raised);
            }
            Undo::Missed {
                raised,
                missed,
                no_buffer,
            } => {
                registers[ICR] &= !u32::from(raised);
                registers[MPC] -= u32::from(missed);
                registers[RNBC] -= u32::from(no_buffer);
            }
            Undo::Poke { at, len } => {
                let at = at as usize;
                self.journal.restore(&mut self.memory[at..at + len as usize]);
            }
            Undo::Arrived {
                counted,
                len,
                octets,
            } => self.take_arrival_back(counted, len as usize, octets),
            Undo::Wrote { .. } => self.take_receiving_back(undo),
            Undo::Transmitted(step) => self.take_sending_back(step),
            Undo::Reset(live) => {
                self.wire.extend_from_slice(&live.gathered);
                self.spares.push(std::mem::replace(&mut self.live, live));
            }
        }
        true
    }

    fn take_arrival_back(&mut self, counted: Counted, len: usize, octets: u32) {
        let Live {
            registers, fifo, ..
        } = &mut *self.live;
        fifo.count -= 1;
        fifo.used -= len;
        let place = after(fifo.first, fifo.used);
        let near = len.min(OCTETS - place);
        self.journal.restore(&mut fifo.octets[..len - near]);
        self.journal.restore(&mut fifo.octets[place..place + near]);
        let is_tagged = fifo.entry(fifo.count).is_tagged;
        let total = len + if is_tagged { 8 } else { 4 };
        registers[GPRC] -= u32::from(counted.good);
        registers[PRC64 + class(total)] -= u32::from(counted.class);
        registers[BPRC] -= u32::from(counted.broadcast);
        registers[MPRC] -= u32::from(counted.multicast);
        registers[RNBC] -= u32::from(counted.no_buffer);
        uncount_pair(registers, GORCL, octets);
    }

    fn take_receiving_back(&mut self, undo: Undo) {
        let Undo::Wrote {
            is_last,
            raised,
            len,
            at,
            entry,
            old,
        } = undo
        else {
            return;
        };
        let Live {
            registers, fifo, ..
        } = &mut *self.live;
        let (count, len, at) = (registers[RDLEN] / 16, len as usize, at as usize);
        let head = before(registers[RDH], count);
        registers[RDH] = head;
        registers[ICR] &= !u32::from(raised);
        // the descriptor lay in memory, so RDBAH is 0
        let descriptor = (registers[RDBAL] + 16 * head) as usize;
        self.memory[descriptor + 8..descriptor + 16].copy_from_slice(&old);
        if is_last {
            let whole = entry.len as usize;
            fifo.first = after(fifo.first, OCTETS - whole);
            fifo.used += whole;
            fifo.head = fifo.head.wrapping_sub(1);
            fifo.count += 1;
            *fifo.entry(0) = entry;
            fifo.taken = whole;
        }
        fifo.taken -= len;
        self.journal.restore(&mut self.memory[at..at + len]);
    }

    fn take_sending_back(&mut self, step: Transmitted) {
        let registers = &mut self.live.registers;
        let head = before(registers[TDH], registers[TDLEN] / 16);
        registers[TDH] = head;
        registers[ICR] &= !u32::from(step.raised);
        let did = |flag: u8| step.flags & flag != 0;
        if did(SENT) {
            self.ends.pop();
            let start = self.ends.last().copied().unwrap_or(0);
            let total = self.sent - start + 4;
            self.sent = start;
            if total >= 64 {
                registers[GPTC] -= u32::from(did(GOOD));
                registers[PTC64 + class(total)] -= u32::from(did(CLASS));
                uncount_pair(registers, GOTCL, step.counted_octets);
            }
            registers[BPTC] -= u32::from(did(BROADCAST));
            registers[MPTC] -= u32::from(did(MULTICAST));
            self.wire.truncate(self.wire.len() - step.padding as usize);
            if did(TAGGED) {
                self.wire.copy_within(start + 16.., start + 12);
                self.wire.truncate(self.wire.len() - 4);
            }
        }
        self.wire.truncate(self.wire.len() - step.len as usize);
        if did(REPORTED) {
            let descriptor = (registers[TDBAL] + 16 * head) as usize;
            self.memory[descriptor + 12] = step.status;
        }
    }
}

/// What EERD holds after a write: with START the word at the address is there at once.
fn eeprom_read(eeprom: &[u16; 64], value: u32) -> u32 {
    let address = value & 0xFF00;
    if value & EERD_START == 0 {
        return address;
    }
    let word = eeprom.get((address >> 8) as usize).copied().unwrap_or(0);
    u32::from(word) << 16 | address | EERD_DONE
}

/// The index before another one in a ring of so many.
#[inline]
fn before(index: u32, count: u32) -> u32 {
    if index == 0 {
        count - 1
    } else {
        index - 1
    }
}
