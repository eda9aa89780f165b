//! The journal: what takes each event back, the newest last, within a budget.

use crate::fifo::Entry;
use crate::machine::Live;
use std::collections::VecDeque;

/// The counters that an event stepped.
#[derive(Clone, Copy, Default)]
pub struct Counted {
    pub good: bool,
    pub class: bool,
    pub broadcast: bool,
    pub multicast: bool,
    pub no_buffer: bool,
}

/// What takes an event back. Old octets lie in the journal's ring; `raised` are the causes that were not set before.
pub enum Undo {
    Nothing,
    Register { place: u16, old: u32 },
    Pair { place: u16, low: u32, high: u32 },
    Link { raised: u8 },
    Missed { raised: u8, missed: bool, no_buffer: bool },
    Poke { at: u32, len: u16 },
    Arrived { counted: Counted, len: u16, octets: u32 },
    Wrote { is_last: bool, raised: u8, len: u16, at: u32, entry: Entry, old: [u8; 8] },
    Transmitted(Transmitted),
    Reset(Box<Live>),
}

/// What a transmit step did: the octets that it gathered, the frame that it sent, and the status octet that it wrote.
#[derive(Clone, Copy)]
pub struct Transmitted {
    pub cost: u16,
    pub len: u16,
    pub counted_octets: u32,
    pub raised: u8,
    pub padding: u8,
    pub flags: u8,
    pub status: u8,
}

/// Flags of `Transmitted`.
pub const GOOD: u8 = 1 << 0;
pub const CLASS: u8 = 1 << 1;
pub const BROADCAST: u8 = 1 << 2;
pub const MULTICAST: u8 = 1 << 3;
pub const REPORTED: u8 = 1 << 4;
pub const SENT: u8 = 1 << 5;
pub const TAGGED: u8 = 1 << 6;

/// What a record costs that holds no octets, and what a reset's does.
pub const LEAST_COST: usize = 32;
const RESET_COST: usize = 65_536;

impl Undo {
    #[inline]
    pub fn cost(&self) -> usize {
        match self {
            Undo::Poke { len, .. } | Undo::Arrived { len, .. } => LEAST_COST + *len as usize,
            Undo::Wrote { len, .. } => LEAST_COST + 8 + *len as usize,
            Undo::Transmitted(step) => step.cost as usize,
            Undo::Reset(_) => RESET_COST,
            _ => LEAST_COST,
        }
    }
}

pub struct Journal {
    records: VecDeque<Undo>,
    budget: usize,
    used: usize,
    /// Old octets: a ring whose size is a power of two and at least the budget, so that those of all records fit.
    octets: Box<[u8]>,
    top: usize,
}

impl Journal {
    pub fn new(budget: usize) -> Journal {
        Journal {
            records: VecDeque::with_capacity(budget / LEAST_COST + 1),
            budget,
            used: 0,
            octets: vec![0; budget.next_power_of_two()].into_boxed_slice(),
            top: 0,
        }
    }

    /// Keeps a record; the oldest go that the budget no longer holds. A reset's is given to `spares`.
    #[inline]
    pub fn keep(&mut self, undo: Undo, spares: &mut Vec<Box<Live>>) {
        self.used += undo.cost();
        while self.used > self.budget {
            let Some(oldest) = self.records.pop_front() else {
                break;
            };
            self.used -= oldest.cost();
            if let Undo::Reset(live) = oldest {
                spares.push(live);
            }
        }
        self.records.push_back(undo);
    }

    /// Takes the newest record out.
    #[inline]
    pub fn take(&mut self) -> Option<Undo> {
        let undo = self.records.pop_back()?;
        self.used -= undo.cost();
        Some(undo)
    }

    /// Keeps old octets.
    #[inline]
    pub fn save(&mut self, data: &[u8]) {
        let place = self.top & (self.octets.len() - 1);
        let near = data.len().min(self.octets.len() - place);
        self.octets[place..place + near].copy_from_slice(&data[..near]);
        self.octets[..data.len() - near].copy_from_slice(&data[near..]);
        self.top = self.top.wrapping_add(data.len());
    }

    /// Puts the newest old octets back.
    #[inline]
    pub fn restore(&mut self, out: &mut [u8]) {
        self.top = self.top.wrapping_sub(out.len());
        let place = self.top & (self.octets.len() - 1);
        let near = out.len().min(self.octets.len() - place);
        let (low, high) = out.split_at_mut(near);
        low.copy_from_slice(&self.octets[place..place + near]);
        high.copy_from_slice(&self.octets[..high.len()]);
    }
}
