//! Frames that arrive, and the receive engine.

use crate::fifo::{after, Entry, OCTETS};
use crate::journal::{Counted, Undo};
use crate::machine::{Live, Machine, Octets, Refusal, CTRL_VME, RAH_AV};
use crate::registers::*;

const BROADCAST: u64 = 0xFFFF_FFFF_FFFF;
const LARGEST: usize = 1522;
const LARGEST_LONG: usize = 16_384;

const RCTL_EN: u32 = 1 << 1;
const RCTL_UPE: u32 = 1 << 3;
const RCTL_MPE: u32 = 1 << 4;
const RCTL_LPE: u32 = 1 << 5;
const RCTL_BAM: u32 = 1 << 15;
const RCTL_VFE: u32 = 1 << 18;
const RCTL_BSEX: u32 = 1 << 25;

/// What becomes of a frame.
#[derive(Clone, Copy)]
pub enum Arrival {
    Stored,
    Down,
    Disabled,
    Rejected,
    Undersize,
    Oversize,
    Missed,
}

/// Whether the filters accept a destination address, its first octet in the lowest bits.
#[inline]
fn accepts(registers: &Registers, address: u64) -> bool {
    let rctl = registers[RCTL];
    if address & 1 == 0 {
        if rctl & RCTL_UPE != 0 {
            return true;
        }
    } else {
        if rctl & RCTL_MPE != 0 || address == BROADCAST && rctl & RCTL_BAM != 0 {
            return true;
        }
        let shift = [36, 35, 34, 32][(rctl >> 12 & 3) as usize];
        let hash = (address >> shift) as usize & 0xFFF;
        if registers[MTA + hash / 32] >> (hash % 32) & 1 != 0 {
            return true;
        }
    }
    let (low, high) = (address as u32, RAH_AV | (address >> 32) as u32);
    registers[RAL0..RAL0 + 32]
        .chunks_exact(2)
        .any(|entry| entry[0] == low && entry[1] == high)
}

/// How many octets a receive buffer has, by BSIZE and BSEX.
#[inline]
fn buffer_size(rctl: u32) -> usize {
    match (rctl >> 16 & 3, rctl & RCTL_BSEX != 0) {
        (0, _) => 2048,
        (size, false) => 2048 >> size,
        (size, true) => 32_768 >> size,
    }
}

impl Machine {
    pub fn arrive(&mut self, frame: Octets) -> Result<Arrival, Refusal> {
        if !(14..=20_000).contains(&frame.len) {
            return Err(Refusal::Length);
        }
        if !self.link {
            return Ok(self.drop_frame(Arrival::Down));
        }
        let registers = &mut self.live.registers;
        let rctl = registers[RCTL];
        if rctl & RCTL_EN == 0 {
            return Ok(self.drop_frame(Arrival::Disabled));
        }
        let mut head = [0; 16];
        let known = frame.data.len().min(16);
        head[..known].copy_from_slice(&frame.data[..known]);
        let [a, b, c, d, e, f, ..] = head;
        let to = u64::from_le_bytes([a, b, c, d, e, f, 0, 0]);
        if !accepts(registers, to) {
            return Ok(self.drop_frame(Arrival::Rejected));
        }
        let total = frame.len + 4;
        let most = if rctl & RCTL_LPE != 0 { LARGEST_LONG } else { LARGEST };
        if total < 64 {
            return Ok(self.count_drop(RUC, Arrival::Undersize));
        }
        if total > most {
            return Ok(self.count_drop(ROC, Arrival::Oversize));
        }
        let has_type = u32::from(u16::from_be_bytes([head[12], head[13]])) == registers[VET];
        let tag = u16::from_be_bytes([head[14], head[15]]);
        if has_type && rctl & RCTL_VFE != 0 {
            let id = usize::from(tag & 0xFFF);
            if registers[VFTA + id / 32] >> (id % 32) & 1 == 0 {
                return Ok(self.drop_frame(Arrival::Rejected));
            }
        }
        let is_tagged = has_type && registers[CTRL] & CTRL_VME != 0;
        Ok(self.store(frame, &head, to, is_tagged.then_some(tag)))
    }

    fn drop_frame(&mut self, why: Arrival) -> Arrival {
        self.keep(Undo::Nothing);
        why
    }

    fn count_drop(&mut self, counter: usize, why: Arrival) -> Arrival {
        let old = self.live.registers[counter];
        count(&mut self.live.registers, counter);
        self.keep(Undo::Register {
            place: counter as u16,
            old,
        });
        why
    }

    /// Stores an accepted frame without its tag, if the packet buffer has room.
    fn store(&mut self, frame: Octets, head: &[u8; 16], to: u64, tag: Option<u16>) -> Arrival {
        let Live {
            registers, fifo, ..
        } = &mut *self.live;
        let total = frame.len + 4;
        let len = frame.len - if tag.is_some() { 4 } else { 0 };
        let mut counted = Counted::default();
        counted.no_buffer = registers[RDH] == registers[RDT] && count(registers, RNBC);
        if fifo.used + len > OCTETS {
            let missed = count(registers, MPC);
            let raised = raise(registers, RXO);
            self.keep(Undo::Missed {
                raised,
                missed,
                no_buffer: counted.no_buffer,
            });
            return Arrival::Missed;
        }
        let mut place = after(fifo.first, fifo.used);
        let near = len.min(OCTETS - place);
        self.journal.save(&fifo.octets[place..place + near]);
        self.journal.save(&fifo.octets[..len - near]);
        if tag.is_some() {
            let rest = frame.data.get(16..).unwrap_or(&[]);
            place = fifo.put(place, &head[..12]);
            place = fifo.put(place, rest);
            fifo.put_zeros(place, len - 12 - rest.len());
        } else {
            place = fifo.put(place, frame.data);
            fifo.put_zeros(place, len - frame.data.len());
        }
        *fifo.entry(fifo.count) = Entry {
            len: len as u16,
            is_tagged: tag.is_some(),
            tag: tag.unwrap_or(0),
        };
        fifo.count += 1;
        fifo.used += len;
        counted.good = count(registers, GPRC);
        counted.class = count(registers, PRC64 + class(total));
        let octets = count_pair(registers, GORCL, total as u32);
        if to == BROADCAST {
            counted.broadcast = registers[RCTL] & RCTL_BAM != 0 && count(registers, BPRC);
        } else if to & 1 != 0 {
            counted.multicast = count(registers, MPRC);
        }
        self.keep(Undo::Arrived {
            counted,
            len: len as u16,
            octets,
        });
        Arrival::Stored
    }

    /// One step of the receive engine: the index of the descriptor that it wrote, or none where it is idle.
    pub fn receive_step(&mut self) -> Result<Option<u32>, Refusal> {
        let registers = &self.live.registers;
        let rctl = registers[RCTL];
        let (count, head, tail) = (registers[RDLEN] / 16, registers[RDH], registers[RDT]);
        let is_idle = rctl & RCTL_EN == 0 || head >= count || tail >= count || head == tail;
        if is_idle || self.live.fifo.count == 0 {
            self.keep(Undo::Nothing);
            return Ok(None);
        }
        let base = u64::from(registers[RDBAH]) << 32 | u64::from(registers[RDBAL]);
        let descriptor = base
            .checked_add(16 * u64::from(head))
            .and_then(|address| self.held(address, 16))
            .ok_or(Refusal::DmaRange)?;
        let address = u64::from_le_bytes(*self.memory[descriptor..].first_chunk().expect("held"));
        let entry = *self.live.fifo.entry(0);
        let whole = entry.len as usize;
        let len = buffer_size(rctl).min(whole - self.live.fifo.taken);
        let at = self.held(address, len).ok_or(Refusal::DmaRange)?;

        let Live {
            registers, fifo, ..
        } = &mut *self.live;
        let is_last = fifo.taken + len == whole;
        let target = &mut self.memory[at..at + len];
        self.journal.save(target);
        fifo.copy_to(after(fifo.first, fifo.taken), target);
        let (status, special) = match (is_last, entry.is_tagged) {
            (false, _) => (0x05, 0),
            (true, false) => (0x07, 0),
            (true, true) => (0x0F, u64::from(entry.tag)),
        };
        let end: &mut [u8; 8] = self.memory[descriptor + 8..].first_chunk_mut().expect("held");
        let written = len as u64 | status << 32 | special << 48;
        let old = std::mem::replace(end, written.to_le_bytes());
        let next = if head + 1 == count { 0 } else { head + 1 };
        registers[RDH] = next;
        let mut causes = 0;
        if is_last {
            fifo.first = after(fifo.first, whole);
            fifo.used -= whole;
            fifo.head = fifo.head.wrapping_add(1);
            fifo.count -= 1;
            fifo.taken = 0;
            causes |= RXT0;
        } else {
            fifo.taken += len;
        }
        let left = if tail >= next { tail - next } else { tail + count - next };
        if left == [count / 2, count / 4, count / 8, count / 8][(rctl >> 8 & 3) as usize] {
            causes |= RXDMT0;
        }
        let raised = raise(registers, causes);
        self.keep(Undo::Wrote {
            is_last,
            raised,
            len: len as u16,
            at: at as u32,
            entry,
            old,
        });
        Ok(Some(head))
    }
}
