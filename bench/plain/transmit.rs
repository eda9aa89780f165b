//! The transmit engine.

use crate::journal::{Transmitted, Undo, LEAST_COST};
use crate::journal::{BROADCAST, CLASS, GOOD, MULTICAST, REPORTED, SENT, TAGGED};
use crate::machine::{Machine, Refusal, CTRL_VME};
use crate::registers::*;

const MOST_GATHERED: usize = 16_380;
const LEAST_FRAME: usize = 60;
const TCTL_EN: u32 = 1 << 1;
const TCTL_PSP: u32 = 1 << 3;

const EOP: u64 = 1 << 0;
const RS: u64 = 1 << 3;
const DEXT: u64 = 1 << 5;
const VLE: u64 = 1 << 6;

/// What a step did: the index of the descriptor, and how many octets the frame had that it sent.
pub enum Step {
    Idle,
    Fetched(u32),
    Sent(u32, usize),
}

impl Machine {
    pub fn transmit_step(&mut self) -> Result<Step, Refusal> {
        let registers = &self.live.registers;
        let tctl = registers[TCTL];
        let (count, head, tail) = (registers[TDLEN] / 16, registers[TDH], registers[TDT]);
        if tctl & TCTL_EN == 0 || head >= count || tail >= count || head == tail {
            self.keep(Undo::Nothing);
            return Ok(Step::Idle);
        }
        let base = u64::from(registers[TDBAH]) << 32 | u64::from(registers[TDBAL]);
        let descriptor = base
            .checked_add(16 * u64::from(head))
            .and_then(|address| self.held(address, 16))
            .ok_or(Refusal::DmaRange)?;
        let address = u64::from_le_bytes(*self.memory[descriptor..].first_chunk().expect("held"));
        let fields = u64::from_le_bytes(*self.memory[descriptor + 8..].first_chunk().expect("held"));
        let (len, command) = (fields as usize & 0xFFFF, fields >> 24 & 0xFF);
        if command & DEXT != 0 {
            return Err(Refusal::Extended);
        }
        let gathered = self.wire.len() - self.sent + len;
        if gathered > MOST_GATHERED {
            return Err(Refusal::TooLong);
        }
        if len > 0 {
            let at = self.held(address, len).ok_or(Refusal::DmaRange)?;
            self.wire.extend_from_slice(&self.memory[at..at + len]);
        }
        let mut step = Transmitted {
            cost: (LEAST_COST + len) as u16,
            len: len as u16,
            counted_octets: 0,
            raised: 0,
            padding: 0,
            flags: 0,
            status: 0,
        };
        let mut causes = 0;
        if command & RS != 0 {
            step.status = std::mem::replace(&mut self.memory[descriptor + 12], 1);
            step.flags |= REPORTED;
            step.cost += 1;
            causes |= TXDW;
        }
        let mut answer = Step::Fetched(head);
        if command & EOP != 0 && gathered > 0 {
            let tag = (command & VLE != 0).then_some((fields >> 48) as u16);
            let octets = self.send(tag, tctl & TCTL_PSP != 0, &mut step);
            step.cost += octets as u16;
            answer = Step::Sent(head, octets);
        }
        let registers = &mut self.live.registers;
        let next = if head + 1 == count { 0 } else { head + 1 };
        registers[TDH] = next;
        if next == tail {
            causes |= TXQE;
        }
        step.raised = raise(registers, causes);
        self.keep(Undo::Transmitted(step));
        Ok(answer)
    }

    /// Makes a frame of the gathered octets, and counts it; how many octets it has.
    fn send(&mut self, tag: Option<u16>, pads: bool, step: &mut Transmitted) -> usize {
        let registers = &mut self.live.registers;
        let start = self.sent;
        step.flags |= SENT;
        if let Some(tag) = tag {
            let end = self.wire.len();
            if registers[CTRL] & CTRL_VME != 0 && end - start >= 12 {
                self.wire.resize(end + 4, 0);
                self.wire.copy_within(start + 12..end, start + 16);
                self.wire[start + 12..start + 14].copy_from_slice(&(registers[VET] as u16).to_be_bytes());
                self.wire[start + 14..start + 16].copy_from_slice(&tag.to_be_bytes());
                step.flags |= TAGGED;
            }
        }
        if pads && self.wire.len() - start < LEAST_FRAME {
            step.padding = (LEAST_FRAME - (self.wire.len() - start)) as u8;
            self.wire.resize(start + LEAST_FRAME, 0);
        }
        self.sent = self.wire.len();
        self.ends.push(self.sent);
        let frame = &self.wire[start..];
        let total = frame.len() + 4;
        if total >= 64 {
            if count(registers, GPTC) {
                step.flags |= GOOD;
            }
            if count(registers, PTC64 + class(total)) {
                step.flags |= CLASS;
            }
            step.counted_octets = count_pair(registers, GOTCL, total as u32);
        }
        if let Some(to) = frame.first_chunk::<6>() {
            if *to == [0xFF; 6] {
                if count(registers, BPTC) {
                    step.flags |= BROADCAST;
                }
            } else if to[0] & 1 != 0 && count(registers, MPTC) {
                step.flags |= MULTICAST;
            }
        }
        frame.len()
    }
}
