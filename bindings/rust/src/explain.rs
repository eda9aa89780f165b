//! What explains: why an event did nothing, what a driver gets wrong, what is wrong with a descriptor.
use crate::raw;
use crate::tables::{KINDS, RULES, TROUBLES, WARNINGS};
use crate::{Kind, Refusal, Rule, Trouble, Warned};
use core::fmt;

/// The text of a struct.
fn line_in(text: &[u8]) -> &str {
    let length = text.iter().position(|octet| *octet == 0).unwrap_or(text.len());
    core::str::from_utf8(&text[..length]).unwrap_or("")
}

/// An event that was asked for, which [`Machine::why`](crate::Machine::why) is asked about.
#[derive(Clone, Copy, PartialEq, Eq, Hash, Debug)]
pub enum Asked<'a> {
    /// A read of the register at an offset.
    Read(u32),
    /// A write of a value to it.
    Write(u32, u32),
    /// A memory write of octets at an address.
    Poke(u64, &'a [u8]),
    /// A frame that arrived.
    Arrive(&'a [u8]),
    /// A step of the receive engine.
    RxStep,
    /// A step of the transmit engine.
    TxStep,
}

impl<'a> Asked<'a> {
    /// Its note, and the octets that no note has. Of one that was performed the note has its kind.
    pub(crate) fn raw(self, came: Result<Kind, Refusal>) -> (raw::Note, &'a [u8], u32) {
        let (kind, at, value, octets): (Kind, u64, u32, &[u8]) = match self {
            Asked::Read(offset) => (Kind::Read, u64::from(offset), 0, &[]),
            Asked::Write(offset, value) => (Kind::Write, u64::from(offset), value, &[]),
            Asked::Poke(address, octets) => (Kind::Poke, address, 0, octets),
            Asked::Arrive(frame) => (Kind::Stored, 0, 0, frame),
            Asked::RxStep => (Kind::Wrote, 0, 0, &[]),
            Asked::TxStep => (Kind::Fetched, 0, 0, &[]),
        };
        let (kind, code) = match came {
            Ok(kind) => (kind, 0),
            Err(refusal) => (kind, refusal.number()),
        };
        let number = KINDS.iter().find(|it| it.0 == kind).map_or(0, |it| it.1);
        (raw::Note { at, value, kind: number, ..raw::Note::default() }, octets, code)
    }
}

/// Why an event did nothing. A number that the rule has not is 0.
#[derive(Clone, Copy, PartialEq, Eq, Debug)]
pub struct Reason {
    /// The rule by which it did nothing.
    pub rule: Rule,
    /// Where the descriptor lies, or the octets of a memory write; the offset of an access.
    pub address: u64,
    /// Where the descriptor's buffer lies.
    pub buffer: u64,
    /// How many octets a memory write, a frame or a transmit descriptor has; a frame that was dropped with the FCS.
    pub octets: u64,
    /// How many there may be at most; of a frame that is too short at least; of a full FIFO how many frames wait.
    pub most: u64,
    /// Where guest memory begins.
    pub base: u64,
    /// How many octets it has.
    pub memory: u64,
    /// The descriptor's index, or what RDH, RDT, TDH or TDT holds.
    pub index: u32,
    /// How many descriptors the ring has.
    pub count: u32,
    /// The hash of a destination, or the identifier of a VLAN.
    pub value: u32,
    /// The destination that no filter has.
    pub to: [u8; 6],
    text: [u8; 256],
}

impl Reason {
    pub(crate) fn of(told: raw::Reason) -> Reason {
        Reason {
            rule: RULES.iter().find(|it| it.1 == told.rule).map_or(Rule::Other(told.rule), |it| it.0),
            address: told.address,
            buffer: told.buffer,
            octets: told.octets,
            most: told.most,
            base: told.base,
            memory: told.memory,
            index: told.index,
            count: told.count,
            value: told.value,
            to: told.to,
            text: told.text,
        }
    }

    /// The reason in words.
    pub fn text(&self) -> &str {
        line_in(&self.text)
    }
}

impl fmt::Display for Reason {
    fn fmt(&self, f: &mut fmt::Formatter<'_>) -> fmt::Result {
        f.write_str(self.text())
    }
}

/// What a driver seems to get wrong by an access of a register. A number that the rule has not is 0.
#[derive(Clone, Copy, PartialEq, Eq, Debug)]
pub struct Warning {
    /// The rule that warns.
    pub rule: Warned,
    /// Where the descriptor lies.
    pub address: u64,
    /// The offset of the register that was accessed; of causes without a ring that of the ring's length.
    pub offset: u32,
    /// The descriptor's index, or what the tail holds.
    pub index: u32,
    /// How many descriptors the ring has.
    pub count: u32,
    /// The bits that the register keeps of those that were written,
    pub kept: u32,
    /// and these.
    pub written: u32,
    /// The causes that are let through, or that were cleared.
    pub causes: u32,
    text: [u8; 256],
}

impl Warning {
    fn of(told: raw::Warning) -> Warning {
        Warning {
            rule: WARNINGS.iter().find(|it| it.1 == told.rule).map_or(Warned::Other(told.rule), |it| it.0),
            address: told.address,
            offset: told.offset,
            index: told.index,
            count: told.count,
            kept: told.kept,
            written: told.written,
            causes: told.causes,
            text: told.text,
        }
    }

    /// The warning in words.
    pub fn text(&self) -> &str {
        line_in(&self.text)
    }
}

impl fmt::Display for Warning {
    fn fmt(&self, f: &mut fmt::Formatter<'_>) -> fmt::Result {
        f.write_str(self.text())
    }
}

/// The warnings of an event, one after another.
#[derive(Clone, Debug)]
pub struct Warnings {
    pub(crate) told: [raw::Warning; 10],
    pub(crate) count: usize,
    pub(crate) next: usize,
}

impl Iterator for Warnings {
    type Item = Warning;

    fn next(&mut self) -> Option<Warning> {
        let told = self.told[..self.count.min(6)].get(self.next)?;
        self.next += 1;
        Some(Warning::of(*told))
    }
}

/// A descriptor of a ring, with what it says, whose it is, and what is wrong with it.
#[derive(Clone, Copy, PartialEq, Eq, Debug)]
pub struct Entry {
    /// Where it lies.
    pub address: u64,
    /// Where its buffer lies.
    pub buffer: u64,
    /// Its index in the ring.
    pub index: u32,
    /// How many octets the adapter put into the buffer, or is to send out of it.
    pub length: u32,
    /// Its status octet.
    pub status: u32,
    /// Of a receive descriptor its errors octet; else 0.
    pub errors: u32,
    /// Of a transmit descriptor its command octet; else 0.
    pub command: u32,
    /// It is the adapter's, and not the driver's.
    pub is_adapters: bool,
    /// The head stands here.
    pub is_head: bool,
    /// The tail stands here.
    pub is_tail: bool,
    /// What is wrong with it first, if anything is.
    pub trouble: Option<Trouble>,
    /// The descriptor over whose buffer its own lies; else 0.
    pub other: u32,
    text: [u8; 256],
}

impl Entry {
    pub(crate) fn of(told: raw::Entry) -> Entry {
        let known = TROUBLES.iter().find(|it| it.1 == told.trouble).map_or(Trouble::Other(told.trouble), |it| it.0);
        Entry {
            address: told.address,
            buffer: told.buffer,
            index: told.index,
            length: told.length,
            status: told.status,
            errors: told.errors,
            command: told.command,
            is_adapters: told.adapters == 1,
            is_head: told.head == 1,
            is_tail: told.tail == 1,
            trouble: (told.trouble != 0).then_some(known),
            other: told.other,
            text: told.text,
        }
    }

    /// Its line.
    pub fn text(&self) -> &str {
        line_in(&self.text)
    }
}

impl fmt::Display for Entry {
    fn fmt(&self, f: &mut fmt::Formatter<'_>) -> fmt::Result {
        f.write_str(self.text())
    }
}
