//! What an event was, and what is watched.
use crate::raw;
use crate::tables::{KINDS, WATCH_FRAMES, WATCH_LINE, WATCH_LINK, WATCH_OCTETS, WATCH_PHY, WATCH_REGISTER, WATCH_SENT};
use crate::{Kind, Refusal};
use core::fmt;

/// An event that was performed.
#[derive(Clone, Copy, PartialEq, Eq, Hash, Debug)]
pub struct Event {
    /// What it was, with what came of it.
    pub kind: Kind,
    /// Of an access the register's offset, of a memory write its address, of an engine's step that was not idle its
    /// descriptor's address; else 0.
    pub at: u64,
    /// How many octets an access, a memory write or a frame has; else 0.
    pub length: u32,
    /// Of a read what it gave, of a write what was written, of an engine's step the descriptor's index; else 0.
    pub value: u32,
    /// Where in guest memory the octets lie that an engine's step wrote into its buffer or read there; else 0.
    pub buffer: u64,
    /// How many they are; else 0.
    pub octets: u32,
    /// The caller's tag.
    pub tag: u64,
}

impl Event {
    pub(crate) fn of(note: raw::Note) -> Event {
        let kind = KINDS.iter().find(|it| it.1 == note.kind).map_or(Kind::Other(note.kind), |it| it.0);
        let raw::Note { tag, at, length, value, octets, buffer, .. } = note;
        Event { kind, at, length, value, buffer, octets, tag }
    }
}

impl fmt::Display for Kind {
    fn fmt(&self, f: &mut fmt::Formatter<'_>) -> fmt::Result {
        match (self, KINDS.iter().find(|it| it.0 == *self)) {
            (Kind::Other(number), _) => write!(f, "unknown kind {number}"),
            (_, known) => f.write_str(known.map_or("", |it| it.2)),
        }
    }
}

impl fmt::Display for Event {
    fn fmt(&self, f: &mut fmt::Formatter<'_>) -> fmt::Result {
        match self.kind {
            Kind::Read | Kind::Write => write!(f, "{} {:05X} {:08X}", self.kind, self.at, self.value),
            Kind::Poke => write!(f, "{} {:X} {}", self.kind, self.at, self.length),
            Kind::Wrote | Kind::Fetched => write!(f, "{} {}", self.kind, self.value),
            Kind::Sent => write!(f, "{} {} {}", self.kind, self.value, self.length),
            _ => write!(f, "{}", self.kind),
        }
    }
}

/// What is watched.
#[derive(Clone, Copy, PartialEq, Eq, Hash, Debug)]
pub enum Watch {
    /// The register at an offset.
    Register(u32),
    /// So many octets of guest memory from an address on: 1 to 16.
    Octets(u64, usize),
    /// The interrupt line.
    Line,
    /// The link.
    Link,
    /// How many frames lie in the FIFO.
    Frames,
    /// How many frames were sent.
    Sent,
    /// The word of the PHY of that number, 0 to 31, as a read of it by MDIC gives it. In the first profile nothing
    /// changes it.
    Phy(u8),
}

impl Watch {
    pub(crate) fn raw(self) -> raw::Watch {
        let (kind, offset, address, octets) = match self {
            Watch::Register(offset) => (WATCH_REGISTER, offset, 0, 0),
            Watch::Octets(address, octets) => (WATCH_OCTETS, 0, address, octets),
            Watch::Line => (WATCH_LINE, 0, 0, 0),
            Watch::Link => (WATCH_LINK, 0, 0, 0),
            Watch::Frames => (WATCH_FRAMES, 0, 0, 0),
            Watch::Sent => (WATCH_SENT, 0, 0, 0),
            Watch::Phy(word) => (WATCH_PHY, u32::from(word), 0, 0),
        };
        raw::Watch { kind, offset, address, octets }
    }
}

/// A change of what is watched.
#[derive(Clone, Copy, PartialEq, Eq, Hash, Debug)]
pub struct Change {
    /// How many steps back lead before the event that made it.
    pub back: usize,
    /// What was seen before it, but for octets; of the line and the link 1 or 0.
    pub value: u64,
    /// The octets that were seen before it, and zeros behind them.
    pub octets: [u8; 16],
}

impl Change {
    pub(crate) fn of(change: raw::Change) -> Change {
        Change { back: change.back, value: change.value, octets: change.before }
    }
}

/// What an event changed of something that can be watched.
#[derive(Clone, Copy, PartialEq, Eq, Hash, Debug)]
pub struct Difference {
    /// A register, octets side by side, the line, the link, how many frames wait, or how many were sent.
    pub watch: Watch,
    /// What was seen before the event, but for octets; of the line and the link 1 or 0.
    pub value: u64,
    /// The same behind it.
    pub now: u64,
    /// The octets that were seen before the event, and zeros behind them.
    pub before: [u8; 16],
    /// The same behind it.
    pub after: [u8; 16],
}

impl Difference {
    #[cfg(feature = "std")]
    pub(crate) fn of(told: &raw::Difference) -> Option<Difference> {
        let watch = match told.kind {
            WATCH_REGISTER => Watch::Register(told.offset),
            WATCH_OCTETS => Watch::Octets(told.address, told.octets),
            WATCH_LINE => Watch::Line,
            WATCH_LINK => Watch::Link,
            WATCH_FRAMES => Watch::Frames,
            WATCH_SENT => Watch::Sent,
            _ => return None,
        };
        Some(Difference { watch, value: told.value, now: told.now, before: told.before, after: told.after })
    }
}

/// The offset of the register of this name, in either case of its letters.
pub fn offset_of(name: &str) -> Result<u32, Refusal> {
    let mut offset = 0;
    // SAFETY: the text is as long as is said, and the call writes one number.
    match unsafe { raw::em_find(name.as_ptr(), name.len(), &mut offset) } {
        0 => Ok(offset),
        number => Err(Refusal::of(number)),
    }
}

/// The manual's name of a register, as text.
#[derive(Clone, Copy, PartialEq, Eq, Hash, Debug)]
pub struct Name {
    letters: [u8; 16],
    length: usize,
}

impl Name {
    /// The name of the register at an offset.
    pub fn of(offset: u32) -> Result<Name, Refusal> {
        let mut name = Name { letters: [0; 16], length: 0 };
        let (room, most) = (name.letters.as_mut_ptr(), name.letters.len());
        // SAFETY: the room is as long as is said, and the length lies beside it.
        match unsafe { raw::em_name(offset, room, most, &mut name.length) } {
            0 => Ok(name),
            number => Err(Refusal::of(number)),
        }
    }

    /// Its letters.
    pub fn as_str(&self) -> &str {
        core::str::from_utf8(&self.letters[..self.length.min(16)]).unwrap_or("")
    }
}

impl fmt::Display for Name {
    fn fmt(&self, f: &mut fmt::Formatter<'_>) -> fmt::Result {
        f.write_str(self.as_str())
    }
}

/// A bit or a field of a register, by the manual's name: of a value it holds `(value & mask) / lowest`.
#[derive(Clone, Copy, PartialEq, Eq, Hash, Debug)]
pub struct Field {
    /// Its bits.
    pub mask: u32,
    /// The lowest of them.
    pub lowest: u32,
    name: [u8; 16],
}

impl Field {
    /// The manual's name.
    pub fn name(&self) -> &str {
        let length = self.name.iter().position(|letter| *letter == 0).unwrap_or(16);
        core::str::from_utf8(&self.name[..length]).unwrap_or("")
    }

    /// What it holds of a value of the register.
    pub fn of(&self, value: u32) -> u32 {
        (value & self.mask) / self.lowest.max(1)
    }
}

/// The bits and fields of the register at an offset, from the lowest on; none where it is one number.
pub fn fields_of(offset: u32) -> Fields {
    Fields { offset, next: 0 }
}

/// The bits and fields of a register, one after another.
#[derive(Clone, Debug)]
pub struct Fields {
    offset: u32,
    next: usize,
}

impl Iterator for Fields {
    type Item = Field;

    fn next(&mut self) -> Option<Field> {
        let mut row = raw::Field::default();
        // SAFETY: the call writes one field.
        if unsafe { raw::em_field(self.offset, self.next, &mut row) } != 0 || row.mask == 0 {
            return None;
        }
        self.next += 1;
        Some(Field { mask: row.mask, lowest: row.lowest, name: row.name })
    }
}

/// A register's name, a value of it, and the names of the bits and fields that are set in it.
#[cfg(feature = "std")]
pub fn words_of(offset: u32, value: u32) -> Result<std::string::String, Refusal> {
    crate::machine::text_of(|out, room, length| unsafe { raw::em_value_text(offset, value, out, room, length) })
}
