//! The registers: where each lies, of which kind it is, and what a write of it stores.

/// What an access does besides.
#[derive(Clone, Copy, PartialEq, Eq)]
pub enum Kind {
    Stored,
    Control,
    Status,
    EepromRead,
    CausesRead,
    CausesSet,
    MaskSet,
    MaskClear,
    Counter,
    PairLow,
    PairHigh,
}

const ALL: u32 = 0xFFFF_FFFF;

/// The first offset, how many registers, their distance, their kind, and the bits that a write stores.
const ROWS: &[(usize, usize, usize, Kind, u32)] = &[
    (0x00000, 1, 4, Kind::Control, ALL),
    (0x00008, 1, 4, Kind::Status, 0),
    (0x00014, 1, 4, Kind::EepromRead, 0),
    (0x00018, 1, 4, Kind::Stored, ALL),          // CTRL_EXT
    (0x00028, 3, 4, Kind::Stored, ALL),          // FCAL, FCAH, FCT
    (0x00038, 1, 4, Kind::Stored, 0xFFFF),       // VET
    (0x000C0, 1, 4, Kind::CausesRead, 0),        // ICR
    (0x000C4, 1, 4, Kind::Stored, ALL),          // ITR
    (0x000C8, 1, 4, Kind::CausesSet, 0),         // ICS
    (0x000D0, 1, 4, Kind::MaskSet, 0),           // IMS
    (0x000D8, 1, 4, Kind::MaskClear, 0),         // IMC
    (0x00100, 1, 4, Kind::Stored, ALL),          // RCTL
    (0x00170, 1, 4, Kind::Stored, ALL),          // FCTTV
    (0x00400, 1, 4, Kind::Stored, ALL),          // TCTL
    (0x00410, 1, 4, Kind::Stored, ALL),          // TIPG
    (0x00E00, 1, 4, Kind::Stored, ALL),          // LEDCTL
    (0x01000, 1, 4, Kind::Stored, ALL),          // PBA
    (0x02800, 1, 4, Kind::Stored, 0xFFFF_FFF0),  // RDBAL
    (0x02804, 1, 4, Kind::Stored, ALL),          // RDBAH
    (0x02808, 1, 4, Kind::Stored, 0x000F_FF80),  // RDLEN
    (0x02810, 2, 8, Kind::Stored, 0xFFFF),       // RDH, RDT
    (0x02820, 2, 8, Kind::Stored, ALL),          // RDTR, RXDCTL
    (0x0282C, 1, 4, Kind::Stored, ALL),          // RADV
    (0x03800, 1, 4, Kind::Stored, 0xFFFF_FFF0),  // TDBAL
    (0x03804, 1, 4, Kind::Stored, ALL),          // TDBAH
    (0x03808, 1, 4, Kind::Stored, 0x000F_FF80),  // TDLEN
    (0x03810, 2, 8, Kind::Stored, 0xFFFF),       // TDH, TDT
    (0x03820, 2, 8, Kind::Stored, ALL),          // TIDV, TXDCTL
    (0x0382C, 1, 4, Kind::Stored, ALL),          // TADV
    (0x04010, 1, 4, Kind::Counter, 0),           // MPC
    (0x0405C, 6, 4, Kind::Counter, 0),           // PRC64 to PRC1522
    (0x04074, 4, 4, Kind::Counter, 0),           // GPRC, BPRC, MPRC, GPTC
    (0x04088, 2, 8, Kind::PairLow, 0),           // GORCL, GOTCL
    (0x0408C, 2, 8, Kind::PairHigh, 0),          // GORCH, GOTCH
    (0x040A0, 2, 4, Kind::Counter, 0),           // RNBC, RUC
    (0x040AC, 1, 4, Kind::Counter, 0),           // ROC
    (0x040D8, 8, 4, Kind::Counter, 0),           // PTC64 to PTC1522, MPTC, BPTC
    (0x05000, 1, 4, Kind::Stored, ALL),          // RXCSUM
    (0x05200, 128, 4, Kind::Stored, ALL),        // MTA
    (0x05400, 16, 8, Kind::Stored, ALL),         // RAL
    (0x05404, 16, 8, Kind::Stored, 0x8003_FFFF), // RAH
    (0x05600, 128, 4, Kind::Stored, ALL),        // VFTA
];

/// How many words the registers' space has, up to the last of them.
const WORDS: usize = 0x5800 / 4;

/// No register lies at a word.
const NONE: u16 = u16::MAX;

const fn count_registers() -> usize {
    let (mut row, mut count) = (0, 0);
    while row < ROWS.len() {
        count += ROWS[row].1;
        row += 1;
    }
    count
}

/// How many registers there are.
pub const REGISTERS: usize = count_registers();

/// The values of all registers, in the order of their offsets.
pub type Registers = [u32; REGISTERS];

struct Tables {
    place: [u16; WORDS],
    kind: [Kind; REGISTERS],
    mask: [u32; REGISTERS],
}

const fn tables() -> Tables {
    let mut row_of = [NONE; WORDS];
    let mut row = 0;
    while row < ROWS.len() {
        let mut i = 0;
        while i < ROWS[row].1 {
            row_of[(ROWS[row].0 + i * ROWS[row].2) / 4] = row as u16;
            i += 1;
        }
        row += 1;
    }
    let mut tables = Tables {
        place: [NONE; WORDS],
        kind: [Kind::Stored; REGISTERS],
        mask: [0; REGISTERS],
    };
    let (mut word, mut next) = (0, 0);
    while word < WORDS {
        if row_of[word] != NONE {
            let (_, _, _, kind, mask) = ROWS[row_of[word] as usize];
            tables.place[word] = next as u16;
            tables.kind[next] = kind;
            tables.mask[next] = mask;
            next += 1;
        }
        word += 1;
    }
    tables
}

const TABLES: Tables = tables();
static TABLE: Tables = TABLES;

/// The place of the register at an offset, if one lies there.
#[inline]
pub fn place_of(offset: u32) -> Option<usize> {
    if offset % 4 != 0 {
        return None;
    }
    match TABLE.place.get(offset as usize / 4) {
        None | Some(&NONE) => None,
        Some(&place) => Some(place as usize),
    }
}

#[inline]
pub fn kind(place: usize) -> Kind {
    TABLE.kind[place]
}

#[inline]
pub fn mask(place: usize) -> u32 {
    TABLE.mask[place]
}

const fn at(offset: usize) -> usize {
    TABLES.place[offset / 4] as usize
}

pub const CTRL: usize = at(0x00000);
pub const EERD: usize = at(0x00014);
pub const VET: usize = at(0x00038);
pub const ICR: usize = at(0x000C0);
pub const IMS: usize = at(0x000D0);
pub const IMC: usize = at(0x000D8);
pub const RCTL: usize = at(0x00100);
pub const TCTL: usize = at(0x00400);
pub const TIPG: usize = at(0x00410);
pub const RDBAL: usize = at(0x02800);
pub const RDBAH: usize = at(0x02804);
pub const RDLEN: usize = at(0x02808);
pub const RDH: usize = at(0x02810);
pub const RDT: usize = at(0x02818);
pub const TDBAL: usize = at(0x03800);
pub const TDBAH: usize = at(0x03804);
pub const TDLEN: usize = at(0x03808);
pub const TDH: usize = at(0x03810);
pub const TDT: usize = at(0x03818);
pub const MPC: usize = at(0x04010);
pub const PRC64: usize = at(0x0405C);
pub const GPRC: usize = at(0x04074);
pub const BPRC: usize = at(0x04078);
pub const MPRC: usize = at(0x0407C);
pub const GPTC: usize = at(0x04080);
pub const GORCL: usize = at(0x04088);
pub const GOTCL: usize = at(0x04090);
pub const RNBC: usize = at(0x040A0);
pub const RUC: usize = at(0x040A4);
pub const ROC: usize = at(0x040AC);
pub const PTC64: usize = at(0x040D8);
pub const MPTC: usize = at(0x040F0);
pub const BPTC: usize = at(0x040F4);
pub const MTA: usize = at(0x05200);
pub const RAL0: usize = at(0x05400);
pub const VFTA: usize = at(0x05600);

/// All causes of an interrupt, and those that are raised.
pub const CAUSES: u32 = 0x0001_FFFF;
pub const TXDW: u32 = 1 << 0;
pub const TXQE: u32 = 1 << 1;
pub const LSC: u32 = 1 << 2;
pub const RXDMT0: u32 = 1 << 4;
pub const RXO: u32 = 1 << 6;
pub const RXT0: u32 = 1 << 7;

/// Sets causes; those that were not set before.
#[inline]
pub fn raise(registers: &mut Registers, causes: u32) -> u8 {
    let new = causes & !registers[ICR];
    registers[ICR] |= causes;
    new as u8
}

/// Steps a counter, which stops at its greatest value; whether it moved.
#[inline]
pub fn count(registers: &mut Registers, place: usize) -> bool {
    let old = registers[place];
    registers[place] = old.saturating_add(1);
    registers[place] != old
}

/// Adds to a pair of counters, which stops at its greatest value; how much was added.
#[inline]
pub fn count_pair(registers: &mut Registers, low: usize, by: u32) -> u32 {
    let old = pair(registers, low);
    let now = old.saturating_add(u64::from(by));
    put_pair(registers, low, now);
    (now - old) as u32
}

/// Takes from a pair what was added to it.
#[inline]
pub fn uncount_pair(registers: &mut Registers, low: usize, by: u32) {
    put_pair(registers, low, pair(registers, low) - u64::from(by));
}

#[inline]
fn pair(registers: &Registers, low: usize) -> u64 {
    u64::from(registers[low]) | u64::from(registers[low + 1]) << 32
}

#[inline]
fn put_pair(registers: &mut Registers, low: usize, value: u64) {
    registers[low] = value as u32;
    registers[low + 1] = (value >> 32) as u32;
}

/// The counter of a frame of so many octets, 64 at least: 64, to 127, to 255, to 511, to 1023, and more.
#[inline]
pub fn class(octets: usize) -> usize {
    if octets == 64 {
        0
    } else {
        (octets.ilog2() as usize - 5).min(5)
    }
}
