//! Rings of descriptors.
use crate::raw::Range;
use crate::tables::{RING_RX, RING_TX};

/// Which ring.
#[derive(Clone, Copy, PartialEq, Eq, Hash, Debug)]
pub enum Ring {
    /// The receive ring.
    Rx,
    /// The transmit ring.
    Tx,
}

impl Ring {
    pub(crate) fn number(self) -> u32 {
        match self {
            Ring::Rx => RING_RX,
            Ring::Tx => RING_TX,
        }
    }
}

/// A descriptor of a ring.
#[derive(Clone, Copy, PartialEq, Eq, Hash, Debug)]
pub struct Descriptor {
    /// Its octets, as they lie in guest memory.
    pub octets: [u8; 16],
    /// It is the adapter's, and not the driver's. Where the head or the tail stands past the last descriptor, all are the
    /// driver's.
    pub is_adapters: bool,
}

/// What a step reads of guest memory and what it writes there; a range of no octets, at 0, stands where there are less than
/// two.
#[derive(Clone, Copy, PartialEq, Eq, Hash, Debug, Default)]
pub struct Needs {
    /// The descriptor; of a transmit step, its buffer.
    pub reads: [Range; 2],
    /// Of a receive step the piece in its buffer and the descriptor's end, of a transmit step the status octet.
    pub writes: [Range; 2],
}
