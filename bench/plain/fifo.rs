//! The packet buffer: frames lie end to end and wrap.

/// How many octets it has.
pub const OCTETS: usize = 49_152;

/// Places for frames: at least `OCTETS` / 56, and a power of two.
const ENTRIES: usize = 1024;

/// The length of a stored frame, and its tag, if it had one.
#[derive(Clone, Copy, Default)]
pub struct Entry {
    pub len: u16,
    pub is_tagged: bool,
    pub tag: u16,
}

pub struct Fifo {
    pub octets: Box<[u8; OCTETS]>,
    entries: [Entry; ENTRIES],
    /// Where the first frame begins, and how many octets all have.
    pub first: usize,
    pub used: usize,
    /// The entry of the first frame, and how many there are.
    pub head: usize,
    pub count: usize,
    /// How many octets of the first frame were received.
    pub taken: usize,
}

/// The place so many octets behind another, `OCTETS` at most.
#[inline]
pub fn after(place: usize, by: usize) -> usize {
    let sum = place + by;
    if sum >= OCTETS {
        sum - OCTETS
    } else {
        sum
    }
}

impl Fifo {
    pub fn new() -> Fifo {
        let octets: Box<[u8]> = vec![0; OCTETS].into_boxed_slice();
        Fifo {
            octets: octets.try_into().expect("it has so many"),
            entries: [Entry::default(); ENTRIES],
            first: 0,
            used: 0,
            head: 0,
            count: 0,
            taken: 0,
        }
    }

    pub fn clear(&mut self) {
        (self.used, self.count, self.taken) = (0, 0, 0);
    }

    /// The entry of frame `index`, the first one's at 0.
    #[inline]
    pub fn entry(&mut self, index: usize) -> &mut Entry {
        &mut self.entries[self.head.wrapping_add(index) & (ENTRIES - 1)]
    }

    /// Puts octets from a place on; the place behind them.
    #[inline]
    pub fn put(&mut self, place: usize, data: &[u8]) -> usize {
        let near = data.len().min(OCTETS - place);
        self.octets[place..place + near].copy_from_slice(&data[..near]);
        self.octets[..data.len() - near].copy_from_slice(&data[near..]);
        after(place, data.len())
    }

    /// Puts so many zero octets from a place on.
    #[inline]
    pub fn put_zeros(&mut self, place: usize, len: usize) {
        let near = len.min(OCTETS - place);
        self.octets[place..place + near].fill(0);
        self.octets[..len - near].fill(0);
    }

    /// Copies octets from a place on out.
    #[inline]
    pub fn copy_to(&self, place: usize, out: &mut [u8]) {
        let near = out.len().min(OCTETS - place);
        let (low, high) = out.split_at_mut(near);
        low.copy_from_slice(&self.octets[place..place + near]);
        high.copy_from_slice(&self.octets[..high.len()]);
    }
}
