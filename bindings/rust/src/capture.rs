//! Captures.
use crate::raw;
use crate::Refusal;

/// A capture that is open: the frames of a pcap or a pcapng, each given once, in their order.
///
/// ```
/// use bunjelav::{Capture, Machine, Refusal};
///
/// # fn main() -> Result<(), Refusal> {
/// # let path = std::env::temp_dir().join(format!("bunjelav-{}.pcap", std::process::id()));
/// let mut m = Machine::new(65_536, 1 << 20, [0x52, 0x54, 0x00, 0x12, 0x34, 0x56])?;
/// m.write_pcap(&path)?; // no frame was sent
/// for frame in Capture::open(&path)? {
///     m.arrive(&frame?.arriving())?;
/// }
/// # std::fs::remove_file(&path).unwrap();
/// # Ok(())
/// # }
/// ```
///
/// As an iterator it gives what is wrong with the capture once, and then nothing.
pub struct Capture {
    handle: raw::Pcap,
    #[cfg(feature = "std")]
    is_done: bool,
}

// SAFETY: it shares nothing. That its handle may go to another thread is proved.
unsafe impl Send for Capture {}

/// What a capture says of a frame beside its octets.
#[derive(Clone, Copy, PartialEq, Eq, Hash, Debug)]
pub struct Captured {
    /// How many octets were captured.
    pub length: usize,
    /// How many octets the frame had.
    pub original: u32,
    /// When it was captured, in nanoseconds since 1970 began, where the capture says it.
    pub nanoseconds: Option<u64>,
}

/// A frame of a capture.
#[cfg(feature = "std")]
#[derive(Clone, PartialEq, Eq, Hash, Debug)]
pub struct CapturedFrame {
    /// The octets that were captured.
    pub octets: std::vec::Vec<u8>,
    /// How many octets the frame had: more, where it was cut.
    pub original: u32,
    /// When it was captured, in nanoseconds since 1970 began, where the capture says it.
    pub nanoseconds: Option<u64>,
}

#[cfg(feature = "std")]
impl CapturedFrame {
    /// What arrives of it: its octets, and zeros up to 60 where it was captured before it was padded, since no frame
    /// on a wire has fewer.
    pub fn arriving(&self) -> std::vec::Vec<u8> {
        let mut octets = self.octets.clone();
        if self.original < 60 && octets.len() < 60 {
            octets.resize(60, 0);
        }
        octets
    }
}

fn opened(number: u32, capture: Capture) -> Result<Capture, Refusal> {
    match number {
        0 => Ok(capture),
        refused => Err(Refusal::of(refused)),
    }
}

impl Capture {
    fn none() -> Capture {
        Capture {
            handle: raw::Pcap { made: false, held: core::ptr::null_mut() },
            #[cfg(feature = "std")]
            is_done: false,
        }
    }

    /// The capture of the octets of a file, which are copied. What is wrong with it comes with its frames.
    pub fn of(octets: &[u8]) -> Result<Capture, Refusal> {
        let mut capture = Capture::none();
        // SAFETY: the handle holds none, and the slice has its octets.
        let number = unsafe { raw::em_pcap_of(&mut capture.handle, octets.as_ptr(), octets.len()) };
        opened(number, capture)
    }

    /// The capture in a file, which is read whole. Where it can't be read it is refused as [`Refusal::File`], and
    /// `std::io::Error::last_os_error` says why.
    #[cfg(feature = "std")]
    pub fn open<P: AsRef<std::path::Path>>(path: P) -> Result<Capture, Refusal> {
        let path = crate::record::c_path(path.as_ref()).ok_or(Refusal::File)?;
        let mut capture = Capture::none();
        // SAFETY: the handle holds none, and the path ends in a zero octet.
        let number = unsafe { raw::em_pcap_open(&mut capture.handle, path.as_ptr()) };
        opened(number, capture)
    }

    /// Copies what was captured of the next frame to the head of `out`; none where the capture ends. A frame that has
    /// no room is refused as [`Refusal::Room`], and is the next one still. What is wrong with the capture is refused
    /// behind the frames before it, each time.
    pub fn next_into(&mut self, out: &mut [u8]) -> Result<Option<Captured>, Refusal> {
        match self.take_next(out).1 {
            Err(Refusal::CaptureEnd) => Ok(None),
            given => given.map(Some),
        }
    }

    /// The next frame, and how much room it takes.
    fn take_next(&mut self, out: &mut [u8]) -> (usize, Result<Captured, Refusal>) {
        let (mut length, mut told) = (0, raw::PcapFrame::default());
        let handle = &mut self.handle;
        // SAFETY: `out` has its octets.
        let number = unsafe { raw::em_pcap_next(handle, out.as_mut_ptr(), out.len(), &mut length, &mut told) };
        let nanoseconds = if told.timed == 1 { Some(told.nanoseconds) } else { None };
        match number {
            0 => (length, Ok(Captured { length, original: told.original, nanoseconds })),
            refused => (length, Err(Refusal::of(refused))),
        }
    }

    /// Where in the file its fault is, if it has one: the offset of the header, the record or the block that has it.
    pub fn fault(&mut self) -> Option<usize> {
        let mut offset = 0;
        // SAFETY: the handle was opened, or holds none.
        match unsafe { raw::em_pcap_fault(&mut self.handle, &mut offset) } {
            0 => Some(offset),
            _ => None,
        }
    }
}

#[cfg(feature = "std")]
impl Iterator for Capture {
    type Item = Result<CapturedFrame, Refusal>;

    fn next(&mut self) -> Option<Self::Item> {
        if self.is_done {
            return None;
        }
        let mut octets = std::vec![0; 2048];
        let mut given = self.take_next(&mut octets);
        if given.1 == Err(Refusal::Room) {
            octets.resize(given.0, 0);
            given = self.take_next(&mut octets);
        }
        match given.1 {
            Ok(Captured { length, original, nanoseconds }) => {
                octets.truncate(length);
                Some(Ok(CapturedFrame { octets, original, nanoseconds }))
            }
            Err(refusal) => {
                self.is_done = true;
                if refusal == Refusal::CaptureEnd {
                    None
                } else {
                    Some(Err(refusal))
                }
            }
        }
    }
}

impl Drop for Capture {
    fn drop(&mut self) {
        // SAFETY: the handle was opened, or holds none.
        unsafe { raw::em_pcap_close(&mut self.handle) }
    }
}
