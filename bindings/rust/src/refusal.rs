//! Why a call did nothing, or not all of it.
use crate::raw;
use crate::tables::REFUSALS;
use crate::Refusal;
use core::ffi::CStr;
use core::fmt;

impl Refusal {
    /// The refusal that has a number.
    pub(crate) fn of(number: u32) -> Refusal {
        REFUSALS.iter().find(|it| it.1 == number).map_or(Refusal::Other(number), |it| it.0)
    }

    /// Its number in bunjelav.h.
    pub fn number(self) -> u32 {
        match self {
            Refusal::Other(number) => number,
            known => REFUSALS.iter().find(|it| it.0 == known).map_or(0, |it| it.1),
        }
    }
}

/// The sentence of `em_strerror`.
impl fmt::Display for Refusal {
    fn fmt(&self, f: &mut fmt::Formatter<'_>) -> fmt::Result {
        // SAFETY: whatever the number, it gives a text with a zero octet behind it, which stays.
        let text = unsafe { CStr::from_ptr(raw::em_strerror(self.number())) };
        match (self, text.to_str().unwrap_or("").split_once(": ")) {
            (Refusal::Other(number), _) => write!(f, "refusal {number}"),
            (_, Some((_, sentence))) => f.write_str(sentence),
            (_, None) => Ok(()),
        }
    }
}

/// A call of several events that came to a refused one: those before it were performed, and stay.
#[derive(Clone, Copy, PartialEq, Eq, Hash, Debug)]
pub struct Stopped {
    /// Why the next one was refused.
    pub refusal: Refusal,
    /// How many steps or writes went well before it.
    pub done: usize,
}

impl From<Stopped> for Refusal {
    fn from(stopped: Stopped) -> Refusal {
        stopped.refusal
    }
}

impl fmt::Display for Stopped {
    fn fmt(&self, f: &mut fmt::Formatter<'_>) -> fmt::Result {
        write!(f, "{}, after {}", self.refusal, self.done)
    }
}

#[cfg(feature = "std")]
impl std::error::Error for Refusal {}

#[cfg(feature = "std")]
impl std::error::Error for Stopped {}
