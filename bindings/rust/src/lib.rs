//! Bunjelav: Intel's 82540EM as a model that can be stepped backwards.
//!
//! ```
//! use bunjelav::{offset_of, Kind, Machine, Watch};
//!
//! # fn main() -> Result<(), bunjelav::Refusal> {
//! let mut m = Machine::new(65_536, 1 << 20, [0x52, 0x54, 0x00, 0x12, 0x34, 0x56])?;
//! let (ims, icr) = (offset_of("IMS")?, offset_of("ICR")?);
//! m.write(ims, 4)?; // LSC may interrupt
//! m.set_link(true)?;
//! assert!(m.line());
//! assert_eq!(m.read(icr)?, 4); // which clears it
//! assert!(!m.line());
//!
//! // who changed ICR last?
//! let change = m.last_change(Watch::Register(icr))?.expect("it was read");
//! assert_eq!((change.back, change.value), (1, 4));
//! assert_eq!(m.event(0)?.kind, Kind::Read);
//!
//! m.back(1);
//! assert!(m.line());
//! # Ok(())
//! # }
//! ```
//!
//! The model is proved; this binding is not. `unsafe` stands only at the calls of the library, whose header says what
//! must hold of pointers.
//!
//! Without its feature `std`, which is there by default, it takes `core` alone, and a [`Refusal`] is no
//! `std::error::Error`.
#![no_std]
#![warn(missing_docs)]

#[cfg(feature = "std")]
extern crate std;

mod capture;
mod event;
mod explain;
mod machine;
mod profile;
mod ram;
mod raw;
#[cfg(feature = "std")]
mod record;
mod refusal;
mod ring;
mod tables;

#[cfg(feature = "std")]
pub use capture::CapturedFrame;
pub use capture::{Capture, Captured};
#[cfg(feature = "std")]
pub use event::words_of;
pub use event::{fields_of, offset_of, Change, Difference, Event, Field, Fields, Name, Watch};
pub use explain::{Asked, Entry, Reason, Warning, Warnings};
pub use machine::{Events, Frame, Frames, Machine, Sent};
pub use profile::Profile;
pub use ram::{Octets, Over, Ram};
pub use raw::{Fifo, Range, Region, Register, RingSetup};
pub use refusal::Stopped;
pub use ring::{Descriptor, Needs, Ring};
pub use tables::{Kind, Refusal, Rule, Trouble, Warned, MOST_SENT, REGISTERS};

/// The version of the library that is linked.
pub fn version() -> &'static str {
    // SAFETY: it gives a text with a zero octet behind it, which stays.
    unsafe { core::ffi::CStr::from_ptr(raw::em_version()) }.to_str().unwrap_or("")
}
