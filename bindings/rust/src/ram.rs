//! Memory of the caller's that a machine works on.
use crate::raw;
use crate::{Event, Machine, Refusal, Stopped};
use core::ffi::c_void;
use core::panic::Location;
use core::ptr;

/// Memory of the caller's, at the addresses that the guest has. Each of the two gives whether it could.
///
/// A panic in one of them ends the program.
pub trait Ram {
    /// Copies octets out.
    fn read(&mut self, address: u64, out: &mut [u8]) -> bool;

    /// Makes octets these.
    fn write(&mut self, address: u64, octets: &[u8]) -> bool;
}

impl<R: Ram + ?Sized> Ram for &mut R {
    fn read(&mut self, address: u64, out: &mut [u8]) -> bool {
        (**self).read(address, out)
    }

    fn write(&mut self, address: u64, octets: &[u8]) -> bool {
        (**self).write(address, octets)
    }
}

/// Octets that lie in guest memory from an address on.
pub struct Octets<S> {
    /// The address of the first of them.
    pub base: u64,
    /// A slice, an array or a vector.
    pub octets: S,
}

impl<S: AsMut<[u8]>> Octets<S> {
    fn part(&mut self, address: u64, length: usize) -> Option<&mut [u8]> {
        let at = usize::try_from(address.checked_sub(self.base)?).ok()?;
        self.octets.as_mut().get_mut(at..at.checked_add(length)?)
    }
}

impl<S: AsMut<[u8]>> Ram for Octets<S> {
    fn read(&mut self, address: u64, out: &mut [u8]) -> bool {
        self.part(address, out.len()).map(|there| out.copy_from_slice(there)).is_some()
    }

    fn write(&mut self, address: u64, octets: &[u8]) -> bool {
        self.part(address, octets.len()).map(|there| there.copy_from_slice(octets)).is_some()
    }
}

/// From address 0 on.
impl Ram for [u8] {
    fn read(&mut self, address: u64, out: &mut [u8]) -> bool {
        Octets { base: 0, octets: self }.read(address, out)
    }

    fn write(&mut self, address: u64, octets: &[u8]) -> bool {
        Octets { base: 0, octets: self }.write(address, octets)
    }
}

/// Ends the program where it is dropped by a panic, which must not go on through the library.
struct Whole;

impl Drop for Whole {
    fn drop(&mut self) {
        panic!("a panic in the memory of a machine");
    }
}

// SAFETY, of both: the context is that of `raw_ram`, which outlives the call, and nobody else uses it meanwhile; the
// library gives room, or octets, of that length.

unsafe extern "C" fn read_of<R: Ram>(context: *mut c_void, address: u64, out: *mut u8, length: usize) -> bool {
    let whole = Whole;
    let could = (*context.cast::<R>()).read(address, core::slice::from_raw_parts_mut(out, length));
    core::mem::forget(whole);
    could
}

unsafe extern "C" fn write_of<R: Ram>(context: *mut c_void, address: u64, octets: *const u8, length: usize) -> bool {
    let whole = Whole;
    let could = (*context.cast::<R>()).write(address, core::slice::from_raw_parts(octets, length));
    core::mem::forget(whole);
    could
}

/// What the library is given for memory at a place.
pub(crate) fn raw_ram<R: Ram>(at: *mut R) -> raw::Ram {
    let (read, write): (raw::Read, raw::Write) = (read_of::<R>, write_of::<R>);
    raw::Ram { context: at.cast(), read: Some(read), write: Some(write), regions: ptr::null(), count: 0 }
}

/// What the library is given for regions.
#[cfg(feature = "std")]
pub(crate) fn raw_regions(regions: &[raw::Region]) -> raw::Ram {
    raw::Ram { context: ptr::null_mut(), read: None, write: None, regions: regions.as_ptr(), count: regions.len() }
}

/// What a machine keeps while it is attached: a box of any type, by its address alone.
#[cfg(feature = "std")]
pub(crate) struct Kept {
    at: *mut c_void,
    free: unsafe fn(*mut c_void),
}

#[cfg(feature = "std")]
impl Kept {
    /// Keeps a value at a place that does not move, and gives the place.
    pub(crate) fn new<T>(value: T) -> (Kept, *mut T) {
        unsafe fn free<T>(at: *mut c_void) {
            // SAFETY: the box that was made below, which is freed once.
            drop(std::boxed::Box::from_raw(at.cast::<T>()));
        }
        let at = std::boxed::Box::into_raw(std::boxed::Box::new(value));
        (Kept { at: at.cast(), free: free::<T> }, at)
    }
}

#[cfg(feature = "std")]
impl Drop for Kept {
    fn drop(&mut self) {
        // SAFETY: it is the function for the box's type, and nobody uses the place any more.
        unsafe { (self.free)(self.at) }
    }
}

/// A machine that works on memory of the caller's, as [`Machine::over`] gives it: what is an event for both.
pub struct Over<'a, R: Ram + ?Sized> {
    pub(crate) machine: &'a mut Machine,
    pub(crate) ram: &'a mut R,
}

impl<R: Ram + ?Sized> Over<'_, R> {
    #[track_caller]
    fn with<T>(&mut self, call: impl FnOnce(&mut Machine) -> T) -> T {
        self.machine.here(Location::caller());
        self.hold_place(true);
        let mut ram = &mut *self.ram;
        let was = self.machine.swap_ram(raw_ram(&mut ram));
        let told = call(self.machine);
        self.machine.swap_ram(was);
        self.hold_place(false);
        told
    }

    /// The place that was told stays, whoever calls.
    fn hold_place(&mut self, _holds: bool) {
        #[cfg(feature = "std")]
        if let Some(places) = self.machine.places() {
            places.are_held = _holds;
        }
    }

    /// The receive engine handles a descriptor.
    #[track_caller]
    pub fn rx_step(&mut self) -> Result<Event, Refusal> {
        self.with(Machine::rx_step)
    }

    /// The transmit engine handles a descriptor.
    #[track_caller]
    pub fn tx_step(&mut self) -> Result<Event, Refusal> {
        self.with(Machine::tx_step)
    }

    /// The receive engine steps until it is idle, as [`Machine::run_rx`].
    #[track_caller]
    pub fn run_rx(&mut self, n: usize) -> Result<usize, Stopped> {
        self.with(|machine| machine.run_rx(n))
    }

    /// The transmit engine steps until it is idle, as [`Machine::run_tx`].
    #[track_caller]
    pub fn run_tx(&mut self, n: usize) -> Result<usize, Stopped> {
        self.with(|machine| machine.run_tx(n))
    }

    /// The driver writes octets to both memories.
    #[track_caller]
    pub fn poke(&mut self, address: u64, octets: &[u8]) -> Result<(), Refusal> {
        self.with(|machine| machine.poke(address, octets))
    }

    /// Takes events back, as [`Machine::try_back`]; what steps wrote over is put back in the caller's memory.
    #[track_caller]
    pub fn back(&mut self, n: usize) -> Result<usize, Stopped> {
        self.with(|machine| machine.try_back(n))
    }
}
