//! A machine.
use crate::ram::{Over, Ram};
use crate::raw;
use crate::raw::{Fifo, Range, Register, RingSetup};
#[cfg(feature = "std")]
use crate::Difference;
use crate::{Asked, Change, Descriptor, Entry, Event, Kind, Needs, Profile, Reason, Refusal, Ring, Stopped};
use crate::{Warnings, Watch, MOST_SENT};
use core::cell::UnsafeCell;
use core::panic::Location;

/// An adapter with its guest's memory and a journal of its latest events.
///
/// It can be handed to another thread, and several threads can look at it at once: looks take `&self`.
pub struct Machine {
    handle: UnsafeCell<raw::Handle>,
    /// What is attached, as the library was given it.
    attached: raw::Ram,
    /// The memory that is attached, or the table of its regions.
    #[cfg(feature = "std")]
    kept: Option<crate::ram::Kept>,
    /// The places of a run that is kept.
    #[cfg(feature = "std")]
    places: Option<crate::record::Places>,
}

// SAFETY: a machine shares nothing but the memory that is attached, which is Send, or for which its caller stands. That its
// handle may go to another thread is proved.
unsafe impl Send for Machine {}

// SAFETY: with a `&` only looks are made. They write neither the handle nor the machine, and leave alone what is attached
// and the places of a run.
unsafe impl Sync for Machine {}

/// A call that begins to keep a run.
#[cfg(feature = "std")]
type Record = unsafe extern "C" fn(*mut raw::Handle, *const core::ffi::c_char) -> u32;

/// What a call gives: its number, and what it told.
fn told<T>(number: u32, told: T) -> Result<T, Refusal> {
    match number {
        0 => Ok(told),
        refused => Err(Refusal::of(refused)),
    }
}

/// The octets that a call puts into room for them, however many they are.
#[cfg(feature = "std")]
fn octets_of<F: Fn(*mut u8, usize, *mut usize) -> u32>(call: F) -> Result<std::vec::Vec<u8>, Refusal> {
    let (mut room, mut length) = (std::vec![0; 4096], 0);
    let mut number = call(room.as_mut_ptr(), room.len(), &mut length);
    if Refusal::of(number) == Refusal::Room {
        room.resize(length + 1, 0); // (behind a text stands a zero)
        number = call(room.as_mut_ptr(), room.len(), &mut length);
    }
    told(number, ())?;
    room.truncate(length);
    Ok(room)
}

/// The same of a text.
#[cfg(feature = "std")]
pub(crate) fn text_of<F: Fn(*mut u8, usize, *mut usize) -> u32>(call: F) -> Result<std::string::String, Refusal> {
    Ok(std::string::String::from_utf8_lossy(&octets_of(call)?).into_owned())
}

/// The same of a call of several events, with how many went well.
fn stopped(number: u32, done: usize) -> Result<usize, Stopped> {
    told(number, done).map_err(|refusal| Stopped { refusal, done })
}

impl Machine {
    /// A machine with so much guest memory, a journal of this budget, and this Ethernet address in the EEPROM.
    pub fn new(memory: u64, budget: u64, mac: [u8; 6]) -> Result<Machine, Refusal> {
        let machine = Machine::none();
        // SAFETY: the handle holds no machine, and the address has 6 octets.
        let number = unsafe { raw::em_make(machine.handle.get(), memory, budget, mac.as_ptr()) };
        told(number, machine)
    }

    /// The same with the words of the EEPROM.
    pub fn with_eeprom(memory: u64, budget: u64, words: &[u16; 64]) -> Result<Machine, Refusal> {
        let machine = Machine::none();
        // SAFETY: the handle holds no machine, and there are 64 words.
        let number = unsafe { raw::em_make_with_eeprom(machine.handle.get(), memory, budget, words.as_ptr()) };
        told(number, machine)
    }

    /// A machine whose guest memory begins at `base`: both are multiples of 4,096, and memory ends at 2^40 at most.
    pub fn at(base: u64, memory: u64, budget: u64, mac: [u8; 6]) -> Result<Machine, Refusal> {
        let machine = Machine::none();
        // SAFETY: the handle holds no machine, and the address has 6 octets.
        let number = unsafe { raw::em_make_at(machine.handle.get(), base, memory, budget, mac.as_ptr()) };
        told(number, machine)
    }

    /// The same with the words of the EEPROM.
    pub fn at_with_eeprom(base: u64, memory: u64, budget: u64, words: &[u16; 64]) -> Result<Machine, Refusal> {
        let machine = Machine::none();
        // SAFETY: the handle holds no machine, and there are 64 words.
        let number =
            unsafe { raw::em_make_at_with_eeprom(machine.handle.get(), base, memory, budget, words.as_ptr()) };
        told(number, machine)
    }

    /// The same as [`Machine::at`] of a profile: the others make a machine of [`Profile::Table`].
    pub fn of(profile: Profile, base: u64, memory: u64, budget: u64, mac: [u8; 6]) -> Result<Machine, Refusal> {
        let machine = Machine::none();
        let (handle, profile) = (machine.handle.get(), profile.number());
        // SAFETY: the handle holds no machine, and the address has 6 octets.
        let number = unsafe { raw::em_make_as(handle, profile, base, memory, budget, mac.as_ptr()) };
        told(number, machine)
    }

    /// The same with the words of the EEPROM.
    pub fn of_with_eeprom(
        profile: Profile,
        base: u64,
        memory: u64,
        budget: u64,
        words: &[u16; 64],
    ) -> Result<Machine, Refusal> {
        let machine = Machine::none();
        let (handle, profile) = (machine.handle.get(), profile.number());
        // SAFETY: the handle holds no machine, and there are 64 words.
        let number = unsafe { raw::em_make_as_with_eeprom(handle, profile, base, memory, budget, words.as_ptr()) };
        told(number, machine)
    }

    /// A machine that is equal to this one: in all that it shows, and in its journal, so that it goes back as far and
    /// to the same states. From then on neither knows what becomes of the other: the copy can go back while this one
    /// goes on. Memory that is attached to this one is not attached to the copy, which has octets of its own, and where
    /// this one's run is kept, the copy's is not. Refused as [`Refusal::Memory`].
    ///
    /// ```
    /// # use bunjelav::{offset_of, Machine, Refusal};
    /// # fn main() -> Result<(), Refusal> {
    /// let mut m = Machine::new(65_536, 1 << 20, [0x52, 0x54, 0x00, 0x12, 0x34, 0x56])?;
    /// m.write(offset_of("IMS")?, 4)?;
    /// let mut before = m.try_clone()?;
    /// before.back(1);
    /// m.write(offset_of("IMS")?, 1)?;
    /// assert_eq!((before.look(offset_of("IMS")?)?, m.look(offset_of("IMS")?)?), (0, 5));
    /// # Ok(())
    /// # }
    /// ```
    pub fn try_clone(&self) -> Result<Machine, Refusal> {
        let copy = Machine::none();
        // SAFETY: a look at this machine, and the other handle holds none.
        let number = unsafe { raw::em_copy(self.handle.get(), copy.handle.get()) };
        told(number, copy)
    }

    /// The machine as octets, of which [`load`](Machine::load) makes it again, in another process or on another host: all
    /// but its journal and the tag. What is attached stays the caller's, and of a kept run nothing is stored. Refused as
    /// [`Refusal::Memory`].
    ///
    /// ```
    /// # use bunjelav::{offset_of, Machine, Refusal};
    /// # fn main() -> Result<(), Refusal> {
    /// let mut m = Machine::new(65_536, 1 << 20, [0x52, 0x54, 0x00, 0x12, 0x34, 0x56])?;
    /// m.write(offset_of("IMS")?, 4)?;
    /// let again = Machine::load(&m.store()?)?;
    /// assert_eq!((again.look(offset_of("IMS")?)?, again.can_go_back()), (4, 0));
    /// # Ok(())
    /// # }
    /// ```
    #[cfg(feature = "std")]
    pub fn store(&self) -> Result<std::vec::Vec<u8>, Refusal> {
        // SAFETY: a look at this machine.
        octets_of(|out, room, length| unsafe { raw::em_store(self.handle.get(), out, room, length) })
    }

    /// Puts these octets into the room for them, and gives how many they are. Refused as [`Refusal::Room`] too.
    pub fn store_into(&self, out: &mut [u8]) -> Result<usize, Refusal> {
        let mut length = 0;
        // SAFETY: a look at this machine, and the length is that of the room.
        let number = unsafe { raw::em_store(self.handle.get(), out.as_mut_ptr(), out.len(), &mut length) };
        told(number, length)
    }

    /// The machine that was stored as these octets. Its journal is empty, so that [`back`](Machine::back) goes back to
    /// where it was loaded, and no further; its run can't be kept or saved ([`Refusal::Begun`]). The octets may come from
    /// anywhere: what no machine is stored as is refused as [`Refusal::StoredMagic`], [`Refusal::StoredVersion`],
    /// [`Refusal::StoredLength`], [`Refusal::StoredSum`] or [`Refusal::StoredValue`], else as [`Refusal::Memory`].
    pub fn load(octets: &[u8]) -> Result<Machine, Refusal> {
        let machine = Machine::none();
        // SAFETY: the handle holds no machine, and the length is that of the octets.
        let number = unsafe { raw::em_load(machine.handle.get(), octets.as_ptr(), octets.len()) };
        told(number, machine)
    }

    fn none() -> Machine {
        let handle = raw::Handle { made: false, held: core::ptr::null_mut(), ram: raw::Ram::none(), state: 0 };
        Machine {
            handle: UnsafeCell::new(handle),
            attached: raw::Ram::none(),
            #[cfg(feature = "std")]
            kept: None,
            #[cfg(feature = "std")]
            places: None,
        }
    }

    // SAFETY, of each call below: the handle is this machine's own, no other call is under way but looks beside a look (all
    // others borrow the machine, also while its memory is asked), each pointer is to a value or a slice that lives through
    // the call, and each length is that of its slice.

    /// Where the next call comes from.
    pub(crate) fn here(&mut self, _at: &'static Location<'static>) {
        #[cfg(feature = "std")]
        if let Some(places) = &mut self.places {
            if let Some((file, line)) = places.of(_at) {
                unsafe { raw::em_source(self.handle.get(), file, line) };
            }
        }
    }

    /// Keeps what happens to the machine from now on in a file, which is made, or made empty: each event as a line of the
    /// script language, with its answer and with the line of the caller. It is written before its call returns, so it is
    /// there however the process ends; `em_debug FILE` takes it. Refused as [`Refusal::Begun`] where the machine has
    /// performed an event, [`Refusal::Recorded`], [`Refusal::Memory`] or [`Refusal::File`]; of the last,
    /// `std::io::Error::last_os_error` says why.
    ///
    /// ```
    /// # use bunjelav::{offset_of, Machine, Refusal};
    /// # fn main() -> Result<(), Refusal> {
    /// # let path = std::env::temp_dir().join(format!("bunjelav-{}.em", std::process::id()));
    /// let mut m = Machine::new(65_536, 1 << 20, [0x52, 0x54, 0x00, 0x12, 0x34, 0x56])?;
    /// m.record_to(&path)?;
    /// m.write(offset_of("IMS")?, 4)?;
    /// let text = std::fs::read_to_string(&path).unwrap();
    /// assert!(text.contains("\nw D0 4 =ok @"));
    /// # std::fs::remove_file(&path).unwrap();
    /// # Ok(())
    /// # }
    /// ```
    #[cfg(feature = "std")]
    pub fn record_to<P: AsRef<std::path::Path>>(&mut self, path: P) -> Result<(), Refusal> {
        self.record(path.as_ref(), raw::em_record_to)
    }

    /// The same by a mapping of the file, which takes a quarter of the time. The file has to be a regular one, and nobody
    /// else may cut it meanwhile: the process would end by `SIGBUS`. The C library's documentation has more of it.
    #[cfg(feature = "std")]
    pub fn record_mapped<P: AsRef<std::path::Path>>(&mut self, path: P) -> Result<(), Refusal> {
        self.record(path.as_ref(), raw::em_record_mapped)
    }

    #[cfg(feature = "std")]
    fn record(&mut self, path: &std::path::Path, call: Record) -> Result<(), Refusal> {
        let path = crate::record::c_path(path).ok_or(Refusal::File)?;
        told(unsafe { call(self.handle.get(), path.as_ptr()) }, ())?;
        self.places = Some(crate::record::Places::new());
        Ok(())
    }

    /// Writes the run so far to a file, where nobody kept it: the events that the journal has, as lines that play to the
    /// same machine, with their tags in the place of lines. For a frame that was dropped stands another one of the same
    /// length, which is dropped for the same reason. Refused as [`Refusal::Begun`] where events were taken back, or where
    /// the journal may have dropped some, [`Refusal::Memory`] or [`Refusal::File`]; of the last,
    /// `std::io::Error::last_os_error` says why.
    #[cfg(feature = "std")]
    pub fn save<P: AsRef<std::path::Path>>(&self, path: P) -> Result<(), Refusal> {
        let path = crate::record::c_path(path.as_ref()).ok_or(Refusal::File)?;
        told(unsafe { raw::em_save(self.handle.get(), path.as_ptr()) }, ())
    }

    /// Whether the run is kept, and all that happened is in the file; where the file could not be written, why. That is
    /// told once, and from then on the run is not kept.
    #[cfg(feature = "std")]
    pub fn recording(&mut self) -> Result<bool, std::io::Error> {
        let mut error = 0;
        match told(unsafe { raw::em_recording_status(self.handle.get(), &mut error) }, ()) {
            Ok(()) => Ok(true),
            Err(Refusal::File) => Err(std::io::Error::from_raw_os_error(error)),
            Err(_) => Ok(false),
        }
    }

    /// Whether the lines of a run that is kept have the lines of the callers. They do, from
    /// [`record_to`](Machine::record_to) on; where they do not, the [`tag`](Machine::tag) stands there.
    #[cfg(feature = "std")]
    pub fn tell_places(&mut self, are_told: bool) {
        if let Some(places) = &mut self.places {
            places.are_told = are_told;
        }
        if !are_told {
            unsafe { raw::em_source(self.handle.get(), core::ptr::null(), 0) };
        }
    }

    /// The places that are told, which others may be in the place of for one call.
    #[cfg(feature = "std")]
    pub(crate) fn places(&mut self) -> Option<&mut crate::record::Places> {
        self.places.as_mut()
    }

    /// The driver reads so many octets of the register window: four, as [`read`](Machine::read) does. Any other number is
    /// refused as [`Refusal::Width`].
    #[track_caller]
    pub fn read_sized(&mut self, offset: u32, octets: u32) -> Result<u64, Refusal> {
        self.here(Location::caller());
        let mut value = 0;
        told(unsafe { raw::em_read_sized(self.handle.get(), offset, octets, &mut value) }, ())?;
        Ok(value)
    }

    /// The driver writes so many octets of the register window: four, the lowest of the value, as
    /// [`write`](Machine::write) does. Any other number is refused as [`Refusal::Width`].
    #[track_caller]
    pub fn write_sized(&mut self, offset: u32, octets: u32, value: u64) -> Result<(), Refusal> {
        self.here(Location::caller());
        told(unsafe { raw::em_write_sized(self.handle.get(), offset, octets, value) }, ())
    }

    /// The driver reads the register at an offset.
    #[track_caller]
    pub fn read(&mut self, offset: u32) -> Result<u32, Refusal> {
        self.here(Location::caller());
        let mut value = 0;
        told(unsafe { raw::em_read(self.handle.get(), offset, &mut value) }, ())?;
        Ok(value)
    }

    /// The driver writes a register.
    #[track_caller]
    pub fn write(&mut self, offset: u32, value: u32) -> Result<(), Refusal> {
        self.here(Location::caller());
        told(unsafe { raw::em_write(self.handle.get(), offset, value) }, ())
    }

    /// What a read would give, with nothing changed.
    pub fn look(&self, offset: u32) -> Result<u32, Refusal> {
        let mut value = 0;
        told(unsafe { raw::em_look(self.handle.get(), offset, &mut value) }, ())?;
        Ok(value)
    }

    /// Puts the registers that are not zero into the room for them, by offset, and gives how many they are.
    pub fn registers(&self, out: &mut [Register]) -> Result<usize, Refusal> {
        let mut count = 0;
        told(unsafe { raw::em_registers(self.handle.get(), out.as_mut_ptr(), out.len(), &mut count) }, ())?;
        Ok(count)
    }

    /// How the registers set a ring up.
    pub fn ring(&self, ring: Ring) -> Result<RingSetup, Refusal> {
        let mut setup = RingSetup::default();
        told(unsafe { raw::em_ring(self.handle.get(), ring.number(), &mut setup) }, ())?;
        Ok(setup)
    }

    /// The descriptor at an index of a ring, and whose it is.
    pub fn descriptor(&self, ring: Ring, index: u32) -> Result<Descriptor, Refusal> {
        let mut one = raw::Descriptor::default();
        told(unsafe { raw::em_ring_descriptor(self.handle.get(), ring.number(), index, &mut one) }, ())?;
        Ok(Descriptor { octets: one.octets, is_adapters: one.adapters == 1 })
    }

    /// The descriptor at an index of a ring, with what it says, whose it is, and what is wrong with it.
    pub fn entry(&self, ring: Ring, index: u32) -> Result<Entry, Refusal> {
        let mut one = raw::Entry::blank();
        told(unsafe { raw::em_ring_entry(self.handle.get(), ring.number(), index, &mut one) }, ())?;
        Ok(Entry::of(one))
    }

    /// Why an event did nothing that came to this, in the machine as the event left it; none where it did something.
    ///
    /// ```
    /// # use bunjelav::{Asked, Machine, Rule};
    /// # fn main() -> Result<(), bunjelav::Refusal> {
    /// let mut m = Machine::new(65_536, 1 << 20, [0x52, 0x54, 0x00, 0x12, 0x34, 0x56])?;
    /// let idle = m.rx_step()?;
    /// let why = m.why(Asked::RxStep, Ok(idle.kind)).expect("it was idle");
    /// assert_eq!((why.rule, why.text()), (Rule::RxDisabled, "RCTL.EN is clear"));
    /// # Ok(())
    /// # }
    /// ```
    pub fn why(&self, asked: Asked<'_>, came: Result<Kind, Refusal>) -> Option<Reason> {
        let (note, octets, code) = asked.raw(came);
        let mut reason = raw::Reason::blank();
        let (at, length) = (octets.as_ptr(), octets.len());
        let number = unsafe { raw::em_why(self.handle.get(), &note, code, at, length, &mut reason) };
        (number == 0 && reason.rule != 0).then(|| Reason::of(reason))
    }

    /// What a driver seems to get wrong by the newest event: a write of a register or of
    /// guest memory, or a read of ICR that gave 0.
    pub fn warnings(&self) -> Result<Warnings, Refusal> {
        let (mut warnings, mut count) = ([raw::Warning::blank(); 10], 0);
        told(unsafe { raw::em_warnings(self.handle.get(), warnings.as_mut_ptr(), &mut count) }, ())?;
        Ok(Warnings { told: warnings, count, next: 0 })
    }

    /// How many frames wait in the FIFO, what the first of them is, and how many octets are gathered.
    pub fn fifo(&self) -> Fifo {
        let mut fifo = Fifo::default();
        unsafe { raw::em_fifo(self.handle.get(), &mut fifo) };
        fifo
    }

    /// How many octets have room in the FIFO now: a frame of no more finds room, whatever it is.
    pub fn fifo_room(&self) -> usize {
        let mut octets = 0;
        unsafe { raw::em_fifo_room(self.handle.get(), &mut octets) };
        octets
    }

    /// Copies the first frame that waits in the FIFO to the head of `out`, and gives how many octets it has: 0 where
    /// none waits.
    pub fn waiting_frame(&self, out: &mut [u8]) -> Result<usize, Refusal> {
        let mut length = 0;
        let number = unsafe { raw::em_fifo_frame(self.handle.get(), out.as_mut_ptr(), out.len(), &mut length) };
        told(number, length)
    }

    /// Copies the octets that are gathered for the next frame to be sent to the head of `out`, and gives how many.
    pub fn gathered(&self, out: &mut [u8]) -> Result<usize, Refusal> {
        let mut length = 0;
        let number = unsafe { raw::em_gathered(self.handle.get(), out.as_mut_ptr(), out.len(), &mut length) };
        told(number, length)
    }

    /// A ring as text: what the registers say, and up to 64 descriptors around the head.
    #[cfg(feature = "std")]
    pub fn ring_text(&self, ring: Ring) -> Result<std::string::String, Refusal> {
        text_of(|out, room, length| unsafe {
            raw::em_ring_text(self.handle.get(), ring.number(), out, room, length)
        })
    }

    /// How many frames wait in the FIFO, and the first of them, as text.
    #[cfg(feature = "std")]
    pub fn fifo_text(&self) -> Result<std::string::String, Refusal> {
        text_of(|out, room, length| unsafe { raw::em_fifo_text(self.handle.get(), out, room, length) })
    }

    /// All that an event of the journal changed, the newest at 0: a line each, with what was before and what is behind
    /// it.
    #[cfg(feature = "std")]
    pub fn effect(&self, k: usize) -> Result<std::string::String, Refusal> {
        text_of(|out, room, length| unsafe { raw::em_effect(self.handle.get(), k, out, room, length) })
    }

    /// All that an event of the journal changed, the newest at 0.
    #[cfg(feature = "std")]
    pub fn differences(&self, k: usize) -> Result<std::vec::Vec<Difference>, Refusal> {
        let (mut room, mut count) = (std::vec![raw::Difference::default(); 64], 0);
        let mut number =
            unsafe { raw::em_differences(self.handle.get(), k, room.as_mut_ptr(), room.len(), &mut count) };
        if Refusal::of(number) == Refusal::Room {
            room.resize(count, raw::Difference::default());
            number = unsafe { raw::em_differences(self.handle.get(), k, room.as_mut_ptr(), room.len(), &mut count) };
        }
        told(number, ())?;
        Ok(room[..count].iter().filter_map(Difference::of).collect())
    }

    /// The machine over memory of the caller's, which it reads and writes in each call that is made through it, and which
    /// is the caller's own between these: a slice, which lies at address 0, [`Octets`](crate::Octets) at another address,
    /// or what else is a [`Ram`].
    ///
    /// A step brings over what it reads, and what lies where it will write: where that differs from what the machine has,
    /// as a write of guest memory, which is an event. What the step wrote goes out: the buffer, then the descriptor. A
    /// step back puts the caller's octets back; what the driver wrote itself stays.
    ///
    /// ```
    /// # use bunjelav::{offset_of, Kind, Machine, Refusal, Watch};
    /// # fn main() -> Result<(), Refusal> {
    /// let mut m = Machine::new(65_536, 1 << 20, [0x52, 0x54, 0x00, 0x12, 0x34, 0x56])?;
    /// m.set_link(true)?;
    /// let mut ram = vec![0; 65_536];
    /// ram[0x1000..0x1008].copy_from_slice(&0x4000u64.to_le_bytes()); // descriptor 0 gets its buffer
    /// for (register, value) in [("RDBAL", 0x1000), ("RDLEN", 128), ("RDT", 1), ("RCTL", 0x8002)] {
    ///     m.write(offset_of(register)?, value)?;
    /// }
    /// let mut frame = [7; 60];
    /// frame[..6].fill(0xFF);
    /// m.arrive(&frame)?;
    /// m.over(&mut ram[..]).run_rx(usize::MAX)?;
    /// assert_eq!(ram[0x100C] & 1, 1); // DD: the adapter is done with it
    /// assert_eq!(ram[0x4000..0x403C], frame);
    ///
    /// // who wrote the buffer's address?
    /// let change = m.last_change(Watch::Octets(0x1000, 8))?.expect("the driver wrote it");
    /// assert_eq!(m.event(change.back - 1)?.kind, Kind::Poke);
    ///
    /// // an idle step, and the one that wrote
    /// m.over(&mut ram[..]).back(2)?;
    /// assert_eq!((ram[0x100C], ram[0x4000]), (0, 0));
    /// # Ok(())
    /// # }
    /// ```
    pub fn over<'a, R: Ram + ?Sized>(&'a mut self, ram: &'a mut R) -> Over<'a, R> {
        Over { machine: self, ram }
    }

    /// Hands memory to the machine: from now on each call that is an event works on it, as [`over`](Machine::over) says.
    /// Memory that was attached before is dropped.
    #[cfg(feature = "std")]
    pub fn attach<R: Ram + Send + 'static>(&mut self, ram: R) -> Result<(), Refusal> {
        let (kept, at) = crate::ram::Kept::new(ram);
        self.put_ram(crate::ram::raw_ram(at))?;
        self.kept = Some(kept);
        Ok(())
    }

    /// The same of memory that others use beside the machine, in regions: the first that has an address counts.
    ///
    /// # Safety
    ///
    /// Until they are detached, others are attached, or the machine is dropped, the `size` octets of each region from
    /// `octets` on can be read and written, in whichever thread uses the machine. While a call of the machine lasts,
    /// nobody else reads or writes the octets that [`needs`](Machine::needs) tells of its steps, or that
    /// [`written`](Machine::written) tells of the steps that it takes back, but by atomic accesses of the status; and no
    /// reference to any of these octets is alive then.
    #[cfg(feature = "std")]
    pub unsafe fn attach_regions(&mut self, regions: &[raw::Region]) -> Result<(), Refusal> {
        let (kept, at) = crate::ram::Kept::new(regions.to_vec());
        self.put_ram(crate::ram::raw_regions(&*at))?;
        self.kept = Some(kept);
        Ok(())
    }

    /// From now on guest memory is the machine's own again. What [`attach`](Machine::attach) was given is dropped.
    pub fn detach(&mut self) {
        self.take_ram();
        #[cfg(feature = "std")]
        {
            self.kept = None;
        }
    }

    /// Attaches memory in the place of what is attached.
    fn put_ram(&mut self, ram: raw::Ram) -> Result<(), Refusal> {
        told(unsafe { raw::em_attach(self.handle.get(), &ram) }, ())?;
        self.attached = ram;
        Ok(())
    }

    /// From now on nothing is attached.
    fn take_ram(&mut self) {
        unsafe { raw::em_detach(self.handle.get()) };
        self.attached = raw::Ram::none();
    }

    /// Attaches memory, or nothing, in the place of what is attached, which it gives.
    pub(crate) fn swap_ram(&mut self, ram: raw::Ram) -> raw::Ram {
        let was = self.attached;
        match ram.is_some() {
            true => drop(self.put_ram(ram)),
            false => self.take_ram(),
        }
        was
    }

    /// Which octets of guest memory the next step of a ring's engine reads and writes, by what the machine has.
    pub fn needs(&self, ring: Ring) -> Result<Needs, Refusal> {
        let mut needs = Needs::default();
        let (reads, writes) = (needs.reads.as_mut_ptr(), needs.writes.as_mut_ptr());
        told(unsafe { raw::em_ring_needs(self.handle.get(), ring.number(), reads, writes) }, ())?;
        Ok(needs)
    }

    /// Which octets of guest memory an event of the journal wrote, the newest at 0; a range of none stands at 0.
    pub fn written(&self, k: usize) -> Result<[Range; 2], Refusal> {
        let mut written = [Range::default(); 2];
        told(unsafe { raw::em_written(self.handle.get(), k, written.as_mut_ptr()) }, ())?;
        Ok(written)
    }

    /// Makes `ram` what guest memory is; it has to be as large. Octets that are the same already are not written.
    pub fn sync_out(&self, ram: &mut [u8]) -> Result<(), Refusal> {
        told(unsafe { raw::em_sync_out(self.handle.get(), ram.as_mut_ptr(), ram.len()) }, ())
    }

    /// Makes guest memory what `ram` is, which has to be as large, by a memory write in each page of 4,096 octets that
    /// differs: from its first octet that differs to its last. Gives how many. Where the host refuses memory, the
    /// writes before stay, and are told.
    #[track_caller]
    pub fn sync_in(&mut self, ram: &[u8]) -> Result<usize, Stopped> {
        self.here(Location::caller());
        let mut writes = 0;
        let number = unsafe { raw::em_sync_in(self.handle.get(), ram.as_ptr(), ram.len(), &mut writes) };
        stopped(number, writes)
    }

    /// Makes `out` what guest memory is from an address on.
    pub fn sync_out_range(&self, address: u64, out: &mut [u8]) -> Result<(), Refusal> {
        told(unsafe { raw::em_sync_out_range(self.handle.get(), address, out.as_mut_ptr(), out.len()) }, ())
    }

    /// Makes guest memory what `octets` are from an address on, by one memory write from the first that differs to the
    /// last, or by none; gives how many.
    #[track_caller]
    pub fn sync_in_range(&mut self, address: u64, octets: &[u8]) -> Result<usize, Refusal> {
        self.here(Location::caller());
        let mut writes = 0;
        let (at, length) = (octets.as_ptr(), octets.len());
        told(unsafe { raw::em_sync_in_range(self.handle.get(), address, at, length, &mut writes) }, ())?;
        Ok(writes)
    }

    /// The driver writes 1 to 16,384 octets to guest memory.
    #[track_caller]
    pub fn poke(&mut self, address: u64, octets: &[u8]) -> Result<(), Refusal> {
        self.here(Location::caller());
        told(unsafe { raw::em_poke(self.handle.get(), address, octets.as_ptr(), octets.len()) }, ())
    }

    /// Copies octets of guest memory out.
    pub fn peek(&self, address: u64, out: &mut [u8]) -> Result<(), Refusal> {
        told(unsafe { raw::em_peek(self.handle.get(), address, out.as_mut_ptr(), out.len()) }, ())
    }

    /// The profile that it is of.
    pub fn profile(&self) -> Profile {
        let mut profile = 0;
        unsafe { raw::em_profile(self.handle.get(), &mut profile) };
        Profile::of(profile)
    }

    /// The address of guest memory's first octet.
    pub fn memory_base(&self) -> u64 {
        let mut base = 0;
        unsafe { raw::em_memory_base(self.handle.get(), &mut base) };
        base
    }

    /// How many octets guest memory has.
    pub fn memory_size(&self) -> u64 {
        let mut size = 0;
        unsafe { raw::em_memory_size(self.handle.get(), &mut size) };
        size
    }

    /// A frame arrives; the event says what became of it.
    #[track_caller]
    pub fn arrive(&mut self, frame: &[u8]) -> Result<Event, Refusal> {
        self.here(Location::caller());
        let mut note = raw::Note::default();
        told(unsafe { raw::em_arrive(self.handle.get(), frame.as_ptr(), frame.len(), &mut note) }, ())?;
        Ok(Event::of(note))
    }

    /// The link goes up, or down.
    #[track_caller]
    pub fn set_link(&mut self, up: bool) -> Result<(), Refusal> {
        self.here(Location::caller());
        told(unsafe { raw::em_set_link(self.handle.get(), up) }, ())
    }

    /// The receive engine handles a descriptor.
    #[track_caller]
    pub fn rx_step(&mut self) -> Result<Event, Refusal> {
        self.here(Location::caller());
        let mut note = raw::Note::default();
        told(unsafe { raw::em_rx_step(self.handle.get(), &mut note) }, ())?;
        Ok(Event::of(note))
    }

    /// The transmit engine handles a descriptor.
    #[track_caller]
    pub fn tx_step(&mut self) -> Result<Event, Refusal> {
        self.here(Location::caller());
        let mut note = raw::Note::default();
        told(unsafe { raw::em_tx_step(self.handle.get(), &mut note) }, ())?;
        Ok(Event::of(note))
    }

    /// The receive engine steps until it is idle, and at most `n` times; gives how many steps were not
    /// idle, also where the next one was refused.
    #[track_caller]
    pub fn run_rx(&mut self, n: usize) -> Result<usize, Stopped> {
        self.here(Location::caller());
        let mut done = 0;
        let number = unsafe { raw::em_run_rx(self.handle.get(), n, &mut done) };
        stopped(number, done)
    }

    /// The transmit engine steps until it is idle, and at most `n` times; gives how many steps were not
    /// idle, also where the next one was refused.
    #[track_caller]
    pub fn run_tx(&mut self, n: usize) -> Result<usize, Stopped> {
        self.here(Location::caller());
        let mut done = 0;
        let number = unsafe { raw::em_run_tx(self.handle.get(), n, &mut done) };
        stopped(number, done)
    }

    /// Whether the interrupt line is asserted.
    pub fn line(&self) -> bool {
        let mut level = 0;
        unsafe { raw::em_line(self.handle.get(), &mut level) };
        level != 0
    }

    /// Whether frames that are sent come back, by RCTL.LBM or by the PHY's word 0: never in the first profile. Who carries
    /// the wire then lets each that is sent arrive, and no other.
    pub fn loops(&self) -> bool {
        let mut loops = 0;
        unsafe { raw::em_loops(self.handle.get(), &mut loops) };
        loops != 0
    }

    /// How many frames were sent.
    pub fn wire_count(&self) -> usize {
        let mut count = 0;
        unsafe { raw::em_wire_count(self.handle.get(), &mut count) };
        count
    }

    /// Copies a frame that was sent to the head of `out`, and gives how many octets it has.
    pub fn wire_frame(&self, index: usize, out: &mut [u8]) -> Result<usize, Refusal> {
        let mut length = 0;
        let number =
            unsafe { raw::em_wire_frame(self.handle.get(), index, out.as_mut_ptr(), out.len(), &mut length) };
        told(number, ())?;
        Ok(length)
    }

    /// Copies the next frame that was sent and not handed over yet to the head of `out`, and gives how many octets it has;
    /// none where each was. A frame is handed over once, in the order of sending; one that has no room in `out` is the next
    /// one still. Frames that steps back took off the wire, and that are sent again, are new ones.
    pub fn wire_next_into(&mut self, out: &mut [u8]) -> Result<Option<usize>, Refusal> {
        let mut length = 0;
        let number = unsafe { raw::em_wire_next(self.handle.get(), out.as_mut_ptr(), out.len(), &mut length) };
        match told(number, Some(length)) {
            Err(Refusal::NoFrame) => Ok(None),
            given => given,
        }
    }

    /// The frames that were sent and not handed over yet, in the order of sending: each is given once, whichever iterator
    /// asks.
    pub fn wire_next(&mut self) -> Sent<'_> {
        Sent { machine: self }
    }

    /// Lets go of the octets of the frames that were sent before all that [`back`](Machine::back) can reach, and gives how
    /// many frames these are: the first ones. They are counted as before, have no octet from then on, and are not handed
    /// over any more.
    pub fn let_go(&mut self) -> usize {
        let mut count = 0;
        unsafe { raw::em_let_go(self.handle.get(), &mut count) };
        count
    }

    /// Has [`wire_next`](Machine::wire_next) let go of frames, in lots, whenever it has handed each frame over; or no
    /// longer. No frame goes that was not handed over. A machine then keeps the octets of at most 1,024 frames more than it
    /// has events that [`back`](Machine::back) can take back.
    pub fn let_go_always(&mut self, always: bool) {
        // (a machine is made, and no function of its memory runs while it is borrowed)
        let _made = unsafe { raw::em_let_go_always(self.handle.get(), always) };
    }

    /// The frames that were sent, the first one first.
    pub fn frames(&self) -> Frames<'_> {
        Frames { machine: self, next: 0 }
    }

    /// Writes the frames that were sent to a file as a capture, pcap, the first one first; one that is there is
    /// replaced, whole or not at all. A frame's time is the number of the line that sent it, where the run is kept, and
    /// else its own number, from 1 on, in microseconds. Where the file can't be written it is refused as
    /// [`Refusal::File`], and `std::io::Error::last_os_error` says why.
    #[cfg(feature = "std")]
    pub fn write_pcap<P: AsRef<std::path::Path>>(&self, path: P) -> Result<(), Refusal> {
        self.write_capture(path.as_ref(), core::ptr::null())
    }

    /// The same with the time of each frame, in nanoseconds since 1970 began.
    ///
    /// # Panics
    ///
    /// Where they are not as many as the frames.
    #[cfg(feature = "std")]
    pub fn write_pcap_at<P: AsRef<std::path::Path>>(&self, path: P, nanoseconds: &[u64]) -> Result<(), Refusal> {
        assert_eq!(nanoseconds.len(), self.wire_count(), "each frame that was sent has a time");
        self.write_capture(path.as_ref(), nanoseconds.as_ptr())
    }

    #[cfg(feature = "std")]
    fn write_capture(&self, path: &std::path::Path, nanoseconds: *const u64) -> Result<(), Refusal> {
        let path = crate::record::c_path(path).ok_or(Refusal::File)?;
        told(unsafe { raw::em_pcap_write(self.handle.get(), path.as_ptr(), nanoseconds) }, ())
    }

    /// Takes the newest `n` events back, or as many as the journal holds; gives how many. Where memory is attached that
    /// can refuse to be written, [`try_back`](Machine::try_back) tells of it.
    #[track_caller]
    pub fn back(&mut self, n: usize) -> usize {
        self.try_back(n).unwrap_or_else(|stopped| stopped.done)
    }

    /// The same, which stops where attached memory refuses to be written: `done` then counts the step whose octets were
    /// not put back, too.
    #[track_caller]
    pub fn try_back(&mut self, n: usize) -> Result<usize, Stopped> {
        self.here(Location::caller());
        let mut done = 0;
        let number = unsafe { raw::em_back(self.handle.get(), n, &mut done) };
        stopped(number, done)
    }

    /// How many events can be taken back.
    pub fn can_go_back(&self) -> usize {
        let mut count = 0;
        unsafe { raw::em_can_go_back(self.handle.get(), &mut count) };
        count
    }

    /// The tag of the events from now on.
    ///
    /// In the lines of a run that is kept it stands as a program counter where their places are turned off.
    pub fn tag(&mut self, tag: u64) {
        unsafe { raw::em_tag(self.handle.get(), tag) };
    }

    /// What an event of the journal was, the newest at 0.
    pub fn event(&self, k: usize) -> Result<Event, Refusal> {
        let mut note = raw::Note::default();
        told(unsafe { raw::em_event(self.handle.get(), k, &mut note) }, ())?;
        Ok(Event::of(note))
    }

    /// What the events of the journal were, the newest first.
    pub fn events(&self) -> Events<'_> {
        Events { machine: self, next: 0 }
    }

    /// The newest change of what is watched; none where no event of the journal changed it.
    pub fn last_change(&self, watch: Watch) -> Result<Option<Change>, Refusal> {
        const NO_CHANGE: u32 = 32;
        let mut change = raw::Change::default();
        match unsafe { raw::em_last_change(self.handle.get(), &watch.raw(), &mut change) } {
            NO_CHANGE => Ok(None),
            number => told(number, Some(Change::of(change))),
        }
    }
}

impl Drop for Machine {
    fn drop(&mut self) {
        // SAFETY: as above; the handle is not used again. (What is attached is freed after it.)
        unsafe { raw::em_free(self.handle.get()) }
    }
}

/// What the events of a machine's journal were, the newest first.
pub struct Events<'a> {
    machine: &'a Machine,
    next: usize,
}

impl Iterator for Events<'_> {
    type Item = Event;

    fn next(&mut self) -> Option<Event> {
        let event = self.machine.event(self.next).ok()?;
        self.next += 1;
        Some(event)
    }
}

/// The frames that a machine sent, each copied into an array.
pub struct Frames<'a> {
    machine: &'a Machine,
    next: usize,
}

/// The frames that a machine sent and that were not handed over yet.
pub struct Sent<'a> {
    machine: &'a mut Machine,
}

impl Iterator for Sent<'_> {
    type Item = Frame;

    fn next(&mut self) -> Option<Frame> {
        let mut frame = Frame { octets: [0; MOST_SENT], length: 0 };
        frame.length = self.machine.wire_next_into(&mut frame.octets).ok()??;
        Some(frame)
    }
}

/// A frame that was sent.
pub struct Frame {
    octets: [u8; MOST_SENT],
    length: usize,
}

impl core::ops::Deref for Frame {
    type Target = [u8];

    fn deref(&self) -> &[u8] {
        &self.octets[..self.length]
    }
}

impl Iterator for Frames<'_> {
    type Item = Frame;

    fn next(&mut self) -> Option<Frame> {
        let mut frame = Frame { octets: [0; MOST_SENT], length: 0 };
        frame.length = self.machine.wire_frame(self.next, &mut frame.octets).ok()?;
        self.next += 1;
        Some(frame)
    }
}
