//! The layouts and the calls of bunjelav.h.
//!
//! Written by bindings/tables.py, of the crate em_c: change it there, and run that.
use core::ffi::{c_char, c_int, c_void};

/// A part of memory of the caller's, as [`crate::Machine::attach_regions`] takes it.
#[repr(C)]
#[derive(Clone, Copy, Debug)]
pub struct Region {
    /// Its address in guest memory.
    pub base: u64,
    /// How many octets it has.
    pub size: u64,
    /// Where they lie.
    pub octets: *mut u8,
}

pub(crate) type Read = unsafe extern "C" fn(*mut c_void, u64, *mut u8, usize) -> bool;
pub(crate) type Write = unsafe extern "C" fn(*mut c_void, u64, *const u8, usize) -> bool;

#[repr(C)]
#[derive(Clone, Copy)]
pub(crate) struct Ram {
    pub context: *mut c_void,
    pub read: Option<Read>,
    pub write: Option<Write>,
    pub regions: *const Region,
    pub count: usize,
}

impl Ram {
    pub(crate) const fn none() -> Ram {
        Ram { context: core::ptr::null_mut(), read: None, write: None, regions: core::ptr::null(), count: 0 }
    }

    pub(crate) fn is_some(&self) -> bool {
        self.read.is_some() || self.count > 0
    }
}

#[repr(C)]
pub(crate) struct Handle {
    pub made: bool,
    pub held: *mut c_void,
    pub ram: Ram,
    pub state: u32,
}

#[repr(C)]
pub(crate) struct Pcap {
    pub made: bool,
    pub held: *mut c_void,
}

/// A register, and what a read of it would give.
#[repr(C)]
#[derive(Clone, Copy, PartialEq, Eq, Hash, Debug, Default)]
pub struct Register {
    /// Its offset.
    pub offset: u32,
    /// What a read of it would give.
    pub value: u32,
}

/// A frame of a capture, beside its octets.
#[repr(C)]
#[derive(Clone, Copy, Default)]
pub(crate) struct PcapFrame {
    pub nanoseconds: u64,
    pub original: u32,
    pub timed: u32,
}

/// What an event changed of one thing: what was seen before the event, and behind it.
#[repr(C)]
#[derive(Clone, Copy, Default)]
pub(crate) struct Difference {
    pub address: u64,
    pub value: u64,
    pub now: u64,
    pub kind: u32,
    pub offset: u32,
    pub octets: usize,
    pub before: [u8; 16],
    pub after: [u8; 16],
}

/// A descriptor of a ring, with what it says, whose it is, and what is wrong with it; the same in words.
#[repr(C)]
#[derive(Clone, Copy, Debug)]
pub(crate) struct Entry {
    pub address: u64,
    pub buffer: u64,
    pub index: u32,
    pub length: u32,
    pub status: u32,
    pub errors: u32,
    pub command: u32,
    pub adapters: u32,
    pub head: u32,
    pub tail: u32,
    pub trouble: u32,
    pub other: u32,
    pub text: [u8; 256],
}

impl Entry {
    pub(crate) const fn blank() -> Entry {
        Entry {
            address: 0,
            buffer: 0,
            index: 0,
            length: 0,
            status: 0,
            errors: 0,
            command: 0,
            adapters: 0,
            head: 0,
            tail: 0,
            trouble: 0,
            other: 0,
            text: [0; 256],
        }
    }
}

/// A bit or a field of a register: it holds `(value & mask) / lowest`.
#[repr(C)]
#[derive(Clone, Copy, Default)]
pub(crate) struct Field {
    pub mask: u32,
    pub lowest: u32,
    pub name: [u8; 16],
}

/// What waits in the FIFO, and what is gathered.
#[repr(C)]
#[derive(Clone, Copy, PartialEq, Eq, Hash, Debug, Default)]
pub struct Fifo {
    /// How many frames wait.
    pub frames: u64,
    /// How many octets the first of them has; 0 where none waits.
    pub octets: u64,
    /// How many octets are gathered for the next frame to be sent.
    pub gathered: u64,
    /// 1 where a VLAN tag was taken out of the first frame, else 0.
    pub tagged: u32,
    /// That tag, else 0.
    pub tag: u32,
}

/// An event that was performed.
#[repr(C)]
#[derive(Clone, Copy, Default)]
pub(crate) struct Note {
    pub tag: u64,
    pub at: u64,
    pub length: u32,
    pub value: u32,
    pub kind: u32,
    pub octets: u32,
    pub buffer: u64,
}

/// A range of guest memory. One of 0 octets stands at 0.
#[repr(C)]
#[derive(Clone, Copy, PartialEq, Eq, Hash, Debug, Default)]
pub struct Range {
    /// Where its first octet lies.
    pub address: u64,
    /// How many octets it has.
    pub length: u64,
}

/// Why an event did nothing: the number of the rule that decided, the numbers that it went by, and the same in words. A
/// number that a rule has not is 0.
#[repr(C)]
#[derive(Clone, Copy, Debug)]
pub(crate) struct Reason {
    pub address: u64,
    pub buffer: u64,
    pub octets: u64,
    pub most: u64,
    pub base: u64,
    pub memory: u64,
    pub rule: u32,
    pub index: u32,
    pub count: u32,
    pub value: u32,
    pub to: [u8; 6],
    pub text: [u8; 256],
}

impl Reason {
    pub(crate) const fn blank() -> Reason {
        Reason {
            address: 0,
            buffer: 0,
            octets: 0,
            most: 0,
            base: 0,
            memory: 0,
            rule: 0,
            index: 0,
            count: 0,
            value: 0,
            to: [0; 6],
            text: [0; 256],
        }
    }
}

/// A ring, as the registers set it up.
#[repr(C)]
#[derive(Clone, Copy, PartialEq, Eq, Hash, Debug, Default)]
pub struct RingSetup {
    /// Where descriptor 0 lies.
    pub base: u64,
    /// How many descriptors the ring has.
    pub count: u32,
    /// RDH or TDH.
    pub head: u32,
    /// RDT or TDT.
    pub tail: u32,
    /// How many octets each buffer of the receive ring has; of the transmit ring 0.
    pub buffer: u32,
    /// 1 where the engine handles descriptors, RCTL.EN or TCTL.EN; else 0.
    pub enabled: u32,
}

/// A descriptor of a ring.
#[repr(C)]
#[derive(Clone, Copy, Default)]
pub(crate) struct Descriptor {
    pub octets: [u8; 16],
    pub adapters: u32,
}

/// What a driver seems to get wrong by an access of a register: the number of the rule that says so, its numbers, and
/// the same in words. A number that a rule has not is 0.
#[repr(C)]
#[derive(Clone, Copy, Debug)]
pub(crate) struct Warning {
    pub address: u64,
    pub rule: u32,
    pub offset: u32,
    pub index: u32,
    pub count: u32,
    pub kept: u32,
    pub written: u32,
    pub causes: u32,
    pub text: [u8; 256],
}

impl Warning {
    pub(crate) const fn blank() -> Warning {
        Warning {
            address: 0,
            rule: 0,
            offset: 0,
            index: 0,
            count: 0,
            kept: 0,
            written: 0,
            causes: 0,
            text: [0; 256],
        }
    }
}

/// What is watched.
#[repr(C)]
#[derive(Clone, Copy, Default)]
pub(crate) struct Watch {
    pub kind: u32,
    pub offset: u32,
    pub address: u64,
    pub octets: usize,
}

/// A change of what is watched.
#[repr(C)]
#[derive(Clone, Copy, Default)]
pub(crate) struct Change {
    pub back: usize,
    pub value: u64,
    pub before: [u8; 16],
}

#[allow(dead_code)]
extern "C" {
    pub(crate) fn em_registers(machine: *const Handle, out: *mut Register, room: usize, count: *mut usize) -> u32;
    pub(crate) fn em_back(machine: *mut Handle, n: usize, done: *mut usize) -> u32;
    pub(crate) fn em_can_go_back(machine: *const Handle, count: *mut usize) -> u32;
    pub(crate) fn em_copy(machine: *const Handle, copy: *mut Handle) -> u32;
    pub(crate) fn em_differences(
        machine: *const Handle,
        k: usize,
        out: *mut Difference,
        room: usize,
        count: *mut usize,
    ) -> u32;
    pub(crate) fn em_ring_entry(machine: *const Handle, side: u32, index: u32, entry: *mut Entry) -> u32;
    pub(crate) fn em_field(offset: u32, k: usize, field: *mut Field) -> u32;
    pub(crate) fn em_value_text(offset: u32, value: u32, out: *mut u8, room: usize, octets: *mut usize) -> u32;
    pub(crate) fn em_fifo(machine: *const Handle, fifo: *mut Fifo) -> u32;
    pub(crate) fn em_fifo_room(machine: *const Handle, octets: *mut usize) -> u32;
    pub(crate) fn em_fifo_frame(machine: *const Handle, out: *mut u8, room: usize, octets: *mut usize) -> u32;
    pub(crate) fn em_gathered(machine: *const Handle, out: *mut u8, room: usize, octets: *mut usize) -> u32;
    pub(crate) fn em_let_go(machine: *mut Handle, count: *mut usize) -> u32;
    pub(crate) fn em_make(machine: *mut Handle, memory: u64, budget: u64, mac: *const u8) -> u32;
    pub(crate) fn em_make_with_eeprom(machine: *mut Handle, memory: u64, budget: u64, words: *const u16) -> u32;
    pub(crate) fn em_make_at(machine: *mut Handle, base: u64, memory: u64, budget: u64, mac: *const u8) -> u32;
    pub(crate) fn em_make_at_with_eeprom(
        machine: *mut Handle,
        base: u64,
        memory: u64,
        budget: u64,
        words: *const u16,
    ) -> u32;
    pub(crate) fn em_make_as(
        machine: *mut Handle,
        profile: u32,
        base: u64,
        memory: u64,
        budget: u64,
        mac: *const u8,
    ) -> u32;
    pub(crate) fn em_make_as_with_eeprom(
        machine: *mut Handle,
        profile: u32,
        base: u64,
        memory: u64,
        budget: u64,
        words: *const u16,
    ) -> u32;
    pub(crate) fn em_free(machine: *mut Handle);
    pub(crate) fn em_poke(machine: *mut Handle, addr: u64, octets: *const u8, length: usize) -> u32;
    pub(crate) fn em_peek(machine: *const Handle, addr: u64, out: *mut u8, room: usize) -> u32;
    pub(crate) fn em_memory_base(machine: *const Handle, base: *mut u64) -> u32;
    pub(crate) fn em_memory_size(machine: *const Handle, size: *mut u64) -> u32;
    pub(crate) fn em_name(offset: u32, out: *mut u8, room: usize, octets: *mut usize) -> u32;
    pub(crate) fn em_find(word: *const u8, length: usize, offset: *mut u32) -> u32;
    pub(crate) fn em_wire_next(machine: *mut Handle, out: *mut u8, room: usize, octets: *mut usize) -> u32;
    pub(crate) fn em_tag(machine: *mut Handle, tag: u64) -> u32;
    pub(crate) fn em_event(machine: *const Handle, k: usize, event: *mut Note) -> u32;
    pub(crate) fn em_pcap_of(pcap: *mut Pcap, octets: *const u8, length: usize) -> u32;
    pub(crate) fn em_pcap_next(
        pcap: *mut Pcap,
        out: *mut u8,
        room: usize,
        octets: *mut usize,
        frame: *mut PcapFrame,
    ) -> u32;
    pub(crate) fn em_pcap_fault(pcap: *mut Pcap, offset: *mut usize) -> u32;
    pub(crate) fn em_pcap_close(pcap: *mut Pcap);
    pub(crate) fn em_profile(machine: *const Handle, profile: *mut u32) -> u32;
    pub(crate) fn em_ring_needs(machine: *const Handle, side: u32, reads: *mut Range, writes: *mut Range) -> u32;
    pub(crate) fn em_written(machine: *const Handle, k: usize, written: *mut Range) -> u32;
    pub(crate) fn em_refusal(code: u32, out: *mut u8, room: usize, octets: *mut usize) -> u32;
    pub(crate) fn em_read(machine: *mut Handle, offset: u32, value: *mut u32) -> u32;
    pub(crate) fn em_write(machine: *mut Handle, offset: u32, value: u32) -> u32;
    pub(crate) fn em_look(machine: *const Handle, offset: u32, value: *mut u32) -> u32;
    pub(crate) fn em_ring(machine: *const Handle, side: u32, setup: *mut RingSetup) -> u32;
    pub(crate) fn em_ring_descriptor(machine: *const Handle, side: u32, index: u32, descriptor: *mut Descriptor) -> u32;
    pub(crate) fn em_run_rx(machine: *mut Handle, n: usize, done: *mut usize) -> u32;
    pub(crate) fn em_run_tx(machine: *mut Handle, n: usize, done: *mut usize) -> u32;
    pub(crate) fn em_read_sized(machine: *mut Handle, offset: u32, octets: u32, value: *mut u64) -> u32;
    pub(crate) fn em_write_sized(machine: *mut Handle, offset: u32, octets: u32, value: u64) -> u32;
    pub(crate) fn em_store(machine: *const Handle, out: *mut u8, room: usize, octets: *mut usize) -> u32;
    pub(crate) fn em_load(machine: *mut Handle, octets: *const u8, length: usize) -> u32;
    pub(crate) fn em_sync_out(machine: *const Handle, ram: *mut u8, room: usize) -> u32;
    pub(crate) fn em_sync_in(machine: *mut Handle, ram: *const u8, length: usize, writes: *mut usize) -> u32;
    pub(crate) fn em_sync_out_range(machine: *const Handle, addr: u64, out: *mut u8, room: usize) -> u32;
    pub(crate) fn em_sync_in_range(
        machine: *mut Handle,
        addr: u64,
        octets: *const u8,
        length: usize,
        writes: *mut usize,
    ) -> u32;
    pub(crate) fn em_ring_text(machine: *const Handle, side: u32, out: *mut u8, room: usize, octets: *mut usize) -> u32;
    pub(crate) fn em_fifo_text(machine: *const Handle, out: *mut u8, room: usize, octets: *mut usize) -> u32;
    pub(crate) fn em_effect(machine: *const Handle, k: usize, out: *mut u8, room: usize, octets: *mut usize) -> u32;
    pub(crate) fn em_warnings(machine: *const Handle, warnings: *mut Warning, count: *mut usize) -> u32;
    pub(crate) fn em_last_change(machine: *const Handle, watch: *const Watch, change: *mut Change) -> u32;
    pub(crate) fn em_why(
        machine: *const Handle,
        event: *const Note,
        code: u32,
        octets: *const u8,
        length: usize,
        reason: *mut Reason,
    ) -> u32;
    pub(crate) fn em_arrive(machine: *mut Handle, frame: *const u8, length: usize, event: *mut Note) -> u32;
    pub(crate) fn em_set_link(machine: *mut Handle, up: bool) -> u32;
    pub(crate) fn em_rx_step(machine: *mut Handle, event: *mut Note) -> u32;
    pub(crate) fn em_tx_step(machine: *mut Handle, event: *mut Note) -> u32;
    pub(crate) fn em_line(machine: *const Handle, level: *mut u32) -> u32;
    pub(crate) fn em_loops(machine: *const Handle, loops: *mut u32) -> u32;
    pub(crate) fn em_wire_count(machine: *const Handle, count: *mut usize) -> u32;
    pub(crate) fn em_wire_frame(
        machine: *const Handle,
        index: usize,
        out: *mut u8,
        room: usize,
        octets: *mut usize,
    ) -> u32;
    pub(crate) fn em_attach(machine: *mut Handle, ram: *const Ram) -> u32;
    pub(crate) fn em_detach(machine: *mut Handle) -> u32;
    pub(crate) fn em_record_to(machine: *mut Handle, path: *const c_char) -> u32;
    pub(crate) fn em_record_mapped(machine: *mut Handle, path: *const c_char) -> u32;
    pub(crate) fn em_recording_status(machine: *mut Handle, error: *mut c_int) -> u32;
    pub(crate) fn em_source(machine: *mut Handle, file: *const c_char, line: u32) -> u32;
    pub(crate) fn em_save(machine: *const Handle, path: *const c_char) -> u32;
    pub(crate) fn em_let_go_always(machine: *mut Handle, always: bool) -> u32;
    pub(crate) fn em_pcap_write(machine: *const Handle, path: *const c_char, nanoseconds: *const u64) -> u32;
    pub(crate) fn em_pcap_open(pcap: *mut Pcap, path: *const c_char) -> u32;
    pub(crate) fn em_strerror(code: u32) -> *const c_char;
    pub(crate) fn em_version() -> *const c_char;
}
