//! A driver over a trait of accesses, with a mistake, and the harness that finds the line of it.
//!
//! The driver knows no model: it reads and writes through [`Bus`]. Each access carries the line that makes it, and the
//! harness hands that line to the machine as the tag of the event. Where a packet is not the frame that arrived, it asks who
//! gave the descriptor its buffer, and prints that line.

use bunjelav::{offset_of, Machine, Refusal, Watch};
use std::time::Duration;
use std::{process, thread};

const RING: u64 = 0x1000;
const BUFFERS: u64 = 0x4000;
const COUNT: u32 = 8;
const SIZE: u64 = 2048;
const DESCRIPTOR: u64 = 16;
const STATUS: usize = 12;
const DD: u8 = 0x01;
const FRAME: usize = 60;
const EN_AND_BAM: u32 = 0x8002;

/// What the driver needs of its adapter; `line` is the line of the driver that makes the access.
trait Bus {
    fn write(&mut self, line: u32, register: &str, value: u32);
    fn put(&mut self, line: u32, address: u64, octets: &[u8]);
    /// Reads octets, if memory has them.
    fn get(&mut self, address: u64, octets: &mut [u8]) -> bool;
}

struct Driver<B: Bus> {
    bus: B,
    next: u32,
}

impl<B: Bus> Driver<B> {
    fn start(mut bus: B) -> Driver<B> {
        for index in 0..COUNT {
            let buffer = BUFFERS + SIZE * u64::from(index);
            bus.put(line!(), RING + DESCRIPTOR * u64::from(index), &descriptor(buffer));
        }
        bus.write(line!(), "RDBAL", RING as u32);
        bus.write(line!(), "RDLEN", COUNT * DESCRIPTOR as u32);
        bus.write(line!(), "RDT", COUNT - 1);
        bus.write(line!(), "RCTL", EN_AND_BAM);
        Driver { bus, next: 0 }
    }

    /// Takes a packet if there is one, and gives its buffer back.
    fn receive(&mut self) -> Option<[u8; FRAME]> {
        let at = RING + DESCRIPTOR * u64::from(self.next);
        let mut octets = [0; DESCRIPTOR as usize];
        if !self.bus.get(at, &mut octets) || octets[STATUS] & DD == 0 {
            return None;
        }
        let mut packet = [0; FRAME];
        self.bus.get(address_of(&octets), &mut packet).then_some(())?;
        let buffer = RING + SIZE * u64::from(self.next);
        self.bus.put(line!(), at, &descriptor(buffer)); // the mistake: the ring's address, and not the buffers'
        self.bus.write(line!(), "RDT", self.next);
        self.next = (self.next + 1) % COUNT;
        Some(packet)
    }
}

fn address_of(descriptor: &[u8; DESCRIPTOR as usize]) -> u64 {
    u64::from_le_bytes(descriptor[..8].try_into().expect("eight octets"))
}

fn descriptor(buffer: u64) -> [u8; DESCRIPTOR as usize] {
    let mut octets = [0; DESCRIPTOR as usize];
    octets[..8].copy_from_slice(&buffer.to_le_bytes());
    octets
}

// ---- the harness

impl Bus for Machine {
    fn write(&mut self, line: u32, register: &str, value: u32) {
        self.tag(u64::from(line));
        Machine::write(self, offset_of(register).expect("a register's name"), value).expect("a write");
    }

    fn put(&mut self, line: u32, address: u64, octets: &[u8]) {
        self.tag(u64::from(line));
        self.poke(address, octets).expect("a write of memory");
    }

    fn get(&mut self, address: u64, octets: &mut [u8]) -> bool {
        self.peek(address, octets).is_ok()
    }
}

/// The line of the driver that gave this descriptor its buffer last, and that buffer. What the adapter wrote over it since
/// is taken back.
fn who_gave(machine: &mut Machine, at: u64) -> Option<(u64, u64)> {
    loop {
        let change = machine.last_change(Watch::Octets(at, 8)).ok()??;
        let event = machine.event(change.back - 1).ok()?;
        if event.length != 0 && event.at == at {
            let mut buffer = [0; 8];
            machine.peek(at, &mut buffer).ok()?;
            return Some((event.tag, u64::from_le_bytes(buffer)));
        }
        // it was the adapter's: what stood there before it?
        machine.back(change.back);
    }
}

/// How long the example may take: where a mistake has the driver wait for what never comes, it ends with a word.
const LIMIT: Duration = Duration::from_secs(10);
const LIMIT_STATUS: i32 = 3;

fn set_limit() {
    thread::spawn(|| {
        thread::sleep(LIMIT);
        eprintln!("driver: it took {LIMIT:?}: what loop of the driver waits for what the adapter never does?");
        process::exit(LIMIT_STATUS);
    });
}

fn main() -> Result<(), Refusal> {
    set_limit();
    let mut machine = Machine::new(65_536, 1 << 20, [0x52, 0x54, 0x00, 0x12, 0x34, 0x56])?;
    machine.set_link(true)?;
    let mut driver = Driver::start(machine);
    let mut frame = [0; FRAME];
    frame[..6].fill(0xFF);
    for number in 0..20u8 {
        frame[FRAME - 1] = number;
        driver.bus.arrive(&frame)?;
        driver.bus.rx_step()?;
        if driver.receive() != Some(frame) {
            println!("frame {number} did not come as it was sent");
            break;
        }
    }
    let (line, buffer) = who_gave(&mut driver.bus, RING).expect("somebody gave it");
    println!("driver.rs:{line}: descriptor 0 got the buffer {buffer:04X}");
    Ok(())
}
