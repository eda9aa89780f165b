//! The board that a driver in Rust stands on. Of these files nothing is to be changed: the tests take their own copies.
//!
//! The adapter acts behind each access of a register, and between two calls of the driver: so a loop that only looks at
//! memory waits for ever.
#![allow(dead_code)]
use std::ffi::c_void;
use std::io::{BufRead, BufReader, Write};
use std::os::unix::io::FromRawFd;
use std::os::unix::net::UnixStream;
use std::panic::Location;
use std::path::Path;
use std::{env, ptr};

pub const PAGE_SIZE: usize = 4096;
/// In lab 6 the kernel has physical memory mapped so much above its physical addresses; in the others nothing is mapped.
const KERNEL_OFFSET: u64 = 0x3F_0000_0000;
const READ_AND_WRITE: i32 = 3;
const SHARED: i32 = 1;

extern "C" {
    fn mmap(at: *mut c_void, length: usize, protection: i32, flags: i32, descriptor: i32, offset: i64) -> *mut c_void;
}

/// What the board does for the driver.
pub struct Nic {
    lines: BufReader<UnixStream>,
    memory: *mut u8,
    first: u64,
    size: u64,
    offset: u64,
}

impl Nic {
    fn new(words: &[u64]) -> Nic {
        let (connection, memory, base, size) = match *words {
            [connection, memory, base, size] => (connection, memory, base, size),
            _ => panic!("the tests start this program: ./test LAB rust"),
        };
        let offset = if base == 0 { 0 } else { KERNEL_OFFSET };
        // SAFETY: the tests hand both over; this is the only place where they are taken.
        let stream = unsafe { UnixStream::from_raw_fd(connection as i32) };
        let at = unsafe { mmap(ptr::null_mut(), size as usize, READ_AND_WRITE, SHARED, memory as i32, 0) };
        assert!(at as isize != -1, "memory can't be mapped");
        Nic { lines: BufReader::new(stream), memory: at.cast(), first: base + offset, size, offset }
    }

    fn say(&mut self, text: &str) {
        let said = self.lines.get_mut().write_all(format!("{text}\n").as_bytes());
        if said.is_err() {
            std::process::exit(0); // (the tests are gone)
        }
    }

    fn next_line(&mut self) -> String {
        let mut line = String::new();
        match self.lines.read_line(&mut line) {
            Ok(length) if length > 0 => line.trim_end().to_string(),
            _ => std::process::exit(0),
        }
    }

    fn asked(&mut self, text: &str) -> String {
        self.say(text);
        self.next_line()
    }

    /// The driver reads a register.
    #[track_caller]
    pub fn read(&mut self, register: u32) -> u32 {
        let answer = self.asked(&format!("r {register:x} {}", place(Location::caller())));
        u32::from_str_radix(&answer, 16).expect("a register's value")
    }

    /// The driver writes a register.
    #[track_caller]
    pub fn write(&mut self, register: u32, value: u32) {
        self.asked(&format!("w {register:x} {value:x} {}", place(Location::caller())));
    }

    /// Octets of memory by the driver's address.
    #[track_caller]
    pub fn get(&self, address: u64, octets: &mut [u8]) {
        let from = self.at(address, octets.len());
        // SAFETY: they lie in the mapping; nobody writes there but in the calls of the tests.
        unsafe { ptr::copy_nonoverlapping(from, octets.as_mut_ptr(), octets.len()) }
    }

    /// Makes octets of memory these.
    #[track_caller]
    pub fn put(&mut self, address: u64, octets: &[u8]) {
        let to = self.at(address, octets.len());
        // SAFETY: as above.
        unsafe { ptr::copy_nonoverlapping(octets.as_ptr(), to, octets.len()) }
    }

    #[track_caller]
    fn at(&self, address: u64, length: usize) -> *mut u8 {
        let place = address.wrapping_sub(self.first);
        assert!(place <= self.size && length as u64 <= self.size - place, "there is no memory at {address:X}h");
        self.memory.wrapping_add(place as usize)
    }

    /// Lab 4: a packet was received.
    pub fn deliver(&mut self, packet: &[u8]) {
        self.asked(&format!("deliver {}", digits_of(packet)));
    }

    /// Lab 4: the link went up or down.
    pub fn link_changed(&mut self, is_up: bool) {
        self.asked(&format!("link {}", u8::from(is_up)));
    }

    // ---- lab 6: addresses are those of the kernel; the adapter's are physical

    /// The physical address that a kernel's address has.
    pub fn physical(&self, address: u64) -> u64 {
        address.wrapping_sub(self.offset)
    }

    /// The kernel's address that a physical address has.
    pub fn kernel(&self, physical: u64) -> u64 {
        physical.wrapping_add(self.offset)
    }

    /// A page of PAGE_SIZE octets, by its kernel's address, if there is one.
    pub fn kalloc(&mut self) -> Option<u64> {
        let physical = self.asked("kalloc").parse().expect("an address");
        (physical != 0).then(|| self.kernel(physical))
    }

    /// A page is given back.
    pub fn kfree(&mut self, page: u64) {
        self.asked(&format!("kfree {}", self.physical(page)));
    }

    /// A page with a packet is handed on.
    pub fn net_rx(&mut self, page: u64, length: usize) {
        self.asked(&format!("net_rx {} {length}", self.physical(page)));
    }
}

/// What a driver has: each lab's handout says which of them.
pub trait Calls {
    /// Labs 2 to 6: sets the adapter up.
    fn start(&mut self, _nic: &mut Nic) {
        missing()
    }
    fn link_is_up(&mut self, _nic: &mut Nic) -> bool {
        missing()
    }
    fn mac_address(&mut self, _nic: &mut Nic) -> [u8; 6] {
        missing()
    }
    fn eeprom_word(&mut self, _nic: &mut Nic, _address: u32) -> u16 {
        missing()
    }
    fn eeprom_is_good(&mut self, _nic: &mut Nic) -> bool {
        missing()
    }
    fn frames_received(&mut self, _nic: &mut Nic) -> u64 {
        missing()
    }
    /// Lab 2: the next packet, if there is one.
    fn receive(&mut self, _nic: &mut Nic) -> Option<Vec<u8>> {
        missing()
    }
    /// Lab 3: whether the packet is taken.
    fn transmit(&mut self, _nic: &mut Nic, _packet: &[u8]) -> bool {
        missing()
    }
    /// Labs 4 and 6: whether the adapter has interrupted.
    fn interrupt(&mut self, _nic: &mut Nic) -> bool {
        missing()
    }
    /// Lab 5: takes part in a group, and leaves it.
    fn join(&mut self, _nic: &mut Nic, _group: [u8; 6]) {
        missing()
    }
    fn leave(&mut self, _nic: &mut Nic, _group: [u8; 6]) {
        missing()
    }
    /// Lab 6: whether the page is taken.
    fn transmit_page(&mut self, _nic: &mut Nic, _page: u64, _length: usize) -> bool {
        missing()
    }
}

/// A driver has the functions of its lab alone. The tests learn of the others by the status.
fn missing() -> ! {
    std::process::exit(MISSING)
}

pub const MISSING: i32 = 117;

fn place(at: &Location) -> String {
    let name = Path::new(at.file()).file_name().map(|name| name.to_string_lossy());
    format!("{}:{}", name.unwrap_or_default(), at.line())
}

fn digits_of(octets: &[u8]) -> String {
    octets.iter().map(|octet| format!("{octet:02x}")).collect()
}

fn octets_of(digits: &str) -> Vec<u8> {
    let pairs = (0..digits.len() / 2).map(|at| u8::from_str_radix(&digits[2 * at..2 * at + 2], 16));
    pairs.collect::<Result<_, _>>().expect("hexadecimal digits")
}

fn group_of(digits: &str) -> [u8; 6] {
    octets_of(digits).try_into().expect("an address of six octets")
}

/// One call of the driver, and what it gave.
fn call(driver: &mut impl Calls, nic: &mut Nic, line: &str) -> String {
    let mut words = line.split(' ');
    let name = words.next().unwrap_or_default();
    let mut word = || words.next().expect("a word of a call");
    match name {
        "start" => driver.start(nic),
        "join" => driver.join(nic, group_of(word())),
        "leave" => driver.leave(nic, group_of(word())),
        "link_is_up" => return u8::from(driver.link_is_up(nic)).to_string(),
        "mac_address" => return digits_of(&driver.mac_address(nic)),
        "eeprom_word" => return driver.eeprom_word(nic, word().parse().expect("a number")).to_string(),
        "eeprom_is_good" => return u8::from(driver.eeprom_is_good(nic)).to_string(),
        "frames_received" => return driver.frames_received(nic).to_string(),
        "receive" => return driver.receive(nic).map_or("none".to_string(), |packet| digits_of(&packet)),
        "transmit" => return u8::from(driver.transmit(nic, &octets_of(word()))).to_string(),
        "interrupt" => return u8::from(driver.interrupt(nic)).to_string(),
        "transmit_page" => {
            let page = nic.kernel(word().parse().expect("an address"));
            return u8::from(driver.transmit_page(nic, page, word().parse().expect("a length"))).to_string();
        }
        _ => missing(),
    }
    "ok".to_string()
}

/// Each line of the tests calls a function of the driver, and is answered.
pub fn serve(mut driver: impl Calls) {
    let words: Option<Vec<u64>> = env::args().skip(1).map(|word| word.parse().ok()).collect();
    let mut nic = Nic::new(&words.unwrap_or_default());
    loop {
        let line = nic.next_line();
        let answer = call(&mut driver, &mut nic, &line);
        nic.say(&format!("= {answer}"));
    }
}
