//! Playing a script: each line is parsed in place, and all text goes through one buffer.

use crate::driver::{Driver, Moved};
use crate::machine::{Machine, Octets, Refusal};
use crate::receive::Arrival;
use crate::registers::place_of;
use crate::text::{put_numbers, put_octets, put_value, Words};
use crate::transmit::Step;
use std::io::{self, Write};

/// How many octets of text are written at a time.
const WRITTEN_AT_ONCE: usize = 65_536;
const MOST_PEEK: usize = 16_384;
const MOST_BACK: usize = 65_536;

pub struct Session {
    machine: Machine,
    is_started: bool,
    data: Vec<u8>,
    packets: Vec<u8>,
}

impl Session {
    pub fn new() -> Session {
        Session {
            machine: Machine::new(),
            is_started: false,
            data: Vec::with_capacity(32_768),
            packets: Vec::new(),
        }
    }

    /// Plays each line of a script that ends with a newline; how many were bad.
    pub fn play(&mut self, script: &[u8], writer: &mut impl Write) -> io::Result<u32> {
        let mut out = Vec::with_capacity(2 * WRITTEN_AT_ONCE);
        let mut words = Words {
            text: script,
            at: 0,
        };
        let (mut number, mut bad) = (0, 0);
        while words.at < script.len() {
            number += 1;
            if !matches!(words.next(), b'\n' | b'#') && self.line(&mut words, &mut out).is_none() {
                bad += 1;
                put_numbers(&mut out, "bad line", &[number]);
            }
            if out.len() >= WRITTEN_AT_ONCE {
                writer.write_all(&out)?;
                out.clear();
            }
            while script[words.at] != b'\n' {
                words.at += 1;
            }
            words.at += 1;
        }
        writer.write_all(&out)?;
        Ok(bad)
    }

    /// Plays one line; none where it is bad.
    #[inline]
    fn line(&mut self, words: &mut Words, out: &mut Vec<u8>) -> Option<()> {
        match words.word() {
            b"r" => {
                let offset = words.hexadecimal(8)? as u32;
                words.end()?;
                match place_of(offset) {
                    Some(place) => put_value(out, self.machine.read(place)),
                    None => put_refusal(out, Refusal::NoRegister),
                }
            }
            b"w" => {
                let offset = words.hexadecimal(8)? as u32;
                let value = words.hexadecimal(8)? as u32;
                words.end()?;
                let place = place_of(offset).ok_or(Refusal::NoRegister);
                put_done(out, place.map(|place| self.machine.write(place, value)));
            }
            b"poke" => {
                let address = words.hexadecimal(16)?;
                words.data(&mut self.data)?;
                words.end()?;
                put_done(out, self.machine.poke(address, Octets::from(&self.data[..])));
            }
            b"peek" => self.peek(words, out)?,
            b"arrive" => {
                words.data(&mut self.data)?;
                let len = words.len(self.data.len())?;
                let data = &self.data[..];
                put_arrival(out, self.machine.arrive(Octets { data, len }));
            }
            b"rx" => {
                words.end()?;
                match self.machine.receive_step() {
                    Ok(None) => out.extend_from_slice(b"idle\n"),
                    Ok(Some(index)) => put_numbers(out, "wrote", &[index as usize]),
                    Err(refusal) => put_refusal(out, refusal),
                }
            }
            b"tx" => {
                words.end()?;
                match self.machine.transmit_step() {
                    Ok(Step::Idle) => out.extend_from_slice(b"idle\n"),
                    Ok(Step::Fetched(index)) => put_numbers(out, "fetched", &[index as usize]),
                    Ok(Step::Sent(index, len)) => put_numbers(out, "sent", &[index as usize, len]),
                    Err(refusal) => put_refusal(out, refusal),
                }
            }
            b"back" => self.back(words, out)?,
            b"link" => {
                let up = match words.word() {
                    b"up" => true,
                    b"down" => false,
                    _ => return None,
                };
                words.end()?;
                self.machine.set_link(up);
                out.extend_from_slice(b"ok\n");
            }
            b"init" => {
                words.end()?;
                self.start(out);
            }
            b"send" => self.send(words, out)?,
            b"recv" => self.receive(words, out)?,
            _ => return None,
        }
        Some(())
    }

    fn peek(&mut self, words: &mut Words, out: &mut Vec<u8>) -> Option<()> {
        let address = words.hexadecimal(16)?;
        let len = words.decimal(1, MOST_PEEK)?;
        words.end()?;
        match self.machine.held(address, len) {
            Some(at) => put_octets(out, &self.machine.memory[at..at + len]),
            None => put_refusal(out, Refusal::Range),
        }
        Some(())
    }

    #[inline]
    fn back(&mut self, words: &mut Words, out: &mut Vec<u8>) -> Option<()> {
        if words.next() == b'\n' {
            let text: &[u8] = if self.machine.back() { b"ok\n" } else { b"refused Empty\n" };
            out.extend_from_slice(text);
            return Some(());
        }
        let most = words.decimal(1, MOST_BACK)?;
        words.end()?;
        let done = (0..most).take_while(|_| self.machine.back()).count();
        put_numbers(out, "back", &[done]);
        Some(())
    }

    fn driver(&mut self) -> Driver<'_> {
        Driver {
            machine: &mut self.machine,
            events: 0,
        }
    }

    fn start(&mut self, out: &mut Vec<u8>) {
        let mut driver = self.driver();
        let started = driver.start();
        let events = driver.events;
        self.is_started = started.is_ok();
        match started {
            Ok(()) => put_numbers(out, "started", &[events]),
            Err(cause) => put_moved(out, (0, Some(cause)), events),
        }
    }

    fn send(&mut self, words: &mut Words, out: &mut Vec<u8>) -> Option<()> {
        let mut data = std::mem::take(&mut self.data);
        let len = words.data(&mut data).and_then(|()| words.len(data.len()));
        if let Some(len) = len {
            if self.is_started {
                let mut driver = self.driver();
                let moved = driver.send(Octets { data: &data, len });
                put_moved(out, moved, driver.events);
            } else {
                out.extend_from_slice(b"refused NoDriver\n");
            }
        }
        self.data = data;
        len.map(|_| ())
    }

    fn receive(&mut self, words: &mut Words, out: &mut Vec<u8>) -> Option<()> {
        let n = words.decimal(0, 1024)?;
        words.end()?;
        if !self.is_started {
            out.extend_from_slice(b"refused NoDriver\n");
            return Some(());
        }
        let mut packets = std::mem::take(&mut self.packets);
        let mut driver = self.driver();
        let moved = driver.receive(n, &mut packets);
        put_moved(out, moved, driver.events);
        out.extend_from_slice(&packets);
        self.packets = packets;
        Some(())
    }
}

fn put_refusal(out: &mut Vec<u8>, refusal: Refusal) {
    let text: &[u8] = match refusal {
        Refusal::NoRegister => b"refused NoRegister\n",
        Refusal::Range => b"refused Range\n",
        Refusal::Length => b"refused Length\n",
        Refusal::DmaRange => b"refused DmaRange\n",
        Refusal::Extended => b"refused Extended\n",
        Refusal::TooLong => b"refused TooLong\n",
    };
    out.extend_from_slice(text);
}

#[inline]
fn put_done(out: &mut Vec<u8>, done: Result<(), Refusal>) {
    match done {
        Ok(()) => out.extend_from_slice(b"ok\n"),
        Err(refusal) => put_refusal(out, refusal),
    }
}

#[inline]
fn put_arrival(out: &mut Vec<u8>, arrival: Result<Arrival, Refusal>) {
    let text: &[u8] = match arrival {
        Ok(Arrival::Stored) => b"stored\n",
        Ok(Arrival::Down) => b"dropped down\n",
        Ok(Arrival::Disabled) => b"dropped disabled\n",
        Ok(Arrival::Rejected) => b"dropped rejected\n",
        Ok(Arrival::Undersize) => b"dropped undersize\n",
        Ok(Arrival::Oversize) => b"dropped oversize\n",
        Ok(Arrival::Missed) => b"dropped missed\n",
        Err(refusal) => return put_refusal(out, refusal),
    };
    out.extend_from_slice(text);
}

#[inline]
fn put_moved(out: &mut Vec<u8>, (count, stopped): Moved, events: usize) {
    match stopped {
        None => put_numbers(out, "batch", &[count, events]),
        Some(cause) => {
            put_numbers(out, "stopped", &[count, events]);
            out.pop();
            out.push(b' ');
            out.extend_from_slice(cause.as_bytes());
            out.push(b'\n');
        }
    }
}
