//! The bench program as one would write it without proofs: the lines of the scripts that `bench/measure.py` makes, with
//! the same text. It keeps the same promises: each event has a record that takes it back, a record holds the octets
//! that the event overwrote, and the journal holds as many as its budget.
//!
//!     rustc --edition 2021 -O -C lto -C target-cpu=x86-64 -o plain bench/plain/main.rs
//!     ./plain < script
//!
//! It takes no options: guest memory has 64 KiB and the journal 1 MiB, as em_bench's have where nothing else is asked
//! for. Lines that those scripts don't have are answered `bad line`: `regs`, `line`, `wire`, `turns`, `mac`, `stats`.

mod driver;
mod fifo;
mod journal;
mod machine;
mod receive;
mod registers;
mod script;
mod text;
mod transmit;

use std::fs::File;
use std::io::{self, Read, Write};
use std::os::fd::AsFd;
use std::process::ExitCode;

/// The most octets of a script.
const MOST_SCRIPT: u64 = 4_194_304;

fn main() -> ExitCode {
    match run() {
        Ok(0) => ExitCode::SUCCESS,
        Ok(_) => ExitCode::from(1),
        Err(error) => {
            eprintln!("plain: {error}");
            ExitCode::from(3)
        }
    }
}

/// Plays the script of standard input; how many of its lines were bad.
fn run() -> io::Result<u32> {
    let mut script = Vec::new();
    let input = File::from(io::stdin().as_fd().try_clone_to_owned()?);
    input.take(MOST_SCRIPT).read_to_end(&mut script)?;
    if script.last().is_some_and(|&octet| octet != b'\n') {
        script.push(b'\n');
    }
    let mut output = File::from(io::stdout().as_fd().try_clone_to_owned()?);
    let mut session = script::Session::new();
    let bad = session.play(&script, &mut output)?;
    output.flush()?;
    // the system takes its memory back when the program ends, all at once
    std::mem::forget(session);
    Ok(bad)
}
