//! Document 01 read as a program. It takes a trace on standard input and
//! answers every record from the words of 01 alone, as the trace format asks.
//!
//! By 01's headings:
//!
//! - Slots, flags and cursors: `slots`, `event`, `cursor`.
//! - What each end does: `producer`, `consumer`, `notify`, `chain`.
//! - When the ring says no: `refuse`, `layout`, and each call's own order of
//!   tests beside the call; `rollback`.
//! - Slots worth checking: `worth_checking`, run as tests.
//!
//! The trace format: `input`, `trace`, `world`, `answer`, `stage`, `hash`,
//! `run`. Where the words leave a choice, CHOICES.md names it.

use std::io::{self, BufWriter, Read, Write};

mod answer;
mod chain;
mod consumer;
mod cursor;
mod event;
mod hash;
mod input;
mod layout;
mod notify;
mod producer;
mod refuse;
mod rollback;
mod run;
mod slots;
mod stage;
mod trace;
mod world;

#[cfg(test)]
mod bad_cases;
#[cfg(test)]
mod forged_cases;
#[cfg(test)]
mod honest_cases;
#[cfg(test)]
mod traces;
#[cfg(test)]
mod worth_checking;

/// "An input ... is read whole."
fn main() -> io::Result<()> {
    let mut bytes = Vec::new();
    io::stdin().read_to_end(&mut bytes)?;
    let mut out = BufWriter::with_capacity(1 << 16, io::stdout().lock());
    run::run(&bytes, &mut out)?;
    out.flush()
}
