//! The run over a whole input: "Several traces may stand one after the other
//! in one input; each starts anew." Output is "decimal numbers, one space
//! between, one line each".

use std::io::{self, Write};

use crate::answer::{answer, Values};
use crate::hash;
use crate::input::{Bad, Input};
use crate::refuse::Refusal;
use crate::trace::{self, Header};
use crate::world::World;

/// Why the run ends before its input does.
enum Stop {
    Bad,
    Io(io::Error),
}

impl From<Bad> for Stop {
    fn from(_: Bad) -> Stop {
        Stop::Bad
    }
}

impl From<io::Error> for Stop {
    fn from(error: io::Error) -> Stop {
        Stop::Io(error)
    }
}

/// "the line `bad`, and the run ends. ... What was answered before stands."
pub fn run(bytes: &[u8], out: &mut impl Write) -> io::Result<()> {
    let mut input = Input::new(bytes);
    while !input.is_at_end() {
        match one_trace(&mut input, out) {
            Ok(()) => {}
            Err(Stop::Bad) => return writeln!(out, "bad"),
            Err(Stop::Io(error)) => return Err(error),
        }
    }
    Ok(())
}

/// "The first line of a trace is `0 0 HASH`, after opening. Where opening is
/// refused it is `0 6 0` or `0 8 0`".
fn one_trace(input: &mut Input, out: &mut impl Write) -> Result<(), Stop> {
    let header = trace::header(input)?;
    match World::open(&header) {
        Ok(mut world) => {
            writeln!(out, "0 0 {}", hash::of(&world))?;
            answer_records(input, &header, &mut world, out)
        }
        Err(refusal) => {
            writeln!(out, "0 {} 0", refusal.number())?;
            pass_over_records(input, &header)
        }
    }
}

/// "Then for each record `op status values... HASH`."
fn answer_records(
    input: &mut Input,
    header: &Header,
    world: &mut World,
    out: &mut impl Write,
) -> Result<(), Stop> {
    for number in 1..=header.records {
        let record = trace::record(input, header.region_length)?;
        let answered = answer(world, &record.call);
        let hash = if is_hashed(number, header) { hash::of(world) } else { 0 };
        write_line(out, record.op, &answered, hash)?;
    }
    Ok(())
}

/// "the trace's records are read and passed over".
fn pass_over_records(input: &mut Input, header: &Header) -> Result<(), Stop> {
    for _ in 0..header.records {
        trace::record(input, header.region_length)?;
    }
    Ok(())
}

/// "HASH is 0 unless the record's number, counted from 1, is a multiple of
/// hash_every or is the last; with hash_every 0 only the last has it."
fn is_hashed(number: u32, header: &Header) -> bool {
    let is_multiple = header.hash_every != 0 && number.is_multiple_of(header.hash_every);
    is_multiple || number == header.records
}

/// "Status 0 is success; 1 to 9 are document 01's refusals, with no values."
fn write_line(
    out: &mut impl Write,
    op: u8,
    answered: &Result<Values, Refusal>,
    hash: u64,
) -> io::Result<()> {
    match answered {
        Ok(values) => {
            write!(out, "{op} 0")?;
            for value in values {
                write!(out, " {value}")?;
            }
        }
        Err(refusal) => write!(out, "{op} {}", refusal.number())?,
    }
    writeln!(out, " {hash}")
}
