//! Runs the trace on standard input over the original and writes TRACE.md's
//! lines. Where the original has nothing to say, one line on standard error
//! says why, and the exit status is 3.
//!
//! With `--beyond` it goes on outside the domain too, also into what panics,
//! and takes records 66 to 68 where the original has such a field.

use std::io::{self, BufWriter, Read, Write};
use std::process::ExitCode;

use format::{Answer, Bad, Header, Reader, Record};
use original::{Machine, Outside};

enum Stop {
    Bad,
    Outside(Outside),
    Io(io::Error),
}

impl From<Bad> for Stop {
    fn from(_: Bad) -> Self {
        Stop::Bad
    }
}

impl From<io::Error> for Stop {
    fn from(e: io::Error) -> Self {
        Stop::Io(e)
    }
}

impl From<Outside> for Stop {
    fn from(outside: Outside) -> Self {
        Stop::Outside(outside)
    }
}

fn main() -> ExitCode {
    let beyond = std::env::args().any(|a| a == "--beyond");
    let mut input = Vec::new();
    if let Err(e) = io::stdin().read_to_end(&mut input) {
        eprintln!("original: {e}");
        return ExitCode::FAILURE;
    }
    let mut out = BufWriter::new(io::stdout().lock());
    let ran = run(&input, &mut out, beyond);
    let written = match &ran {
        Err(Stop::Bad) => writeln!(out, "bad").and_then(|()| out.flush()),
        _ => out.flush(),
    };
    match (ran, written) {
        (Err(Stop::Outside(Outside(why))), _) => {
            eprintln!("original: outside its domain: {why}");
            ExitCode::from(3)
        }
        (Err(Stop::Io(e)), _) | (_, Err(e)) => {
            eprintln!("original: {e}");
            ExitCode::FAILURE
        }
        _ => ExitCode::SUCCESS,
    }
}

fn run(input: &[u8], out: &mut impl Write, beyond: bool) -> Result<(), Stop> {
    let mut reader = Reader::new(input);
    while !reader.at_end() {
        let header = reader.header()?;
        let mut machine = Machine::open(&header)?;
        writeln!(out, "{}", Answer::good([]).line(0, machine.hash()))?;
        for number in 1..=header.records {
            let record = reader.record(&header)?;
            let answer = answer(&mut machine, &record, beyond)?;
            let hash = hash_at(&machine, &header, number);
            writeln!(out, "{}", answer.line(record.op, hash))?;
            if beyond {
                // A panic must not lose what was answered before it.
                out.flush()?;
            }
        }
    }
    Ok(())
}

fn answer(machine: &mut Machine, record: &Record, beyond: bool) -> Result<Answer, Outside> {
    match machine.outside(record) {
        Some(_) if beyond && machine.forge(record) => Ok(Answer::good([])),
        Some(outside) if !beyond || matches!(record.op, 66..=75 | 107..=111) => Err(outside),
        _ => Ok(machine.answer(record)),
    }
}

fn hash_at(machine: &Machine, header: &Header, number: u32) -> u64 {
    if header.hashes(number) { machine.hash() } else { 0 }
}
