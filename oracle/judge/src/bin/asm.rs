//! Traces from text and back: `asm < TEXT > TRACE`, `asm --list < TRACE`.

use std::io::{self, Read, Write};
use std::process::ExitCode;

use format::{Reader, text};

fn main() -> ExitCode {
    let list = std::env::args().any(|a| a == "--list");
    let mut input = Vec::new();
    let read = io::stdin().read_to_end(&mut input);
    let done = read.map_err(|e| e.to_string()).and_then(|_| {
        let out = if list { listing(&input)? } else { assembled(&input)? };
        io::stdout().write_all(&out).map_err(|e| e.to_string())
    });
    match done {
        Ok(()) => ExitCode::SUCCESS,
        Err(why) => {
            eprintln!("asm: {why}");
            ExitCode::FAILURE
        }
    }
}

fn listing(input: &[u8]) -> Result<Vec<u8>, String> {
    let traces = Reader::new(input).traces().map_err(|_| "the input ends badly".to_string())?;
    let shown: Vec<String> = traces.iter().map(|t| text::show_trace(t) + "\n").collect();
    Ok(shown.concat().into_bytes())
}

fn assembled(input: &[u8]) -> Result<Vec<u8>, String> {
    let listing = text::parse(&String::from_utf8_lossy(input))?;
    Ok(listing.traces.iter().flat_map(|t| t.bytes()).collect())
}
