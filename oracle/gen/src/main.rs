//! Writes traces to standard output: `gen MODE SEED FROM TO`.

use std::io::{self, Write};
use std::process::ExitCode;

use generator::Mode;

fn main() -> ExitCode {
    let args: Vec<String> = std::env::args().skip(1).collect();
    let numbers: Vec<u64> = args.iter().skip(1).filter_map(|a| a.parse().ok()).collect();
    let (Some(mode), [seed, from, to]) = (args.first().and_then(|m| Mode::named(m)), &numbers[..])
    else {
        eprintln!("usage: gen honest|hostile|long|full|leaf|forged SEED FROM TO");
        return ExitCode::FAILURE;
    };
    for number in *from..*to {
        let bytes = generator::trace(*seed, number, mode).bytes();
        if io::stdout().write_all(&bytes).is_err() {
            return ExitCode::FAILURE;
        }
    }
    ExitCode::SUCCESS
}
