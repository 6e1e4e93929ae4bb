//! What the command-line programs of the oracle share.

pub mod batch;
pub mod exceptions;
pub mod leaves;
pub mod programs;
pub mod shrink;
pub mod tally;
pub mod walks;

use format::Trace;
use generator::Mode;
use generator::rng::Rng;

const SEED: u64 = 2_026;

/// A trace of the stored corpora: the same on every machine.
pub fn generated(mode: Mode, size: u64, number: u64) -> Trace {
    let seed = SEED + mode as u64 * 1_000_000 + size * 100 + number;
    generator::trace_of_size(Rng::new(seed), mode, size)
}
