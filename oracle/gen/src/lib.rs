//! Traces from a seed. The same seed, number and mode give the same trace.

pub mod calls;
mod ending;
pub mod forged;
pub mod hostile;
pub mod leaf;
pub mod place;
pub mod play;
pub mod rng;

use format::{Ending, Header, Trace};

use place::shuffle;
use play::Play;
use rng::Rng;

#[derive(Clone, Copy, Debug, PartialEq, Eq)]
pub enum Mode {
    Honest,
    Hostile,
    Long,
    Full,
    Leaf,
    Forged,
}

impl Mode {
    pub const ALL: [Mode; 6] =
        [Mode::Honest, Mode::Hostile, Mode::Long, Mode::Full, Mode::Leaf, Mode::Forged];

    pub fn name(self) -> &'static str {
        match self {
            Mode::Honest => "honest",
            Mode::Hostile => "hostile",
            Mode::Long => "long",
            Mode::Full => "full",
            Mode::Leaf => "leaf",
            Mode::Forged => "forged",
        }
    }

    pub fn named(name: &str) -> Option<Self> {
        Self::ALL.into_iter().find(|mode| mode.name() == name)
    }

    /// Whether the original answers every record of the mode.
    pub fn is_the_originals(self) -> bool {
        self != Mode::Forged
    }
}

/// A trace's records stay below this, so that several fit into one input.
const BYTES: usize = 100_000;

pub fn trace(seed: u64, number: u64, mode: Mode) -> Trace {
    let mut rng = Rng::new(seed.wrapping_mul(0x0001_0000_0001).wrapping_add(number));
    rng.draw();
    let size = size_for(&mut rng, number, mode);
    trace_of_size(rng, mode, size)
}

/// The named sizes take turns, so that every run of some length meets all.
fn size_for(rng: &mut Rng, number: u64, mode: Mode) -> u64 {
    match mode {
        Mode::Long => rng.pick(&[1, 2, 3, 4, 5, 7, 8, 16, 64, 255, 256, 2_048]),
        _ if rng.once_in(4) => place::any_size(rng),
        _ => place::SIZES[(number / Mode::ALL.len() as u64 % place::SIZES.len() as u64) as usize],
    }
}

pub fn trace_of_size(mut rng: Rng, mode: Mode, size: u64) -> Trace {
    if mode == Mode::Forged && rng.once_in(6) {
        return refused_opening(rng);
    }
    let mut header = place::header(&mut rng, size);
    let ends_badly = rng.once_in(15);
    header.hash_every = hash_every(&mut rng, size, mode);
    let mut play = Play::new(rng, header);
    match mode {
        Mode::Honest => repeat(&mut play, 60, calls::any_move),
        Mode::Hostile => repeat(&mut play, 70, hostile::any_move),
        Mode::Long => long(&mut play),
        Mode::Full => full(&mut play),
        Mode::Leaf => repeat(&mut play, 60, leaf_or_look),
        Mode::Forged => repeat(&mut play, 3, forged::stretch),
    }
    let ending = if ends_badly { ending::bad(&mut play.rng, &header) } else { Ending::Well };
    finished(header, play, ending)
}

fn finished(header: Header, play: Play, ending: Ending) -> Trace {
    let mut trace = Trace { header, records: play.records, ending };
    trace.header.records = trace.header().records;
    trace
}

/// Every step is hashed where that is cheap, seldom where it is not.
fn hash_every(rng: &mut Rng, size: u64, mode: Mode) -> u32 {
    match (mode, size) {
        (Mode::Long, _) => rng.pick(&[0, 64, 97]),
        (Mode::Full, 65..) => rng.pick(&[0, 128]),
        (Mode::Leaf, _) => 0,
        (_, 0..=64) => rng.pick(&[1, 1, 1, 2, 0]),
        _ => rng.pick(&[0, 8, 16]),
    }
}

fn repeat(play: &mut Play, about: u64, one: fn(&mut Play)) {
    let moves = play.rng.within(about / 2, about * 3 / 2);
    for _ in 0..moves {
        if play.written() < BYTES {
            one(play);
        }
    }
}

/// The region's bytes and the table's places belong to no other leaf record,
/// so they are met beside them.
fn leaf_or_look(play: &mut Play) {
    match play.rng.below(20) {
        0 => calls::look(play),
        1 => leaf::overwrite(play),
        2 => leaf::desc_addr(play),
        _ => leaf::any_record(play),
    }
}

fn refused_opening(mut rng: Rng) -> Trace {
    let mut header = place::doubtful_header(&mut rng);
    let records: Vec<_> =
        (0..rng.below(12)).map(|_| forged::any_record(&mut rng, &header)).collect();
    let ending = if rng.once_in(4) { ending::bad(&mut rng, &header) } else { Ending::Well };
    header.hash_every = 1;
    let mut trace = Trace { header, records, ending };
    trace.header.records = trace.header().records;
    trace
}

/// Batches of work, round after round: many wraps, little talk.
fn long(play: &mut Play) {
    let target = play.rng.within(300, 1_500) as usize;
    // Long chains on large rings, or these would never wrap.
    let longest = (play.size() / 8).max(4);
    while play.records.len() < target && play.written() < BYTES {
        let most = play.machine.producer.num_free() as u64;
        for _ in 0..play.rng.within(1, most.clamp(1, 6)) {
            let free = play.machine.producer.num_free() as u64;
            let n = play.rng.within(1, free.clamp(1, longest));
            calls::submit_chain(play, n);
        }
        for _ in 0..play.rng.within(1, 6) {
            calls::poll_available(play);
        }
        if play.rng.once_in(5) {
            calls::checkpoint_or_rollback(play);
        }
        for _ in 0..play.rng.within(1, 6) {
            calls::complete(play);
        }
        for _ in 0..play.rng.within(1, 6) {
            calls::poll_used(play);
        }
        if play.rng.once_in(6) {
            calls::notifications(play);
        }
    }
}

/// Fills the ring to the last slot, asks for more, empties it in any order.
fn full(play: &mut Play) {
    let rounds = if play.size() > 64 { 1 } else { play.rng.within(2, 5) };
    for _ in 0..rounds {
        let singles = play.rng.bit() == 0;
        while play.machine.producer.num_free() > 0 && play.written() < BYTES {
            let free = play.machine.producer.num_free() as u64;
            let n = if singles { 1 } else { play.rng.within(1, free) };
            calls::submit_chain(play, n);
        }
        refused_when_full(play);
        play.push(40, [0]);
        take_all(play);
        give_back_all(play);
    }
    // The cursors stand on slot 0 of another round now.
    repeat(play, 16, calls::any_move);
}

fn refused_when_full(play: &mut Play) {
    for op in [7, 6, 37] {
        play.push(op, []);
    }
    let n = play.rng.within(1, 3);
    calls::submit_chain(play, n);
}

fn take_all(play: &mut Play) {
    let mut polled = Vec::new();
    while let Some(answer) = play.push(33, []) {
        if answer.status != 0 || play.written() >= BYTES {
            break;
        }
        polled.push(answer.values[0] as u16);
    }
    play.push(37, []);
    if play.rng.once_in(3) {
        shuffle(&mut play.rng, &mut polled);
        calls::rollback(play, 0, &polled[..polled.len().min(4_096)]);
        calls::poll_available(play);
    }
}

fn give_back_all(play: &mut Play) {
    let mut held = play.held();
    shuffle(&mut play.rng, &mut held);
    for id in &held {
        calls::complete_id(play, (*id).into());
    }
    // Completed once more: no longer held.
    if let Some(id) = held.first() {
        calls::complete_id(play, (*id).into());
    }
    for _ in 0..=held.len() {
        calls::poll_used(play);
    }
    play.push(7, []);
}

#[cfg(test)]
mod tests {
    use super::*;
    use format::{Reader, text};

    #[test]
    fn the_same_seed_gives_the_same_trace() {
        for mode in Mode::ALL {
            assert_eq!(trace(5, 3, mode).bytes(), trace(5, 3, mode).bytes());
            assert_ne!(trace(5, 3, mode).bytes(), trace(6, 3, mode).bytes());
        }
    }

    #[test]
    fn what_is_written_is_read_back() {
        for mode in Mode::ALL {
            for number in 0..60 {
                let trace = Trace { ending: Ending::Well, ..trace(1, number, mode) };
                let trace = Trace { header: trace.header(), ..trace };
                let read = Reader::new(&trace.bytes()).traces();
                assert_eq!(read, Ok(vec![trace.clone()]));
                let listed = text::parse(&text::show_trace(&trace)).expect("a listing");
                assert_eq!(listed.traces, vec![trace]);
            }
        }
    }

    #[test]
    fn a_bad_ending_is_bad() {
        for number in 0..3_000 {
            let trace = trace(9, number, Mode::Forged);
            let read = Reader::new(&trace.bytes()).traces();
            assert_eq!(read.is_err(), trace.ends_badly(), "{}", text::show_trace(&trace));
        }
    }
}
