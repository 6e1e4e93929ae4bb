//! The records that do not touch the ring, on the original's domain.

use crate::play::Play;
use crate::rng::Rng;

/// Sizes for leaf records: a cursor takes more than a lent table has.
const SIZES: [u64; 16] =
    [1, 2, 3, 4, 5, 7, 8, 16, 64, 255, 256, 2_048, 16_384, 32_766, 32_767, 32_768];

pub fn any_record(play: &mut Play) {
    let op = play.rng.pick(&[96, 97, 97, 98, 98, 98, 99, 100, 101, 102, 103, 104, 106]);
    let nums = fields(&mut play.rng, op);
    play.push(op, nums);
}

/// Bytes anywhere in the region, from none to a few slots.
pub fn overwrite(play: &mut Play) {
    let region = u64::from(play.header.region);
    let at = if play.rng.once_in(6) { region } else { play.rng.below(region) };
    let k = play.rng.below((region - at).min(40) + 1);
    let mut nums = vec![at, k];
    nums.extend((0..k).map(|_| play.rng.draw() & 0xff));
    play.push(64, nums);
}

/// A place in the table, or past its last slot.
pub fn desc_addr(play: &mut Play) {
    let size = play.size();
    let index = match play.rng.below(3) {
        0 => play.rng.below(size),
        1 => play.rng.half(),
        _ => play.rng.near(&[0, size, size / 2, 65_535]),
    };
    play.push(105, [index]);
}

fn fields(rng: &mut Rng, op: u8) -> Vec<u64> {
    match op {
        96 => {
            let size = size(rng);
            vec![size, head(rng, size), rng.bit()]
        }
        97 => {
            let size = size(rng);
            vec![size, head(rng, size), rng.bit(), steps(rng, size)]
        }
        98 => notify(rng),
        99 | 100 => vec![rng.long(), rng.word(), rng.half(), rng.half(), rng.bit()],
        101 => vec![rng.half(), rng.bit()],
        102 => vec![rng.half(), rng.half(), rng.half()],
        103 => vec![rng.half(), rng.half(), rng.half(), rng.bit()],
        104 => vec![rng.half(), rng.half()],
        _ => (0..16).map(|_| rng.draw() & 0xff).collect(),
    }
}

fn size(rng: &mut Rng) -> u64 {
    if rng.once_in(5) { rng.within(1, 32_768) } else { rng.pick(&SIZES) }
}

fn head(rng: &mut Rng, size: u64) -> u64 {
    match rng.below(4) {
        0 => size - 1,
        1 => 0,
        _ => rng.below(size),
    }
}

fn steps(rng: &mut Rng, size: u64) -> u64 {
    match rng.below(4) {
        0 => size,
        1 => size - 1,
        2 => rng.below(2),
        _ => rng.below(size + 1),
    }
}

/// A batch that starts anywhere and is at most a ring long, or two cursors
/// that have nothing to do with each other; the event close to either.
fn notify(rng: &mut Rng) -> Vec<u64> {
    let size = size(rng);
    let old = head(rng, size);
    let old_wrap = rng.bit();
    let (new, new_wrap) = if rng.once_in(4) {
        (head(rng, size), rng.bit())
    } else {
        let end = old + steps(rng, size);
        (end % size, old_wrap ^ (end / size % 2))
    };
    let off = match rng.below(4) {
        0 => rng.near(&[size, 0]),
        1 => rng.below(size),
        _ => rng.near(&[old, new]),
    };
    let words = off & 0x7fff | rng.bit() << 15;
    let flags = rng.pick(&[2, 2, 2, 2, 0, 1, 3]) | rng.pick(&[0, 0, 0xfffc, 4]);
    vec![words, flags, size, old, old_wrap, new, new_wrap]
}
