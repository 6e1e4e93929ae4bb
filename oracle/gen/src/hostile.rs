//! Bytes changed between calls: what a hostile other side may write.

use format::COUNT_LIMIT;

use crate::calls;
use crate::play::Play;

const NEXT: u64 = 1;
const WRITE: u64 = 2;
const INDIRECT: u64 = 4;
const AVAIL: u64 = 128;
const USED: u64 = 32_768;
/// The longest chain that is written slot by slot.
const MOST_BY_SLOT: u64 = 40;
/// A trace that has this many bytes gets no further whole table.
const WHOLE_RING_BEFORE: usize = 40_000;

pub fn any_move(play: &mut Play) {
    match play.rng.below(12) {
        0..=6 => return calls::any_move(play),
        7 => false_head(play),
        8 => false_chain(play),
        9 => false_used(play),
        10 => flip(play),
        _ => false_event(play),
    }
    after(play);
}

/// The calls that would meet what was just written.
fn after(play: &mut Play) {
    let op = play.rng.pick(&[33, 33, 5, 36, 2]);
    if op == 2 {
        calls::submit_chain(play, 1);
    } else {
        play.push(op, []);
    }
}

fn overwrite(play: &mut Play, at: u64, bytes: &[u8]) {
    let region = u64::from(play.header.region);
    let k = (bytes.len() as u64).min(region - at) as usize;
    let mut nums = vec![at, k as u64];
    nums.extend(bytes[..k].iter().map(|b| u64::from(*b)));
    play.push(64, nums);
}

fn put_slot(play: &mut Play, index: u64, id: u64, flags: u64) {
    let mut bytes = Vec::new();
    bytes.extend_from_slice(&play.rng.long().to_le_bytes());
    bytes.extend_from_slice(&(play.rng.word() as u32).to_le_bytes());
    bytes.extend_from_slice(&(id as u16).to_le_bytes());
    bytes.extend_from_slice(&(flags as u16).to_le_bytes());
    let at = play.slot(index);
    overwrite(play, at, &bytes);
}

fn available(wrap: bool) -> u64 {
    if wrap { AVAIL } else { USED }
}

fn used(wrap: bool) -> u64 {
    if wrap { AVAIL | USED } else { 0 }
}

/// Marks of a round, now and then the wrong ones, with bits that nobody reads.
fn nearly(play: &mut Play, marks: u64) -> u64 {
    match play.rng.below(8) {
        0 => marks ^ AVAIL,
        1 => marks ^ USED,
        2 => marks ^ (AVAIL | USED),
        3 => marks | (play.rng.draw() & 0x7f78),
        _ => marks,
    }
}

fn false_head(play: &mut Play) {
    let cursor = play.machine.consumer.avail_cursor();
    let marks = nearly(play, available(cursor.wrap()));
    let more = play.rng.pick(&[0, 0, WRITE, NEXT, NEXT | WRITE, INDIRECT, INDIRECT | NEXT]);
    let id = play.any_id();
    put_slot(play, cursor.head().into(), id, marks | more);
}

/// A chain at the consumer's cursor: of any length up to all slots, ending or
/// running on, with an element out of order or INDIRECT in it.
fn false_chain(play: &mut Play) {
    let cursor = play.machine.consumer.avail_cursor();
    let size = play.size();
    // Slot by slot a long chain takes many bytes, so one over every slot is
    // written at once, and more seldom.
    if size > MOST_BY_SLOT && play.written() < WHOLE_RING_BEFORE && play.rng.once_in(3) {
        return whole_ring(play);
    }
    let most = size.min(MOST_BY_SLOT);
    let n = match play.rng.below(3) {
        0 => most,
        _ => play.rng.within(1, most),
    };
    let runs_on = play.rng.once_in(3);
    let writable_from = play.rng.below(n + 1);
    let odd = if play.rng.bit() == 0 { n } else { play.rng.below(n) };
    let odd_flag = play.rng.pick(&[WRITE, INDIRECT, NEXT]);
    let head_id = play.any_id();
    for i in 0..n {
        let mut flags = if i + 1 < n || runs_on { NEXT } else { 0 };
        if i >= writable_from {
            flags |= WRITE;
        }
        if i == odd {
            flags ^= odd_flag;
        }
        flags |= if i == 0 {
            available(cursor.wrap())
        } else {
            play.rng.pick(&[0, AVAIL, USED, AVAIL | USED])
        };
        let id = if i == 0 || play.rng.bit() == 0 { head_id } else { play.any_id() };
        put_slot(play, u64::from(cursor.head()) + i, id, flags);
    }
}

/// A chain with NEXT on every slot, or one that ends in the last slot that the
/// walk comes to, or one before it. Polled at once.
fn whole_ring(play: &mut Play) {
    let cursor = play.machine.consumer.avail_cursor();
    let size = play.size();
    let last = match play.rng.below(5) {
        0 | 1 => size,
        2 | 3 => size - 1,
        _ => size - 2,
    };
    let writable_from = play.rng.pick(&[0, size / 2, size - 1, size]);
    let id = play.any_id();
    let mut table = vec![0; size as usize * 16];
    for i in 0..size {
        let mut flags = if i == last { 0 } else { NEXT };
        if i >= writable_from {
            flags |= WRITE;
        }
        if i == 0 {
            flags |= available(cursor.wrap());
        }
        let at = ((u64::from(cursor.head()) + i) % size * 16) as usize;
        table[at..at + 8].copy_from_slice(&(i % 10).to_le_bytes());
        table[at + 12..at + 14].copy_from_slice(&(id as u16).to_le_bytes());
        table[at + 14..at + 16].copy_from_slice(&(flags as u16).to_le_bytes());
    }
    let start = play.slot(0);
    for (i, part) in table.chunks(COUNT_LIMIT as usize).enumerate() {
        overwrite(play, start + i as u64 * COUNT_LIMIT, part);
    }
    play.push(33, []);
}

fn false_used(play: &mut Play) {
    let cursor = play.machine.producer.used_cursor();
    let marks = nearly(play, used(cursor.wrap()));
    let more = play.rng.pick(&[0, 0, 0, WRITE, NEXT, INDIRECT]);
    let id = play.any_id();
    put_slot(play, cursor.head().into(), id, marks | more);
    if play.rng.bit() == 0 {
        play.push(5, []);
    }
}

/// One bit of one byte, in a slot near a cursor or anywhere.
fn flip(play: &mut Play) {
    let region = u64::from(play.header.region);
    let heads =
        [play.machine.producer.used_cursor().head(), play.machine.consumer.avail_cursor().head()];
    let at = if play.rng.below(3) == 0 {
        play.rng.below(region)
    } else {
        let index = u64::from(play.rng.pick(&heads)) + play.rng.below(2);
        play.slot(index) + play.rng.within(12, 15)
    };
    let byte = play.machine.memory.look(at as usize, 1)[0];
    let changed = byte ^ 1 << play.rng.below(8);
    overwrite(play, at, &[changed]);
}

fn false_event(play: &mut Play) {
    let size = play.size();
    let (at, head) = if play.rng.bit() == 0 {
        (play.header.device, play.machine.producer.avail_cursor().head())
    } else {
        (play.header.driver, play.machine.consumer.used_cursor().head())
    };
    let off = play.rng.near(&[head.into(), size, 0, size / 2]);
    let word = off & 0x7fff | play.rng.bit() << 15;
    let flags = play.rng.pick(&[2, 2, 2, 0, 1, 3]) | play.rng.pick(&[0, 4, 0xfffc]);
    let [a, b] = (word as u16).to_le_bytes();
    let [c, d] = (flags as u16).to_le_bytes();
    overwrite(play, at.into(), &[a, b, c, d]);
}
