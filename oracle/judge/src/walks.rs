//! Chains over every slot of a ring: the walk's limit, and all four cursors
//! brought into the second round, at every size up to 2,048.

use format::{Header, Record, Trace};
use generator::place::SIZES;

/// Flags of a last slot in round false, writable and marked available.
const LAST: [u64; 2] = [2, 128];
const LAST_WITH_NEXT: [u64; 2] = [3, 128];

pub fn traces() -> Vec<Trace> {
    SIZES.into_iter().map(over_every_slot).collect()
}

/// From slot 1 around to slot 0. With NEXT on all of them the poll is refused,
/// without it on the last the same chain is taken, completed and got back.
fn over_every_slot(size: u64) -> Trace {
    let mut records = single_round(size - 1);
    // The first ID comes back to the top of the stack and is given again.
    records.push(chain(size));
    records.extend([overwrite(14, LAST_WITH_NEXT), plain(33), plain(37)]);
    records.extend([overwrite(14, LAST), plain(33), plain(37)]);
    records.extend([Record::new(34, [size - 1, 5]), plain(5)]);
    records.extend(cursors());
    records.extend(single_round(size - 1));
    records.extend(cursors());
    let end = (size * 16) as u32;
    let header = Header {
        size: size as u32,
        table: 0,
        driver: end,
        device: end + 4,
        region: end + 8,
        seed: 0,
        hash_every: 1,
        records: records.len() as u32,
    };
    Trace { header, records, ..Trace::default() }
}

/// One chain of one slot: submitted, polled, completed, got back.
fn single_round(id: u64) -> Vec<Record> {
    vec![Record::new(1, [4_096, 16, 0]), plain(33), Record::new(34, [id, 5]), plain(5)]
}

/// As many elements as the ring has slots, the second half writable; small
/// numbers keep the poll's answer short.
fn chain(size: u64) -> Record {
    let mut nums = vec![size, size / 2];
    nums.extend((0..size).flat_map(|i| [i % 10, i % 7]));
    Record::new(3, nums)
}

fn cursors() -> impl Iterator<Item = Record> {
    [8, 9, 38, 39].into_iter().map(plain)
}

fn plain(op: u8) -> Record {
    Record::new(op, [])
}

fn overwrite(at: u64, bytes: [u64; 2]) -> Record {
    Record::new(64, [at, 2, bytes[0], bytes[1]])
}
