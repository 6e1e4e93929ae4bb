//! Inputs that end badly: what was answered before stands, then `bad`.

use format::{COUNT_LIMIT, Ending, HEADER_BYTES, Header, Record, TABLE_ENTRIES, Trace};

use crate::rng::Rng;

pub fn bad(rng: &mut Rng, header: &Header) -> Ending {
    if rng.once_in(3) {
        Ending::InHeader(bad_header(rng, header))
    } else {
        Ending::InRecord(bad_record(rng, header))
    }
}

fn bad_header(rng: &mut Rng, header: &Header) -> Vec<u8> {
    let changed = match rng.below(4) {
        0 => Header { region: 65_537, ..*header },
        1 => Header { size: 65_536, ..*header },
        _ => *header,
    };
    let mut bytes = Trace { header: changed, ..Trace::default() }.bytes();
    if changed == *header {
        if rng.bit() == 0 {
            bytes[rng.below(4) as usize] ^= 1 << rng.below(8);
        } else {
            bytes.truncate(rng.within(1, HEADER_BYTES as u64 - 1) as usize);
        }
    }
    bytes
}

fn bad_record(rng: &mut Rng, header: &Header) -> Vec<u8> {
    let region = u64::from(header.region);
    let past = |op: u8, nums: &[u64]| {
        let mut bytes = Vec::new();
        Record::new(op, nums).write(&mut bytes);
        bytes
    };
    match rng.below(13) {
        0 => vec![rng.pick(&[0, 16, 32, 47, 63, 76, 95, 112, 255])],
        1 => past(1, &[1, 2, rng.pick(&[2, 255])]),
        2 => {
            let mut bytes = past(2, &[1, 2, 1]);
            bytes.truncate(rng.within(1, bytes.len() as u64 - 1) as usize);
            bytes
        }
        3 => past(65, &[region, 1]),
        4 => past(65, &[rng.pick(&[region + 1, 0xffff_ffff]), 0]),
        5 => past(64, &[region - 1, 2, 7, 7]),
        6 => past(68, &[0, TABLE_ENTRIES, 1]),
        7 => past(68, &[3, 0, 1]),
        8 => past(72, &[TABLE_ENTRIES, 1]),
        9 => past(73, &[rng.pick(&[0, 3]), TABLE_ENTRIES - 1, 2]),
        10 => past(rng.pick(&[66, 67]), &[11, 0]),
        11 => past(67, &[10, 0]),
        _ => past(107, &[COUNT_LIMIT + 1, 0, 0]),
    }
}
