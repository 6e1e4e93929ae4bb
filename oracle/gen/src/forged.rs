//! Records that leave the original's domain: forged records and tables,
//! short lends, openings that are refused. Document 01 alone decides there.

use format::{COUNT_LIMIT, Header, Record, Shape, TABLE_ENTRIES, Width, ops::SHAPES};

use crate::calls;
use crate::hostile;
use crate::play::Play;
use crate::rng::Rng;

/// One stretch: honest or hostile moves, then forgeries and the calls that
/// meet them, then both ends opened and reset, so that the next stretch
/// starts from a state that is known.
pub fn stretch(play: &mut Play) {
    for _ in 0..play.rng.within(2, 20) {
        if play.rng.once_in(4) { hostile::any_move(play) } else { calls::any_move(play) }
    }
    for _ in 0..play.rng.within(1, 3) {
        forge(play);
        for _ in 0..play.rng.within(2, 10) {
            call(play);
        }
    }
    open_again(play);
}

fn geometry(h: &Header) -> [u64; 4] {
    [h.size, h.table, h.driver, h.device].map(u64::from)
}

fn open_again(play: &mut Play) {
    let geometry = geometry(&play.header);
    play.add(Record::new(69, [0xffff_ffff; 6]));
    play.add(Record::new(74, geometry));
    play.add(Record::new(75, geometry));
    play.add(Record::new(15, []));
    play.add(Record::new(46, []));
    play.start_over();
}

fn forge(play: &mut Play) {
    let h = play.header;
    match play.rng.below(16) {
        0..=2 => {
            let field = play.rng.below(11);
            let value = producer_value(&mut play.rng, &h, field);
            play.add(Record::new(66, [field, value]));
        }
        3..=5 => {
            let field = play.rng.below(10);
            let value = match field {
                9 => producer_value(&mut play.rng, &h, 10),
                _ => producer_value(&mut play.rng, &h, field),
            };
            play.add(Record::new(67, [field, value]));
        }
        6..=8 => entry(play),
        9..=10 => lend(play),
        11 => open_elsewhere(play),
        12 | 13 => bookkeeping_arm(play),
        14 => {
            lend(play);
            let op = play.rng.pick(&[74, 75]);
            let geometry = geometry(&h);
            play.add(Record::new(op, geometry));
        }
        _ => {
            entry(play);
            lend(play);
        }
    }
}

fn producer_value(rng: &mut Rng, h: &Header, field: u64) -> u64 {
    let size = u64::from(h.size);
    let high = rng.pick(&[0, 0, 0, 65_536, u64::MAX << 16]);
    match field {
        0 => rng.near(&[0, size, 2_048, 32_768, 65_535]) | high,
        1..=3 => offset(rng, h, field),
        4 | 6 => rng.near(&[0, size, size / 2, 65_535]) | high,
        5 | 7 => rng.pick(&[0, 1, 2, 3, u64::MAX]),
        8 | 9 => rng.near(&[0, size, size / 2, 65_535]) | high,
        _ => rng.near(&[0, 1, 2, 65_535]) | high,
    }
}

/// An offset about the edges of the areas, of the region and of 64 bits.
fn offset(rng: &mut Rng, h: &Header, field: u64) -> u64 {
    let table_bytes = u64::from(h.size) * 16;
    let edge = rng.pick(&[
        0,
        u64::from(h.table),
        u64::from(h.table) + table_bytes,
        u64::from(h.driver),
        u64::from(h.device),
        u64::from(h.region),
        u64::from(h.region).wrapping_sub(table_bytes),
        0u64.wrapping_sub(table_bytes),
        1 << 63,
        0,
    ]);
    let unit = if field == 1 { 16 } else { 4 };
    match rng.below(6) {
        0 => edge.wrapping_add(rng.pick(&[1, 2, 4, 8])),
        1 => edge.wrapping_sub(rng.pick(&[1, 2, 4, 8])),
        2 => edge.wrapping_sub(unit),
        3 => edge.wrapping_add(unit),
        _ => edge,
    }
}

fn entry(play: &mut Play) {
    let size = play.size();
    let height = (play.machine.producer.num_free() as u64).clamp(1, TABLE_ENTRIES);
    let held = play.held();
    let in_flight = play.in_flight();
    let index = match play.rng.below(6) {
        0 => height - 1,
        1 if !held.is_empty() => play.rng.pick(&held).into(),
        2 if !in_flight.is_empty() => play.rng.pick(&in_flight).into(),
        3 => play.rng.below(TABLE_ENTRIES),
        _ => play.rng.below(size),
    };
    let table = play.rng.below(3);
    let value = match play.rng.below(3) {
        0 => play.rng.pick(&[0, 1, 2, 3, 65_535]),
        _ => play.rng.near(&[size, 1, size / 2]),
    };
    play.add(Record::new(68, [table, index, value]));
}

fn lend(play: &mut Play) {
    let h = play.header;
    let size = play.size();
    let ends = [
        u64::from(h.table) + size * 16,
        u64::from(h.driver) + 4,
        u64::from(h.device) + 4,
        u64::from(h.region),
    ];
    let mut nums = [0xffff_ffff; 6];
    for (i, num) in nums.iter_mut().enumerate() {
        if play.rng.below(3) == 0 {
            *num = match i {
                0 => play.rng.pick(&ends) - play.rng.below(2),
                _ => play.rng.pick(&[0, size - 1, size, size + 1, TABLE_ENTRIES]),
            };
        }
    }
    play.add(Record::new(69, nums));
}

fn open_elsewhere(play: &mut Play) {
    let h = play.header;
    let op = play.rng.pick(&[74, 75]);
    let size = play.size();
    let mut nums = geometry(&h);
    for _ in 0..play.rng.within(1, 2) {
        let field = play.rng.below(4);
        nums[field as usize] = match field {
            0 => play.rng.near(&[0, size, 2_048, 32_768]),
            _ => offset(&mut play.rng, &h, field),
        };
    }
    play.add(Record::new(op, nums));
}

/// Records whose counts contradict each other within their bounds: the arms
/// that no sequence from `new` reaches.
fn bookkeeping_arm(play: &mut Play) {
    let size = play.size();
    let top = (play.machine.producer.num_free() as u64).saturating_sub(1).min(TABLE_ENTRIES - 1);
    let forged = match play.rng.below(7) {
        0 => vec![Record::new(66, [9, 0])],
        1 => vec![Record::new(68, [0, top, size + play.rng.below(3)])],
        2 => (0..size.min(8)).map(|id| Record::new(68, [1, id, 1])).collect(),
        3 => vec![Record::new(66, [8, size])],
        4 => vec![Record::new(66, [9, size]), Record::new(66, [8, 0])],
        5 => vec![Record::new(67, [8, 0])],
        _ => vec![Record::new(67, [8, size])],
    };
    for record in forged {
        play.add(record);
    }
    for op in [6, 5, 33] {
        play.add(Record::new(op, []));
    }
    let submit = if play.rng.bit() == 0 { single(&mut play.rng, 1) } else { slices(play) };
    play.add(submit);
    let pair = [2, 1, play.rng.long(), play.rng.word(), play.rng.long(), play.rng.word()];
    let op = play.rng.pick(&[3, 4]);
    play.add(Record::new(op, pair));
    let completion = Record::new(34, [play.any_id(), play.rng.word()]);
    play.add(completion);
}

fn single(rng: &mut Rng, op: u8) -> Record {
    Record::new(op, [rng.long(), rng.word(), rng.bit()])
}

/// A call with arguments of any kind, likely ones more often.
fn call(play: &mut Play) {
    let size = play.size();
    let record = match play.rng.below(17) {
        0 => slices(play),
        16 => parts(&mut play.rng),
        1 => checkpoint(play),
        2 => rollback(play),
        3 => Record::new(play.rng.pick(&[34, 35]), [play.any_id(), play.rng.word()]),
        4 => Record::new(72, [0, size.min(24)]),
        5 => Record::new(73, [play.rng.below(3), 0, size.min(40)]),
        6 => Record::new(10, [play.rng.near(&[0, size, size / 2]), play.rng.bit()]),
        7 => {
            let op = play.rng.pick(&[5, 6, 7, 8, 9, 11, 12, 14, 15, 33, 33, 36, 37, 38, 39]);
            Record::new(op, [])
        }
        8 if play.rng.bit() == 0 => Record::new(40, [play.any_register()]),
        8 => Record::new(play.rng.pick(&[42, 43, 45, 46]), []),
        9 => {
            let op = play.rng.pick(&[1, 2]);
            single(&mut play.rng, op)
        }
        10 => Record::new(105, [play.rng.near(&[0, size, size / 2])]),
        _ => any_record(&mut play.rng, &play.header),
    };
    play.add(record);
}

fn slices(play: &mut Play) -> Record {
    let free = play.machine.producer.num_free() as u64;
    let n = play.rng.pick(&[0, 1, 2, 3, free, free + 1, 5]).min(64);
    let m = if play.rng.below(3) == 0 { play.rng.below(6) } else { n };
    let readable = match play.rng.below(4) {
        0 => play.rng.pick(&[n + 1, 65_536, 1 << 32, u64::MAX]),
        _ => play.rng.below(n + 1),
    };
    let mut nums = vec![n, m, readable];
    nums.extend((0..n).map(|_| play.rng.long()));
    nums.extend((0..m).map(|_| play.rng.word()));
    Record::new(71, nums)
}

/// The chain check and the parts of a chain, mostly of good ones.
fn parts(rng: &mut Rng) -> Record {
    let n = rng.below(7);
    let readable = match rng.below(4) {
        0 => rng.pick(&[n + 1, 65_536, 1 << 32, u64::MAX]),
        _ => rng.below(n + 1),
    };
    match rng.pick(&[107, 107, 108, 109, 110, 111]) {
        107 => Record::new(107, [n, if rng.once_in(4) { rng.below(7) } else { n }, readable]),
        op => Record::new(op, [n, readable]),
    }
}

fn checkpoint(play: &mut Play) -> Record {
    let size = play.size();
    let avail = play.machine.consumer.avail_cursor();
    let used = play.machine.consumer.used_cursor();
    let in_flight = play.machine.consumer.num_inflight() as u64;
    let head = |rng: &mut Rng, now: u16| {
        if rng.bit() == 0 { u64::from(now) } else { rng.near(&[size, now.into(), 0]) }
    };
    let nums = [
        play.any_register(),
        head(&mut play.rng, avail.head()),
        u64::from(avail.wrap()) ^ u64::from(play.rng.once_in(4)),
        head(&mut play.rng, used.head()),
        u64::from(used.wrap()) ^ u64::from(play.rng.once_in(4)),
        play.rng.near(&[in_flight, size, 0]),
    ];
    Record::new(70, nums)
}

fn rollback(play: &mut Play) -> Record {
    let (reg, mut ids) = play.saved().unwrap_or((0, play.held()));
    ids.truncate(64);
    if play.rng.once_in(3) {
        ids.push(play.any_id() as u16);
    }
    if play.rng.once_in(4) && !ids.is_empty() {
        ids.push(ids[0]);
    }
    // Two chains of one length, the first named twice: every sum is right.
    if play.rng.once_in(3) && ids.len() > 1 {
        ids[1] = ids[0];
    }
    let mut nums = vec![reg, ids.len() as u64];
    nums.extend(ids.iter().map(|id| u64::from(*id)));
    Record::new(41, nums)
}

/// Any record at all that is well formed, with fields of any value.
pub fn any_record(rng: &mut Rng, h: &Header) -> Record {
    let shape = &SHAPES[rng.below(SHAPES.len() as u64) as usize];
    let mut nums: Vec<u64> = shape.head.iter().map(|w| field(rng, *w, h)).collect();
    keep_inside(shape, &mut nums, h);
    let widths: Vec<Width> = shape.widths(&nums).skip(nums.len()).collect();
    nums.extend(widths.into_iter().map(|w| field(rng, w, h)));
    Record { op: shape.op, nums }
}

fn field(rng: &mut Rng, width: Width, h: &Header) -> u64 {
    let size = u64::from(h.size);
    match width {
        Width::Byte => rng.below(256),
        Width::Flag => rng.bit(),
        Width::Half if rng.bit() == 0 => rng.near(&[size, 0, size / 2, 32_768]),
        Width::Half => rng.half(),
        Width::Count if rng.once_in(60) => {
            rng.pick(&[size, size + 1, 300, COUNT_LIMIT]).min(COUNT_LIMIT)
        }
        Width::Count => rng.below(6),
        Width::Word => rng.word(),
        Width::Long if rng.bit() == 0 => rng.below(8),
        Width::Long => rng.long(),
    }
}

/// Cuts a record's numbers to what TRACE.md calls well formed.
fn keep_inside(shape: &Shape, nums: &mut [u64], h: &Header) {
    match shape.op {
        64 | 65 => {
            nums[0] %= u64::from(h.region) + 1;
            nums[1] = nums[1].min(u64::from(h.region) - nums[0]);
        }
        66 => nums[0] %= 11,
        67 => nums[0] %= 10,
        68 => {
            nums[0] %= 3;
            nums[1] %= TABLE_ENTRIES;
        }
        72 => {
            nums[0] %= TABLE_ENTRIES + 1;
            nums[1] = nums[1].min(TABLE_ENTRIES - nums[0]);
        }
        73 => {
            nums[0] %= 3;
            nums[1] %= TABLE_ENTRIES + 1;
            nums[2] = nums[2].min(TABLE_ENTRIES - nums[1]);
        }
        _ => {}
    }
}
