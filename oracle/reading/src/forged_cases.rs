//! Records, tables and bytes that no honest sequence reaches: the refusals,
//! their order, and that nothing differs after them.

use crate::answer::answer;
use crate::hash::{self, Hash};
use crate::input::Input;
use crate::slots::{INDIRECT, NEXT, WRITE};
use crate::trace::{header, record};
use crate::traces::*;
use crate::world::{first_bytes, World};

const AVAILABLE: u16 = 0x80;

/// Op 66 or 67.
fn set(trace: Trace, op: u8, field: u8, value: u64) -> Trace {
    trace.op(op, &[b(field), q(value)])
}

/// Op 68.
fn entry(trace: Trace, table: u8, index: u16, value: u16) -> Trace {
    trace.op(68, &[b(table), w(index), w(value)])
}

/// Op 69.
fn lend(trace: Trace, numbers: [u32; 6]) -> Trace {
    trace.op(69, &numbers.map(d))
}

/// Op 71, all addresses and lengths 0.
fn slices(trace: Trace, n: u16, m: u16, readable: u64) -> Trace {
    let zeros = vec![0; 8 * usize::from(n) + 4 * usize::from(m)];
    trace.op(71, &[w(n), w(m), q(readable), zeros])
}

/// A slot's flags, put into the table at 0.
fn flags(trace: Trace, slot: u32, flags: u16) -> Trace {
    trace.overwrite(16 * slot + 14, &flags.to_le_bytes())
}

fn is(trace: Trace, expected: &str) {
    assert_eq!(trace.last_answer(), expected);
}

const ALL: [u32; 6] = [u32::MAX; 6];

fn all_but(place: usize, number: u32) -> [u32; 6] {
    let mut numbers = ALL;
    numbers[place] = number;
    numbers
}

#[test]
fn submits_7_8_1_3_4_5_in_order() {
    // Everything is wrong, then one thing less each time.
    let wrong = entry(ring(4), 0, 3, 9);
    let wrong = set(set(wrong, 66, 8, 0), 66, 9, 0);
    let short = lend(wrong.clone(), [0; 6]);
    is(slices(set(short.clone(), 66, 4, 4), 0, 0, 0), "71 7");
    is(slices(short, 0, 0, 0), "71 8");
    is(slices(wrong.clone(), 0, 1, 0), "71 8");
    is(slices(wrong.clone(), 1, 0, 0), "71 8");
    is(slices(wrong.clone(), 0, 0, 1), "71 8");
    is(slices(wrong.clone(), 1, 1, u64::MAX), "71 8");
    is(slices(wrong.clone(), 0, 0, 0), "71 1");
    is(slices(wrong.clone(), 1, 1, 1), "71 3");
    let free = set(wrong, 66, 8, 4);
    is(slices(free.clone(), 5, 5, 1), "71 3");
    is(slices(free.clone(), 1, 1, 1), "71 4");
    let stacked = set(free, 66, 9, 4);
    is(slices(stacked.clone(), 1, 1, 1), "71 5");
    is(stacked.clone().op(6, &[]), "6 5");
    let below = entry(stacked, 0, 3, 2);
    is(slices(below.clone(), 4, 4, 1), "71 0 2");
    let counted = entry(below, 1, 2, 1);
    is(slices(counted.clone(), 1, 1, 1), "71 5");
    is(counted.op(6, &[]), "6 5");
}

#[test]
fn bad_records_of_the_producer() {
    let forged = |field, value| set(ring(4), 66, field, value);
    for op in [5, 6, 7, 8, 9, 11, 12, 14, 15] {
        is(forged(8, 5).op(op, &[]), &format!("{op} 7"));
    }
    for (field, value) in [(0, 0), (0, 32_769), (0, 3), (1, 8), (1, 16), (2, 66), (2, 60)] {
        is(forged(field, value).op(7, &[]), "7 7");
    }
    for (field, value) in [(3, 70), (3, 64), (4, 4), (6, 4), (8, 5), (9, 5), (4, 65_535)] {
        is(forged(field, value).op(105, &[w(0)]), "105 7");
    }
    // A shadow above 2 is no refusal, and values are taken modulo the width.
    for (field, value) in [(10, 3), (4, 65_536), (5, 2), (0, 65_540), (0, 4), (8, 0), (9, 0)] {
        assert!(forged(field, value).op(7, &[]).last_answer().starts_with("7 0 "));
    }
}

#[test]
fn bad_records_of_the_consumer() {
    let forged = |field, value| set(ring(4), 67, field, value);
    for op in [33, 36, 37, 38, 39, 42, 43, 45, 46] {
        is(forged(8, 5).op(op, &[]), &format!("{op} 7"));
    }
    is(forged(8, 5).op(40, &[b(0)]), "40 7");
    is(forged(8, 5).op(41, &[b(0), w(0)]), "41 7");
    is(forged(8, 5).op(34, &[w(9), d(0)]), "34 7");
    is(forged(9, 65_535).op(37, &[]), "37 0 4 0 0 4");
    is(forged(8, 4).op(37, &[]), "37 0 0 4 1 4");
}

#[test]
fn an_area_past_the_largest_number_is_8() {
    let far = set(ring(4), 66, 1, u64::MAX - 15);
    is(far.clone().op(5, &[]), "5 8");
    is(far.clone().op(7, &[]), "7 0 4 0 0 4");
    is(far.clone().op(105, &[w(0)]), &format!("105 0 1 {}", u64::MAX - 15));
    is(far.clone().op(105, &[w(1)]), "105 0 0 0");
    is(set(far, 66, 2, u64::MAX - 3).op(7, &[]), "7 7");
    is(ring(4).op(105, &[w(3)]), "105 0 1 48");
    is(ring(4).op(105, &[w(4)]), "105 0 0 0");
}

#[test]
fn what_each_call_is_lent() {
    let answers = |place, number, op: u8, fields: &[Vec<u8>]| {
        let answer = lend(ring(4), all_but(place, number)).op(op, fields).last_answer();
        answer.split(' ').nth(1).unwrap().parse::<u64>().unwrap()
    };
    let one = [q(0), d(0), b(0)];
    assert_eq!([0, 1, 2, 3, 4, 5].map(|place| answers(place, 3, 1, &one)), [8, 8, 8, 0, 0, 0]);
    assert_eq!([0, 1, 2, 3, 4, 5].map(|place| answers(place, 3, 5, &[])), [8, 8, 8, 3, 3, 3]);
    assert_eq!([0, 1, 2, 3, 4, 5].map(|place| answers(place, 3, 6, &[])), [0, 8, 8, 0, 0, 0]);
    for op in [7, 8, 9, 37, 38, 39] {
        assert!((0..6).all(|place| answers(place, 0, op, &[]) == 0));
    }
    for op in [11, 12, 14, 36, 42, 43, 45] {
        assert_eq!(answers(0, 71, op, &[]), 8);
        assert!((1..6).all(|place| answers(place, 0, op, &[]) == 0));
    }
    assert_eq!([0, 3, 4, 5].map(|place| answers(place, 3, 33, &[])), [8; 4]);
    assert_eq!([1, 2].map(|place| answers(place, 3, 33, &[])), [3; 2]);
    assert_eq!(answers(3, 3, 41, &[b(0), w(0)]), 8);
    assert_eq!(answers(0, 0, 41, &[b(0), w(0)]), 0);
    assert_eq!([0, 1, 2].map(|place| answers(place, 3, 15, &[])), [8; 3]);
    assert_eq!([0, 3].map(|place| answers(place, 3, 46, &[])), [8; 2]);
    assert_eq!([0, 3].map(|place| answers(place, 3, 34, &[w(9), d(0)])), [8; 2]);
}

#[test]
fn polls_3_then_2_then_5() {
    let id_9 = ring(4).overwrite(12, &[9, 0]);
    is(flags(id_9.clone(), 0, INDIRECT).op(33, &[]), "33 3");
    is(flags(id_9.clone(), 0, 0x8080 | INDIRECT).op(33, &[]), "33 3");
    is(flags(id_9.clone(), 0, AVAILABLE | INDIRECT).op(33, &[]), "33 2");
    let writable = flags(id_9.clone(), 0, AVAILABLE | WRITE | NEXT);
    is(writable.clone().op(33, &[]), "33 2");
    is(flags(writable.clone(), 1, WRITE | INDIRECT).op(33, &[]), "33 2");
    is(flags(writable, 1, WRITE).op(33, &[]), "33 5");
    is(flags(id_9, 0, AVAILABLE).op(33, &[]), "33 5");
    // The head's ID counts, the reserved bits and the tails' marks do not.
    let chain = flags(flags(ring(4), 0, AVAILABLE | NEXT | 0x7F78), 1, 0x8080 | WRITE);
    let chain = chain.overwrite(12, &[2, 0]).overwrite(28, &[77, 0]);
    is(chain.clone().op(33, &[]), "33 0 2 2 1 0 0 0 0");
    is(entry(chain.clone(), 2, 2, 1).op(33, &[]), "33 5");
    is(set(chain.clone(), 67, 8, 3).op(33, &[]), "33 5");
    is(set(chain, 67, 8, 2).op(33, &[]).op(37, &[]), "37 0 0 4 1 4");
}

#[test]
fn a_poll_leaves_the_rest_of_its_outputs() {
    let trace = ring(4).submit(2, 1).op(33, &[]).op(72, &[w(0), w(3)]);
    is(trace, &format!("72 0 0 0 1 1 {} {}", u64::MAX, u32::MAX));
}

#[test]
fn completions_3_and_5() {
    let used = |id: u8| ring(4).overwrite(8, &[6, 0, 0, 0, id, 0, 0x80, 0x80]);
    is(flags(used(0), 0, AVAILABLE).op(5, &[]), "5 3");
    is(used(4).op(5, &[]), "5 5");
    is(used(0).op(5, &[]), "5 5");
    let counted = entry(used(0), 1, 0, 2);
    is(set(counted.clone(), 66, 8, 3).op(5, &[]), "5 5");
    let room = set(counted, 66, 8, 2);
    is(room.clone().op(5, &[]), "5 5");
    let room = set(room, 66, 9, 3).op(5, &[]);
    is(room.clone(), "5 0 0 6");
    is(room.clone().op(9, &[]), "9 0 2 1");
    is(room.op(73, &[b(0), w(0), w(5)]), "73 0 0 1 2 0 65535");
    let polled = entry(ring(4), 2, 1, 3);
    is(polled.clone().op(34, &[w(1), d(0)]), "34 5");
    is(set(polled, 67, 8, 3).op(34, &[w(1), d(0)]).op(39, &[]), "39 0 3 1");
    is(ring(4).op(34, &[w(4), d(0)]), "34 5");
}

#[test]
fn rollbacks() {
    let two = ring(4).submit(2, 1).submit_one().op(40, &[b(1)]).op(33, &[]).op(33, &[]);
    let back = |trace: &Trace, reg: u8, ids: &[u16]| {
        let ids_then = ids.iter().flat_map(|&id| w(id)).collect();
        trace.clone().op(41, &[b(reg), w(ids.len() as u16), ids_then])
    };
    let expect = |reg, ids: &[u16], status| is(back(&two, reg, ids), &format!("41 {status}"));
    expect(1, &[3, 2], 0);
    expect(1, &[2, 3], 0);
    expect(1, &[], 9);
    expect(1, &[3], 9);
    expect(1, &[3, 3], 9);
    expect(1, &[3, 2, 2], 9);
    expect(1, &[3, 1], 9);
    expect(1, &[3, 4], 9);
    let after = back(&two, 1, &[3, 2]);
    is(after.clone().op(37, &[]), "37 0 4 0 0 4");
    is(after.clone().op(38, &[]), "38 0 0 1");
    is(after.op(73, &[b(2), w(0), w(4)]), "73 0 0 0 0 0");
    let moved = two.clone().op(34, &[w(2), d(0)]);
    is(back(&moved, 1, &[3]), "41 9");
    let at = |head: u16, used: u16, held: u16| {
        let fields = [b(7), w(head), b(1), w(used), b(1), w(held)];
        back(&two.clone().op(70, &fields), 7, &[2])
    };
    is(at(2, 0, 2), "41 0");
    is(at(2, 1, 2), "41 9");
    is(at(1, 0, 2), "41 9");
    is(at(2, 0, 3), "41 9");
    is(at(2, 0, 65_535), "41 9");
    is(at(4, 0, 2), "41 7");
    is(at(2, 4, 2), "41 7");
}

#[test]
fn events_keep_what_they_must() {
    let noise = ring(4).overwrite(64, &[0x34, 0x92, 0xFE, 0xFF, 0x78, 0x56, 0xFD, 0xFF]);
    let words = |trace: Trace| trace.op(65, &[d(64), w(8)]).last_answer();
    // The shadow is ENABLE: nothing is written.
    assert_eq!(words(noise.clone().op(12, &[])), "65 0 52 146 254 255 120 86 253 255");
    assert_eq!(words(noise.clone().op(11, &[])), "65 0 52 146 253 255 120 86 253 255");
    assert_eq!(words(noise.clone().op(42, &[])), "65 0 52 146 254 255 120 86 253 255");
    assert_eq!(words(noise.clone().op(42, &[]).op(43, &[])), "65 0 52 146 254 255 120 86 252 255");
    let armed = noise.clone().op(13, &[w(0x8001), b(0)]);
    assert_eq!(words(armed), "65 0 1 0 254 255 120 86 253 255");
    let armed = noise.clone().op(45, &[]);
    assert_eq!(words(armed), "65 0 52 146 254 255 0 128 254 255");
    // A shadow of 3 says neither on nor off.
    let forged = set(noise.clone(), 66, 10, 3).op(12, &[]);
    assert_eq!(words(forged), "65 0 52 146 252 255 120 86 253 255");
    assert_eq!(words(noise.clone().op(15, &[])), "65 0 0 0 0 0 120 86 253 255");
    assert_eq!(words(noise.op(46, &[])), "65 0 52 146 254 255 0 0 0 0");
}

#[test]
fn notify_calls() {
    is(ring(4).op(10, &[w(4), b(1)]), "10 7");
    is(ring(4).op(10, &[w(3), b(1)]), "10 0 1");
    let one = [q(0), d(0), b(0)];
    let armed = |at: u16| ring(4).op(44, &[w(at), b(1)]).op(2, &one);
    is(armed(0), "2 0 3 1");
    is(armed(1), "2 0 3 0");
    is(armed(4), "2 0 3 0");
    is(ring(4).op(42, &[]).op(2, &one), "2 0 3 0");
    let polled = ring(4).op(14, &[]).op(1, &one).op(33, &[]);
    is(polled.op(35, &[w(3), d(1)]), "35 0 1");
    let alone = |size, old, new| ring(4).op(98, &[w(0), w(0), w(size), w(old), b(1), w(new), b(1)]);
    is(alone(0, 0, 0), "98 7");
    is(alone(4, 4, 0), "98 7");
    is(alone(4, 0, 4), "98 7");
    is(alone(65_535, 65_534, 3), "98 0 1");
}

#[test]
fn cursors_alone() {
    let step = |size, head| ring(4).op(96, &[w(size), w(head), b(1)]);
    is(step(4, 3), "96 0 0 0");
    is(step(32_768, 32_767), "96 0 0 0");
    is(step(0, 0), "96 7");
    is(step(32_769, 0), "96 7");
    is(step(4, 4), "96 7");
    let moved = |size, head, n| ring(4).op(97, &[w(size), w(head), b(1), w(n)]);
    is(moved(8, 6, 3), "97 0 1 0");
    is(moved(8, 6, 0), "97 0 6 1");
    is(moved(8, 6, 9), "97 7");
    is(moved(8, 8, 0), "97 7");
    is(moved(40_000, 0, 0), "97 7");
    is(moved(32_768, 1, 32_768), "97 0 1 0");
}

#[test]
fn chains_alone() {
    let check = |n, m, readable| ring(4).op(107, &[w(n), w(m), q(readable)]);
    is(check(3, 3, 3), "107 0");
    is(check(0, 0, 0), "107 0");
    is(check(3, 2, 0), "107 8");
    is(check(3, 3, 4), "107 8");
    for (op, part) in [(108, "0 1"), (109, "2 3"), (110, "0 1"), (111, "2 3")] {
        is(ring(4).op(op, &[w(4), q(2)]), &format!("{op} 0 {part}"));
        is(ring(4).op(op, &[w(4), q(5)]), &format!("{op} 0"));
        is(ring(4).op(op, &[w(4), q(u64::MAX)]), &format!("{op} 0"));
    }
    is(ring(4).op(108, &[w(2), q(2)]), "108 0 0 1");
    is(ring(4).op(109, &[w(2), q(0)]), "109 0 0 1");
}

#[test]
fn a_refused_opening_leaves_the_record() {
    let layout = |size: u16, table: u64| [w(size), q(table), q(64), q(68)];
    let one = ring(4).submit_one();
    is(one.clone().op(74, &layout(4, 8)).op(7, &[]), "7 0 3 1 0 4");
    is(one.clone().op(74, &layout(4, 8)), "74 6");
    is(one.clone().op(74, &layout(2, 0)).op(7, &[]), "7 0 2 0 0 2");
    is(lend(one.clone(), all_but(1, 1)).op(74, &layout(2, 0)), "74 8");
    is(lend(one.clone(), all_but(2, 1)).op(75, &layout(2, 0)), "75 0");
    is(lend(one.clone(), all_but(3, 1)).op(75, &layout(2, 0)), "75 8");
    is(lend(one.clone(), all_but(0, 71)).op(75, &layout(2, 0)), "75 6");
    is(one.op(74, &[w(4), q(u64::MAX - 15), q(64), q(68)]), "74 6");
}

#[test]
fn the_hash_four_bytes_at_a_time() {
    let bytes = first_bytes(77, 1003);
    let (mut plain, mut fours) = (Hash::new(), Hash::new());
    bytes.iter().for_each(|&x| plain.take(u64::from(x)));
    fours.take_bytes(&bytes);
    assert_eq!(plain.value(), fours.value());
}

/// Worked out apart from this program, number by number.
#[test]
fn two_hashes() {
    assert_eq!(lines(&ring(2).with(SEED, 7).bytes()), ["0 0 921245784"]);
    // Size 3,000, height 2,500 and the table at 2^64 - 16: 2,048 entries each.
    let forged = set(set(ring(2), 66, 0, 3000), 66, 9, 2500);
    let forged = set(forged, 66, 1, u64::MAX - 15);
    assert_eq!(lines(&forged.bytes())[3], "66 0 966852830");
}

/// The next number from a seed.
fn next(x: &mut u64, below: u64) -> u64 {
    *x = *x * 16807 % 2_147_483_647;
    *x / 64 % below
}

fn random_record(x: &mut u64) -> Vec<u8> {
    let ops = [1, 3, 4, 5, 11, 12, 14, 15, 33, 34, 35, 40, 41, 44, 46, 64, 66, 67, 68, 69, 71, 74];
    let op = ops[next(x, ops.len() as u64) as usize];
    let mut small = |below| next(x, below) as u16;
    let fields = match op {
        1 => vec![q(5), d(6), b(small(2) as u8)],
        3 | 4 => {
            let n = small(4);
            vec![w(n), w(small(4)), vec![1; 12 * usize::from(n)]]
        }
        34 | 35 => vec![w(small(5)), d(9)],
        40 => vec![b(small(2) as u8)],
        41 => vec![b(small(2) as u8), w(1), w(small(5))],
        44 => vec![w(small(5)), b(1)],
        64 => vec![d(u32::from(small(68))), w(2), w(small(65_535))],
        66 | 67 => vec![b(small(10) as u8), q(u64::from(small(9)) * 4 / 5)],
        68 => vec![b(small(3) as u8), w(small(4)), w(small(6))],
        69 => (0..6).map(|place| d(if place == small(30) { 3 } else { 99 })).collect(),
        71 => vec![w(1), w(small(2)), q(0), vec![0; 12]],
        74 => vec![w(small(6)), q(0), q(64), q(68)],
        _ => vec![],
    };
    [vec![op], fields.concat()].concat()
}

/// "Every refusal hands back its number and the record unchanged, and no lent
/// byte or number differs."
#[test]
fn nothing_differs_after_a_refusal() {
    let opening = ring(4).bytes();
    let fresh = || World::open(&header(&mut Input::new(&opening)).unwrap()).ok().unwrap();
    let (mut x, mut seen) = (1, [0; 10]);
    for _ in 0..800 {
        let mut world = fresh();
        for _ in 0..25 {
            let bytes = random_record(&mut x);
            let call = record(&mut Input::new(&bytes), 72).unwrap().call;
            let before = world.clone();
            match answer(&mut world, &call) {
                Ok(_) => seen[0] += 1,
                Err(refusal) => {
                    seen[refusal.number() as usize] += 1;
                    assert!(world == before, "{bytes:?}");
                    assert_eq!(hash::of(&world), hash::of(&before));
                }
            }
        }
    }
    assert!(seen.iter().all(|&times| times > 0), "{seen:?}");
}
