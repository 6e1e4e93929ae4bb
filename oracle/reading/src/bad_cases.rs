//! The trace format's last paragraph: what is `bad`, and what is not.

use crate::traces::*;

/// The trace's one record is bad, answered or passed over.
fn assert_bad(op: u8, fields: &[Vec<u8>]) {
    let trace = ring(4).op(op, fields);
    let lines_of = lines(&trace.bytes());
    assert_eq!(lines_of.len(), 2, "op {op}");
    assert_eq!(lines_of[1], "bad", "op {op}");
    let refused = trace.with(TABLE, 8);
    assert_eq!(lines(&refused.bytes()), ["0 6 0", "bad"], "op {op}, passed over");
}

/// The trace's one record is answered; passed over, it says nothing.
fn assert_read(op: u8, fields: &[Vec<u8>]) {
    let trace = ring(4).op(op, fields);
    assert!(trace.last_answer().starts_with(&format!("{op} ")), "op {op}");
    assert_eq!(lines(&trace.with(TABLE, 8).bytes()), ["0 6 0"], "op {op}");
}

#[test]
fn headers() {
    let good = ring(4);
    assert_eq!(lines(&good.clone().with(0, 1).bytes()), ["bad"]);
    assert_eq!(lines(&good.clone().with(REGION, 65_537).bytes()), ["bad"]);
    assert_eq!(lines(&good.clone().with(SIZE, 65_536).bytes()), ["bad"]);
    assert_eq!(lines(&good.clone().with(SIZE, 65_535).bytes()), ["0 6 0"]);
    assert!(lines(&good.clone().with(REGION, 65_536).bytes())[0].starts_with("0 0 "));
    assert!(lines(&good.clone().with(9, 77).bytes())[0].starts_with("0 0 "));
    for length in 1..40 {
        assert_eq!(lines(&good.bytes()[..length]), ["bad"]);
    }
    assert_eq!(lines(&[]), Vec::<String>::new());
}

#[test]
fn openings_refused_with_6() {
    let refused = |trace: Trace| assert_eq!(lines(&trace.bytes()), ["0 6 0"]);
    refused(ring(4).with(TABLE, 8).with(REGION, 200));
    refused(ring(4).with(DRIVER, 66));
    refused(ring(4).with(DEVICE, 70));
    refused(ring(4).with(REGION, 71));
    refused(ring(4).with(DRIVER, 60));
    refused(ring(4).with(DEVICE, 0));
    refused(ring(4).with(DEVICE, 64));
    refused(ring(4).with(TABLE, u32::MAX - 15));
}

#[test]
fn unknown_ops() {
    for op in 0..=255 {
        let known = matches!(op, 1..=15 | 33..=46 | 64..=75 | 96..=111);
        if !known {
            assert_bad(op, &[vec![0; 64]]);
        }
    }
}

/// Each op with the fewest bytes of its fields, all of them 0.
const LENGTHS: [(u8, usize); 57] = [
    (1, 13),
    (2, 13),
    (3, 4),
    (4, 4),
    (5, 0),
    (6, 0),
    (7, 0),
    (8, 0),
    (9, 0),
    (10, 3),
    (11, 0),
    (12, 0),
    (13, 3),
    (14, 0),
    (15, 0),
    (33, 0),
    (34, 6),
    (35, 6),
    (36, 0),
    (37, 0),
    (38, 0),
    (39, 0),
    (40, 1),
    (41, 3),
    (42, 0),
    (43, 0),
    (44, 3),
    (45, 0),
    (46, 0),
    (64, 6),
    (65, 6),
    (66, 9),
    (67, 9),
    (68, 5),
    (69, 24),
    (70, 9),
    (71, 12),
    (72, 4),
    (73, 5),
    (74, 26),
    (75, 26),
    (96, 5),
    (97, 7),
    (98, 12),
    (99, 17),
    (100, 17),
    (101, 3),
    (102, 6),
    (103, 7),
    (104, 4),
    (105, 2),
    (106, 16),
    (107, 12),
    (108, 10),
    (109, 10),
    (110, 10),
    (111, 10),
];

#[test]
fn cut_records() {
    for (op, length) in LENGTHS {
        assert_read(op, &[vec![0; length]]);
        for cut in 0..length {
            assert_bad(op, &[vec![0; cut]]);
        }
    }
}

#[test]
fn cut_lists() {
    assert_bad(3, &[w(1), w(0), q(0), vec![0; 3]]);
    assert_bad(41, &[b(0), w(2), w(0), b(0)]);
    assert_bad(64, &[d(0), w(2), b(0)]);
    assert_bad(71, &[w(1), w(1), q(0), q(0), vec![0; 3]]);
    assert_bad(71, &[w(0), w(1), q(0), vec![0; 3]]);
    assert_read(71, &[w(2), w(1), q(0), q(0), q(0), d(0)]);
    assert_read(71, &[w(1), w(2), q(0), q(0), d(0), d(0)]);
}

#[test]
fn fewer_records_than_the_header_says() {
    let trace = ring(4).op(7, &[]).with(RECORDS, 2);
    let lines_of = lines(&trace.bytes());
    assert_eq!(lines_of[1..], ["7 0 4 0 0 4 0", "bad"]);
}

#[test]
fn wrap_and_flag_bytes() {
    assert_bad(1, &[q(0), d(0), b(2)]);
    assert_bad(2, &[q(0), d(0), b(2)]);
    for op in [10, 13, 44] {
        assert_bad(op, &[w(0), b(2)]);
        assert_read(op, &[w(0), b(1)]);
    }
    assert_bad(70, &[b(0), w(0), b(2), w(0), b(0), w(0)]);
    assert_bad(70, &[b(0), w(0), b(0), w(0), b(2), w(0)]);
    assert_bad(96, &[w(1), w(0), b(2)]);
    assert_bad(97, &[w(1), w(0), b(2), w(0)]);
    assert_bad(98, &[w(0), w(0), w(1), w(0), b(2), w(0), b(0)]);
    assert_bad(98, &[w(0), w(0), w(1), w(0), b(0), w(0), b(2)]);
    assert_bad(99, &[q(0), d(0), w(0), w(0), b(2)]);
    assert_bad(100, &[q(0), d(0), w(0), w(0), b(255)]);
    assert_bad(101, &[w(0), b(2)]);
    assert_bad(103, &[w(0), w(0), w(0), b(2)]);
}

#[test]
fn past_the_region_and_the_tables() {
    // The region has 72 bytes.
    assert_read(64, &[d(71), w(1), b(1)]);
    assert_read(64, &[d(72), w(0)]);
    assert_bad(64, &[d(72), w(1), b(1)]);
    assert_bad(64, &[d(73), w(0)]);
    assert_bad(64, &[d(u32::MAX), w(1), b(1)]);
    assert_read(65, &[d(0), w(72)]);
    assert_bad(65, &[d(1), w(72)]);
    assert_read(68, &[b(2), w(2047), w(9)]);
    assert_bad(68, &[b(2), w(2048), w(9)]);
    assert_read(72, &[w(2047), w(1)]);
    assert_read(72, &[w(2048), w(0)]);
    assert_bad(72, &[w(2048), w(1)]);
    assert_bad(72, &[w(2049), w(0)]);
    assert_read(73, &[b(0), w(0), w(2048)]);
    assert_bad(73, &[b(0), w(0), w(2049)]);
    assert_bad(73, &[b(0), w(65_535), w(4096)]);
}

#[test]
fn counts_above_4096() {
    assert_read(3, &[w(4096), w(0), vec![0; 4096 * 12]]);
    assert_bad(3, &[w(4097), w(0), vec![0; 4097 * 12]]);
    assert_bad(4, &[w(4097), w(0), vec![0; 4097 * 12]]);
    assert_read(3, &[w(0), w(65_535)]);
    assert_read(41, &[b(0), w(4096), vec![0; 8192]]);
    assert_bad(41, &[b(0), w(4097), vec![0; 8194]]);
    assert_bad(71, &[w(4097), w(0), q(0), vec![0; 4097 * 8]]);
    assert_bad(71, &[w(0), w(4097), q(0), vec![0; 4097 * 4]]);
    assert_read(71, &[w(0), w(0), q(u64::MAX)]);
    assert_read(97, &[w(1), w(0), b(0), w(65_535)]);
    assert_read(107, &[w(4096), w(4096), q(0)]);
    assert_bad(107, &[w(4097), w(0), q(0)]);
    assert_bad(107, &[w(0), w(4097), q(0)]);
    for op in 108..=111 {
        assert_read(op, &[w(4096), q(0)]);
        assert_bad(op, &[w(4097), q(0)]);
    }
    let large = ring(4).with(REGION, 65_536);
    let k_is_bad = large.clone().op(65, &[d(0), w(4097)]);
    assert_eq!(lines(&k_is_bad.bytes())[1], "bad");
    let k_is_read = large.op(65, &[d(0), w(4096)]);
    assert!(lines(&k_is_read.bytes())[1].starts_with("65 0 0 0"));
}

#[test]
fn fields_and_tables_that_are_not_there() {
    assert_read(66, &[b(10), q(0)]);
    assert_bad(66, &[b(11), q(0)]);
    assert_read(67, &[b(9), q(0)]);
    assert_bad(67, &[b(10), q(0)]);
    assert_bad(68, &[b(3), w(0), w(0)]);
    assert_bad(73, &[b(3), w(0), w(0)]);
}

#[test]
fn several_traces_and_what_was_answered_before() {
    let first = ring(4).submit_one().op(40, &[b(1)]);
    let second = ring(4).with(SIZE, 0).submit_one().op(7, &[]);
    let third = ring(2).op(7, &[]).op(255, &[]);
    let input = [first.bytes(), second.bytes(), third.bytes(), first.bytes()].concat();
    let answers: Vec<_> = lines(&input).iter().map(|line| without_hash(line)).collect();
    let expected = ["0 0", "1 0 3", "40 0 0 1 0 1 0", "0 6", "0 0", "7 0 2 0 0 2", "bad"];
    assert_eq!(answers, expected);
}

#[test]
fn hashes_only_where_they_are_asked_for() {
    let six = |every| {
        let ops = (0..6).fold(ring(2).with(HASH_EVERY, every), |trace, _| trace.op(7, &[]));
        let lines = lines(&ops.bytes());
        let hashed = |line: &String| !line.ends_with(" 0");
        lines.iter().map(hashed).collect::<Vec<_>>()
    };
    assert_eq!(six(0), [true, false, false, false, false, false, true]);
    assert_eq!(six(1), [true; 7]);
    assert_eq!(six(4), [true, false, false, false, true, false, true]);
    assert_eq!(six(7), [true, false, false, false, false, false, true]);
}
