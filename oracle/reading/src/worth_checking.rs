//! 01, "Slots worth checking".

use crate::cursor::{Cursor, FRESH};
use crate::event::{Event, DESC};
use crate::notify::should_notify;
use crate::slots::{encode, marked_available, marked_used, Descriptor, NEXT, WRITE};
use crate::traces::*;

fn at(head: u16, wrap: bool) -> Cursor {
    Cursor { head, wrap }
}

fn available(round: bool) -> [u8; 16] {
    let flags = marked_available(WRITE, round);
    encode(Descriptor { address: 0x1122334455667788, length: 64, id: 3, flags })
}

fn used(round: bool) -> [u8; 16] {
    let flags = marked_used(0, round);
    encode(Descriptor { address: 0, length: 5, id: 3, flags })
}

/// DESC, awaited at (offset, wrap), in a ring of size 8.
fn notifies(offset: u16, wrap: bool, old: Cursor, new: Cursor) -> bool {
    let event = Event { first: 0, second: DESC }.with_slot(offset, wrap);
    should_notify(event, 8, old, new)
}

#[test]
fn d1_available_in_round_true() {
    let bytes = [0x88, 0x77, 0x66, 0x55, 0x44, 0x33, 0x22, 0x11, 0x40, 0, 0, 0, 0x03, 0, 0x82, 0];
    assert_eq!(available(true), bytes);
}

#[test]
fn d2_available_in_round_false() {
    assert_eq!(available(false)[..14], available(true)[..14]);
    assert_eq!(available(false)[14..], [0x02, 0x80]);
}

#[test]
fn d3_used_in_round_true() {
    let bytes = [0, 0, 0, 0, 0, 0, 0, 0, 5, 0, 0, 0, 3, 0, 0x80, 0x80];
    assert_eq!(used(true), bytes);
}

#[test]
fn d4_used_in_round_false() {
    assert_eq!(used(false)[14..], [0, 0]);
}

#[test]
fn d5_size_1_one_step() {
    assert_eq!(FRESH.step(1), at(0, false));
}

#[test]
fn d6_over_the_end() {
    assert_eq!(at(6, true).moved(8, 3), at(1, false));
}

#[test]
fn d7_by_the_size() {
    assert_eq!(at(3, true).moved(8, 8), at(3, false));
}

#[test]
fn d8_to_d11_notify_over_the_end() {
    let (old, new) = (at(6, true), at(1, false));
    assert!(notifies(6, true, old, new));
    assert!(!notifies(1, false, old, new));
    assert!(notifies(6, false, old, new));
    assert!(notifies(5, true, old, new));
}

#[test]
fn d12_a_whole_round() {
    assert!(!notifies(3, true, at(3, true), at(3, false)));
}

#[test]
fn size_1_head_with_next() {
    let flags = marked_available(NEXT, true);
    let head = Descriptor { address: 9, length: 7, id: 0, flags };
    let trace = ring(1).overwrite(0, &encode(head)).op(33, &[]).op(38, &[]);
    assert_eq!(trace.answers()[1..], ["33 2", "38 0 0 1"]);
}

#[test]
fn size_1_head_without_next() {
    let flags = marked_available(0, true);
    let head = Descriptor { address: 9, length: 7, id: 0, flags };
    let trace = ring(1).overwrite(0, &encode(head)).op(33, &[]).op(38, &[]);
    assert_eq!(trace.answers()[1..], ["33 0 0 1 1 9 7", "38 0 0 0"]);
}

#[test]
fn size_4_chain_of_four() {
    let trace = ring(4).submit(4, 2).op(33, &[]).op(38, &[]);
    let polled = "33 0 3 4 2 0 0 1 1 2 2 3 3";
    assert_eq!(trace.answers(), ["3 0 3", polled, "38 0 0 0"]);
}

#[test]
fn size_4_next_on_the_fourth() {
    // The fourth slot's flags are at 62: AVAIL, WRITE and now NEXT.
    let trace = ring(4).submit(4, 2).overwrite(62, &[0x83, 0]).op(33, &[]).op(38, &[]);
    assert_eq!(trace.answers()[2..], ["33 2", "38 0 0 1"]);
}

#[test]
fn size_4_first_submission() {
    assert_eq!(ring(4).submit_one().answers(), ["1 0 3"]);
}

#[test]
fn size_4_four_submissions() {
    let four = ring(4).submit_one().submit_one().submit_one().submit_one();
    let trace = four.op(6, &[]).submit_one();
    let answers = ["1 0 3", "1 0 2", "1 0 1", "1 0 0", "6 4", "1 3"];
    assert_eq!(trace.answers(), answers);
}

#[test]
fn sizes_at_opening() {
    use crate::layout::Layout;
    use crate::producer::{open, Tables};
    use crate::refuse::Refusal::InvalidLayout;
    let bytes = vec![0; 16 * 32_769 + 8];
    let try_size = |size: u16| {
        let end = 16 * 32_769;
        let layout = Layout { size, table: 0, driver_event: end, device_event: end + 4 };
        let (free_ids, counts) = (&mut vec![7; 32_769][..], &mut vec![7; 32_769][..]);
        open(layout, &bytes, Tables { free_ids, counts }).map(|p| p.num_free)
    };
    assert_eq!(try_size(0), Err(InvalidLayout));
    assert_eq!(try_size(1), Ok(1));
    assert_eq!(try_size(32_768), Ok(32_768));
    assert_eq!(try_size(32_769), Err(InvalidLayout));
}

#[test]
fn sizes_in_a_trace() {
    assert_eq!(lines(&ring(0).bytes()), ["0 6 0"]);
    assert_eq!(lines(&ring(2049).bytes()), ["0 8 0"]);
    assert_eq!(lines(&ring(32_768).with(REGION, 65_536).bytes()), ["0 6 0"]);
    assert!(lines(&ring(2048).bytes())[0].starts_with("0 0 "));
}

#[test]
fn a_completion_for_an_id_already_completed() {
    let polled = ring(4).submit_one().op(33, &[]);
    let trace = polled.op(34, &[w(3), d(5)]).op(34, &[w(3), d(5)]);
    assert_eq!(trace.answers()[2..], ["34 0", "34 5"]);
    // The same slot looked at again, once its ID is free.
    let again = trace.op(5, &[]).overwrite(16, &used(true)).op(5, &[]);
    assert_eq!(again.answers()[4..], ["5 0 3 5", "64 0", "5 5"]);
}
