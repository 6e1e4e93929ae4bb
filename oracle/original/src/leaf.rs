// SPDX-License-Identifier: Apache-2.0

//! The records that do not touch the ring: cursors, flags, descriptors and
//! events by themselves.

use format::{Answer, Record};

use crate::virtq::desc::{DescFlags, Descriptor};
use crate::virtq::event::{EventFlags, EventSuppression};
use crate::virtq::ring::RingCursor;
use crate::virtq::ring::probe;

pub fn answer(r: &Record) -> Answer {
    match r.op {
        96 => cursor_values(probe::step(cursor(r))),
        97 => cursor_values(probe::moved_by(cursor(r), r.half(3))),
        98 => notify(r),
        99 | 100 => encode(r),
        101 => flag_tests(r),
        102 => {
            let mut event = event(r);
            event.set_flags(EventFlags::from_bits_truncate(r.half(2)));
            words(event)
        }
        103 => {
            let mut event = event(r);
            event.set_desc_event(r.half(2), r.flag(3));
            words(event)
        }
        104 => {
            let event = event(r);
            Answer::good([
                u64::from(event.desc_event_off()),
                u64::from(event.desc_event_wrap()),
                u64::from(event.flags().bits()),
            ])
        }
        _ => decode(r),
    }
}

pub fn cursor_values(cursor: RingCursor) -> Answer {
    Answer::good([u64::from(cursor.head()), u64::from(cursor.wrap())])
}

fn cursor(r: &Record) -> RingCursor {
    probe::cursor(r.half(0), r.half(1), r.flag(2))
}

fn notify(r: &Record) -> Answer {
    let size = r.half(2);
    let old = probe::cursor(size, r.half(3), r.flag(4));
    let new = probe::cursor(size, r.half(5), r.flag(6));
    Answer::good([u64::from(probe::notify(event(r), size, old, new))])
}

fn encode(r: &Record) -> Answer {
    let mut desc = Descriptor { addr: r.num(0), len: r.word(1), id: r.half(2), flags: r.half(3) };
    if r.op == 99 {
        desc.mark_avail(r.flag(4));
    } else {
        desc.mark_used(r.flag(4));
    }
    let bytes: Vec<u64> = bytemuck::bytes_of(&desc).iter().map(|b| u64::from(*b)).collect();
    Answer::good(bytes)
}

fn flag_tests(r: &Record) -> Answer {
    let flags = DescFlags::from_bits_truncate(r.half(0));
    let tests = [
        flags.is_avail(r.flag(1)),
        flags.is_used(r.flag(1)),
        flags.contains(DescFlags::NEXT),
        flags.contains(DescFlags::WRITE),
        flags.contains(DescFlags::INDIRECT),
    ];
    Answer::good(tests.map(u64::from))
}

/// The event with the words of the record's first two fields, reserved bits
/// and all, which no constructor of the original takes.
fn event(r: &Record) -> EventSuppression {
    let [a, b] = r.half(0).to_le_bytes();
    let [c, d] = r.half(1).to_le_bytes();
    bytemuck::pod_read_unaligned(&[a, b, c, d])
}

fn words(event: EventSuppression) -> Answer {
    let bytes = bytemuck::bytes_of(&event);
    let word = |i: usize| u64::from(u16::from_le_bytes([bytes[i], bytes[i + 1]]));
    Answer::good([word(0), word(2)])
}

fn decode(r: &Record) -> Answer {
    let bytes: Vec<u8> = r.nums.iter().map(|n| *n as u8).collect();
    let desc: Descriptor = bytemuck::pod_read_unaligned(&bytes);
    Answer::good([desc.addr, u64::from(desc.len), u64::from(desc.id), u64::from(desc.flags)])
}
