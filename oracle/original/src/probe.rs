// SPDX-License-Identifier: Apache-2.0

//! Stands in ring.rs where the submodule `canonical` stood, and so sees its
//! parent's private items: it hands them out and adds nothing to the ring.

use super::*;

pub fn cursor(size: u16, head: u16, wrap: bool) -> RingCursor {
    RingCursor { head, size, wrap }
}

pub fn step(mut cursor: RingCursor) -> RingCursor {
    cursor.advance();
    cursor
}

pub fn moved_by(mut cursor: RingCursor, n: u16) -> RingCursor {
    cursor.advance_by(n);
    cursor
}

pub fn notify(evt: EventSuppression, size: u16, old: RingCursor, new: RingCursor) -> bool {
    should_notify(evt, size, old, new)
}

/// The chain that `BufferChainBuilder` never builds; `submit_available` has
/// an answer for it all the same.
pub fn empty_chain() -> BufferChain {
    BufferChain { elems: ChainElems::new(), split: 0 }
}

/// The three values of a `Checkpoint`, which itself can't be copied.
#[derive(Clone, Copy, Debug)]
pub struct Saved {
    pub avail: RingCursor,
    pub used: RingCursor,
    pub in_flight: usize,
}

pub fn checkpoint<M: MemOps>(consumer: &RingConsumer<M>) -> Saved {
    let cp = consumer.poll_checkpoint();
    Saved { avail: cp.avail_cursor, used: cp.used_cursor, in_flight: cp.num_inflight }
}

pub fn rollback<M: MemOps>(consumer: &mut RingConsumer<M>, saved: Saved, ids: Vec<u16>) {
    let cp = Checkpoint {
        avail_cursor: saved.avail,
        used_cursor: saved.used,
        num_inflight: saved.in_flight,
    };
    consumer.rollback_polls(cp, ids);
}

/// What `rollback_polls` only asserts, and that its indexing stays in bounds.
pub fn rollback_is_sound<M: MemOps>(consumer: &RingConsumer<M>, saved: Saved, ids: &[u16]) -> bool {
    let mut counts = consumer.id_num.to_vec();
    let mut sum = 0;
    for id in ids {
        match counts.get_mut(*id as usize) {
            None | Some(0) => return false,
            Some(count) => sum += core::mem::take(count) as usize,
        }
    }
    sum <= counts.len()
        && consumer.used_cursor == saved.used
        && consumer.num_inflight == saved.in_flight + sum
        && consumer.avail_cursor == moved_by(saved.avail, sum as u16)
}

/// A producer's numbers in the order in which a trace's hash takes them.
pub fn producer_numbers<M>(p: &RingProducer<M>) -> Vec<u64> {
    let mut numbers = geometry(&p.desc_table, p.drv_evt_addr, p.dev_evt_addr);
    numbers.extend(cursors(p.avail_cursor, p.used_cursor));
    numbers.extend([p.num_free as u64, u64::from(p.event_flags_shadow.bits())]);
    numbers.push(p.id_free.len() as u64);
    numbers.extend(p.id_free.iter().map(|id| u64::from(*id)));
    numbers.extend(p.id_num.iter().map(|n| u64::from(*n)));
    numbers
}

/// A consumer's numbers in the order in which a trace's hash takes them.
pub fn consumer_numbers<M>(c: &RingConsumer<M>) -> Vec<u64> {
    let mut numbers = geometry(&c.desc_table, c.drv_evt_addr, c.dev_evt_addr);
    numbers.extend(cursors(c.avail_cursor, c.used_cursor));
    numbers.extend([c.num_inflight as u64, u64::from(c.event_flags_shadow.bits())]);
    numbers.extend(c.id_num.iter().map(|n| u64::from(*n)));
    numbers
}

fn geometry(table: &DescTable, driver: u64, device: u64) -> Vec<u64> {
    vec![table.len() as u64, table.base_addr(), driver, device]
}

fn cursors(avail: RingCursor, used: RingCursor) -> [u64; 4] {
    [u64::from(avail.head), u64::from(avail.wrap), u64::from(used.head), u64::from(used.wrap)]
}

pub fn producer_chain_counts<M>(p: &RingProducer<M>) -> &[u16] {
    &p.id_num
}

pub fn consumer_chain_counts<M>(c: &RingConsumer<M>) -> &[u16] {
    &c.id_num
}

/// Sets a field of the producer by its number in record 66; the geometry
/// stays as `new` made it.
pub fn set_producer<M>(p: &mut RingProducer<M>, field: u64, value: u64) -> bool {
    match field {
        4 => p.avail_cursor.head = value as u16,
        5 => p.avail_cursor.wrap = value % 2 == 1,
        6 => p.used_cursor.head = value as u16,
        7 => p.used_cursor.wrap = value % 2 == 1,
        8 => p.num_free = value as u16 as usize,
        9 => p.id_free.truncate(value as u16 as usize),
        _ => return false,
    }
    true
}

/// Sets a field of the consumer by its number in record 67.
pub fn set_consumer<M>(c: &mut RingConsumer<M>, field: u64, value: u64) -> bool {
    match field {
        4 => c.avail_cursor.head = value as u16,
        5 => c.avail_cursor.wrap = value % 2 == 1,
        6 => c.used_cursor.head = value as u16,
        7 => c.used_cursor.wrap = value % 2 == 1,
        8 => c.num_inflight = value as u16 as usize,
        _ => return false,
    }
    true
}

/// The table of record 68 with this number.
pub fn table<'a, M>(
    table: u64,
    p: &'a mut RingProducer<M>,
    c: &'a mut RingConsumer<M>,
) -> &'a mut [u16] {
    match table {
        0 => &mut p.id_free,
        1 => &mut p.id_num,
        _ => &mut c.id_num,
    }
}
