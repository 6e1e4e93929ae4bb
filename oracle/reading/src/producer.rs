//! 01, "What each end does", Producer.
//!
//! What a call is lent stands in its parameters. 7 is one test of the whole
//! record, 8 one test of all that is lent.

use crate::chain::Chain;
use crate::cursor::{Cursor, FRESH};
use crate::event::{self, ENABLE};
use crate::layout::Layout;
use crate::notify::should_notify;
use crate::refuse::{
    count_of_completed, is_short, more, refuse_if, refuse_unless_unheld, Answer, Refusal,
};
use crate::slots::{is_used, marked_available, Descriptor};

/// The producer's record: it "goes in and comes back by value".
#[derive(Clone, Copy, PartialEq, Eq, Debug)]
pub struct Producer {
    pub layout: Layout,
    pub avail: Cursor,
    pub used: Cursor,
    pub num_free: u16,
    /// What this end last put into the driver event's flags.
    pub shadow: u16,
    /// The number of IDs on the stack of free IDs.
    pub height: u16,
}

/// "lent slices of 16-bit numbers, with the stack's height in the record".
pub struct Tables<'a> {
    pub free_ids: &'a mut [u16],
    pub counts: &'a mut [u16],
}

impl Tables<'_> {
    /// 8: "an ID table ... shorter than the size".
    fn are_short(&self, size: u16) -> bool {
        is_short(self.free_ids, size) || is_short(self.counts, size)
    }
}

impl Producer {
    pub fn size(&self) -> u16 {
        self.layout.size
    }

    /// 7: "stored geometry breaks 6, apart from fitting the lent bytes; a head
    /// not below the size ...; the record's own free ... or stack count above
    /// the size".
    fn is_bad(&self) -> bool {
        self.layout.is_broken()
            || self.avail.is_outside(self.size())
            || self.used.is_outside(self.size())
            || self.num_free > self.size()
            || self.height > self.size()
    }

    /// 7, then 8 of the bytes.
    fn test_bytes(&self, bytes: &[u8]) -> Answer<()> {
        refuse_if(self.is_bad(), Refusal::BadRecord)?;
        refuse_if(self.layout.is_outside(bytes.len()), Refusal::BadLent)
    }

    /// 7, then 8 of the tables.
    fn test_tables(&self, tables: &Tables) -> Answer<()> {
        refuse_if(self.is_bad(), Refusal::BadRecord)?;
        refuse_if(tables.are_short(self.size()), Refusal::BadLent)
    }

    /// 7, then 8 of both.
    fn test_all(&self, bytes: &[u8], tables: &Tables) -> Answer<()> {
        self.test_bytes(bytes)?;
        self.test_tables(tables)
    }
}

/// "Opening fills the first ring-size entries of the lent tables (counts 0,
/// the producer's stack 0 upward) and leaves later entries and every ring byte
/// alone". "Free IDs form a stack, 0 at the bottom".
fn fresh(layout: Layout, tables: &mut Tables) -> Producer {
    for id in 0..layout.size {
        tables.free_ids[usize::from(id)] = id;
        tables.counts[usize::from(id)] = 0;
    }
    Producer {
        layout,
        avail: FRESH,
        used: FRESH,
        num_free: layout.size,
        shadow: ENABLE,
        height: layout.size,
    }
}

/// "Order: 6, then 8 (tables only) at opening, which on refusal gives the
/// number alone".
pub fn open(layout: Layout, bytes: &[u8], mut tables: Tables) -> Answer<Producer> {
    refuse_if(layout.is_invalid(bytes.len()), Refusal::InvalidLayout)?;
    refuse_if(tables.are_short(layout.size), Refusal::BadLent)?;
    Ok(fresh(layout, &mut tables))
}

/// The ID on top of the stack; 4: "the free-ID stack is empty", then 5.
fn top_of_stack(p: &Producer, tables: &Tables) -> Answer<u16> {
    refuse_if(p.height == 0, Refusal::OutOfMemory)?;
    let id = tables.free_ids[usize::from(p.height) - 1];
    refuse_unless_unheld(id, p.size(), tables.counts)?;
    Ok(id)
}

/// "7, 8, then 1, 3, 4, 5 for submits". Gives the ID that the chain takes.
fn test_submit(p: &Producer, bytes: &[u8], tables: &Tables, chain: &Chain) -> Answer<u16> {
    p.test_all(bytes, tables)?;
    refuse_if(chain.is_bad(), Refusal::BadLent)?;
    refuse_if(chain.len() == 0, Refusal::EmptyChain)?;
    refuse_if(usize::from(p.num_free) < chain.len(), Refusal::WouldBlock)?;
    top_of_stack(p, tables)
}

/// Element i of a chain, stored at a cursor's slot as available in its round.
fn store_element(p: &Producer, bytes: &mut [u8], chain: &Chain, i: usize, id: u16, at: Cursor) {
    let descriptor = Descriptor {
        address: chain.addresses[i],
        length: chain.lengths[i],
        id,
        flags: marked_available(chain.element_flags(i), at.wrap),
    };
    p.layout.store_slot(bytes, at.head, descriptor);
}

/// "writes the tails and then the head, the same ID everywhere, NEXT on all
/// but the last".
fn store_chain(p: &Producer, bytes: &mut [u8], chain: &Chain, id: u16) {
    let mut at = p.avail;
    for i in 1..chain.len() {
        at = at.step(p.size());
        store_element(p, bytes, chain, i, id, at);
    }
    store_element(p, bytes, chain, 0, id, p.avail);
}

/// "A submission takes n free slots". The ID's entry of the stack stays where
/// it was, above the height.
pub fn submit(
    p: Producer,
    bytes: &mut [u8],
    tables: Tables,
    chain: Chain,
) -> Answer<(Producer, u16)> {
    let id = test_submit(&p, bytes, &tables, &chain)?;
    let n = chain.len() as u16;
    store_chain(&p, bytes, &chain, id);
    tables.counts[usize::from(id)] = n;
    let after = Producer {
        avail: p.avail.moved(p.size(), n),
        num_free: p.num_free - n,
        height: p.height - 1,
        ..p
    };
    Ok((after, id))
}

/// A submission, then whether the device is to be notified of it: the avail
/// cursor before and after it, against the device's event.
pub fn submit_with_notify(
    p: Producer,
    bytes: &mut [u8],
    tables: Tables,
    chain: Chain,
) -> Answer<(Producer, u16, bool)> {
    let (after, id) = submit(p, bytes, tables, chain)?;
    let device = event::load(bytes, after.layout.device_event);
    let notify = should_notify(device, after.size(), p.avail, after.avail);
    Ok((after, id, notify))
}

/// What poll_used is to do, when no test refuses it.
struct Completion {
    id: u16,
    length: u32,
    count: u16,
    num_free: u16,
    height: u16,
}

/// "7, 8, then 3, ... then 5 for polls". 3: "the looked-at slot is not used".
fn test_poll_used(p: &Producer, bytes: &[u8], tables: &Tables) -> Answer<Completion> {
    p.test_all(bytes, tables)?;
    let found = p.layout.load_slot(bytes, p.used.head);
    refuse_if(!is_used(found.flags, p.used.wrap), Refusal::WouldBlock)?;
    let count = count_of_completed(found.id, p.size(), tables.counts)?;
    // In-flight is the size without the free slots: it would fall below 0
    // exactly if the free slots would pass the size.
    let num_free = more(p.num_free, count, p.size())?;
    let height = more(p.height, 1, p.size())?;
    Ok(Completion { id: found.id, length: found.length, count, num_free, height })
}

/// "poll_used looks at the used cursor, takes the ID found there, frees that
/// ID's recorded count and moves by it." Gives the ID and the length.
pub fn poll_used(p: Producer, bytes: &[u8], tables: Tables) -> Answer<(Producer, u16, u32)> {
    let done = test_poll_used(&p, bytes, &tables)?;
    tables.counts[usize::from(done.id)] = 0;
    tables.free_ids[usize::from(p.height)] = done.id;
    let after = Producer {
        used: p.used.moved(p.size(), done.count),
        num_free: done.num_free,
        height: done.height,
        ..p
    };
    Ok((after, done.id, done.length))
}

/// "7, 8, then 4, 5 for next_id": the ID that the next submission takes.
pub fn next_id(p: Producer, tables: Tables) -> Answer<u16> {
    p.test_tables(&tables)?;
    top_of_stack(&p, &tables)
}

/// The record, where it is not bad: 7 for a call that is lent nothing.
fn sound(p: Producer) -> Answer<Producer> {
    refuse_if(p.is_bad(), Refusal::BadRecord)?;
    Ok(p)
}

/// num_free, num_inflight, is_full, len.
pub fn counts(p: Producer) -> Answer<[u16; 4]> {
    let p = sound(p)?;
    let is_full = p.num_free == 0;
    Ok([p.num_free, p.size() - p.num_free, u16::from(is_full), p.size()])
}

pub fn avail_cursor(p: Producer) -> Answer<Cursor> {
    Ok(sound(p)?.avail)
}

pub fn used_cursor(p: Producer) -> Answer<Cursor> {
    Ok(sound(p)?.used)
}

/// The table's own offset and size, by value.
pub fn desc_table(p: Producer) -> Answer<Layout> {
    Ok(sound(p)?.layout)
}

/// 7 also for "a head not below the size ... in an old cursor ... that is
/// handed in"; the device's event is asked from there to the avail cursor.
pub fn should_notify_since(p: Producer, bytes: &[u8], old: Cursor) -> Answer<bool> {
    refuse_if(p.is_bad() || old.is_outside(p.size()), Refusal::BadRecord)?;
    p.test_bytes(bytes)?;
    let device = event::load(bytes, p.layout.device_event);
    Ok(should_notify(device, p.size(), old, p.avail))
}

/// disable_used_notifications (DISABLE) and enable_used_notifications (ENABLE).
pub fn turn_used_notifications(p: Producer, bytes: &mut [u8], flags: u16) -> Answer<Producer> {
    p.test_bytes(bytes)?;
    let shadow = event::turn(bytes, p.layout.driver_event, p.shadow, flags);
    Ok(Producer { shadow, ..p })
}

/// enable_used_notifications_desc: armed at a slot.
pub fn arm_used_notifications(
    p: Producer,
    bytes: &mut [u8],
    offset: u16,
    wrap: bool,
) -> Answer<Producer> {
    p.test_bytes(bytes)?;
    let shadow = event::arm(bytes, p.layout.driver_event, offset, wrap);
    Ok(Producer { shadow, ..p })
}

/// enable_used_notifications_for_next: armed at the used cursor.
pub fn arm_for_next_used(p: Producer, bytes: &mut [u8]) -> Answer<Producer> {
    arm_used_notifications(p, bytes, p.used.head, p.used.wrap)
}

/// "reset zeroes the table and the driver event, then everything is fresh."
pub fn reset(p: Producer, bytes: &mut [u8], mut tables: Tables) -> Answer<Producer> {
    p.test_all(bytes, &tables)?;
    p.layout.zero_table(bytes);
    event::zero(bytes, p.layout.driver_event);
    Ok(fresh(p.layout, &mut tables))
}
