//! 01, "What each end does", Consumer.
//!
//! What a call is lent stands in its parameters. 7 is one test of the whole
//! record, 8 one test of all that is lent.

use crate::cursor::{Cursor, FRESH};
use crate::event::{self, ENABLE};
use crate::layout::Layout;
use crate::notify::should_notify;
use crate::refuse::{
    count_of_completed, is_short, less, more, refuse_if, refuse_unless_unheld, Answer, Refusal,
};
use crate::slots::{has, is_available, marked_used, Descriptor, INDIRECT, NEXT, WRITE};

/// The consumer's record: it "goes in and comes back by value".
#[derive(Clone, Copy, PartialEq, Eq, Debug)]
pub struct Consumer {
    pub layout: Layout,
    pub avail: Cursor,
    pub used: Cursor,
    pub num_inflight: u16,
    /// What this end last put into the device event's flags.
    pub shadow: u16,
}

/// The two poll outputs.
pub struct Outputs<'a> {
    pub addresses: &'a mut [u64],
    pub lengths: &'a mut [u32],
}

impl Outputs<'_> {
    /// 8: "a ... poll output shorter than the size".
    fn are_short(&self, size: u16) -> bool {
        is_short(self.addresses, size) || is_short(self.lengths, size)
    }
}

impl Consumer {
    pub fn size(&self) -> u16 {
        self.layout.size
    }

    /// 7: "stored geometry breaks 6, apart from fitting the lent bytes; a head
    /// not below the size ...; the record's own ... in-flight ... count above
    /// the size".
    pub fn is_bad(&self) -> bool {
        self.layout.is_broken()
            || self.avail.is_outside(self.size())
            || self.used.is_outside(self.size())
            || self.num_inflight > self.size()
    }

    /// 7, then 8 of the bytes.
    fn test_bytes(&self, bytes: &[u8]) -> Answer<()> {
        refuse_if(self.is_bad(), Refusal::BadRecord)?;
        refuse_if(self.layout.is_outside(bytes.len()), Refusal::BadLent)
    }

    /// 7, then 8 of the bytes and the counts.
    fn test_all(&self, bytes: &[u8], counts: &[u16]) -> Answer<()> {
        self.test_bytes(bytes)?;
        refuse_if(is_short(counts, self.size()), Refusal::BadLent)
    }
}

/// "Opening fills the first ring-size entries of the lent tables (counts 0 ...)
/// and leaves later entries and every ring byte alone".
fn fresh(layout: Layout, counts: &mut [u16]) -> Consumer {
    counts[..usize::from(layout.size)].fill(0);
    Consumer { layout, avail: FRESH, used: FRESH, num_inflight: 0, shadow: ENABLE }
}

/// "Order: 6, then 8 (tables only) at opening, which on refusal gives the
/// number alone".
pub fn open(layout: Layout, bytes: &[u8], counts: &mut [u16]) -> Answer<Consumer> {
    refuse_if(layout.is_invalid(bytes.len()), Refusal::InvalidLayout)?;
    refuse_if(is_short(counts, layout.size), Refusal::BadLent)?;
    Ok(fresh(layout, counts))
}

/// A chain that was polled: the head's ID, the number of elements and how many
/// of them, the first ones, are readable.
#[derive(Clone, Copy, PartialEq, Eq, Debug)]
pub struct Polled {
    pub id: u16,
    pub n: u16,
    pub readable: u16,
}

/// 3: "the looked-at slot is not ... available". "The condition of 3 on the
/// head is read before INDIRECT."
fn head_is_available(c: &Consumer, bytes: &[u8]) -> bool {
    let head = c.layout.load_slot(bytes, c.avail.head);
    is_available(head.flags, c.avail.wrap)
}

/// "then walks while NEXT is set, at most ring-size slots. Tail IDs and tail
/// AVAIL/USED bits are not looked at."
///
/// 2, slot by slot: "INDIRECT; readable after writable; NEXT still set after
/// ring-size slots".
fn walk(c: &Consumer, bytes: &[u8]) -> Answer<Polled> {
    let id = c.layout.load_slot(bytes, c.avail.head).id;
    let mut at = c.avail;
    let (mut readable, mut writable) = (0, 0);
    for n in 1..=c.size() {
        let flags = c.layout.load_slot(bytes, at.head).flags;
        refuse_if(has(flags, INDIRECT), Refusal::BadChain)?;
        if has(flags, WRITE) {
            writable += 1;
        } else {
            refuse_if(writable > 0, Refusal::BadChain)?;
            readable += 1;
        }
        if !has(flags, NEXT) {
            return Ok(Polled { id, n, readable });
        }
        at = at.step(c.size());
    }
    Err(Refusal::BadChain)
}

/// "A successful poll writes the first n addresses and lengths and leaves the
/// rest of both output slices alone."
fn write_outputs(c: &Consumer, bytes: &[u8], n: u16, out: Outputs) {
    let mut at = c.avail;
    for i in 0..usize::from(n) {
        let element = c.layout.load_slot(bytes, at.head);
        out.addresses[i] = element.address;
        out.lengths[i] = element.length;
        at = at.step(c.size());
    }
}

/// "7, 8, then 3, then 2 (slot by slot), then 5 for polls". 5: "ID not below
/// the size; a ... newly polled ID with a recorded count; ... in-flight would
/// pass the size". Gives the chain and the in-flight count after it.
fn test_poll(c: &Consumer, bytes: &[u8], counts: &[u16], out: &Outputs) -> Answer<(Polled, u16)> {
    c.test_all(bytes, counts)?;
    refuse_if(out.are_short(c.size()), Refusal::BadLent)?;
    refuse_if(!head_is_available(c, bytes), Refusal::WouldBlock)?;
    let polled = walk(c, bytes)?;
    refuse_unless_unheld(polled.id, c.size(), counts)?;
    let num_inflight = more(c.num_inflight, polled.n, c.size())?;
    Ok((polled, num_inflight))
}

/// "poll_available checks the head, then walks".
pub fn poll_available(
    c: Consumer,
    bytes: &[u8],
    counts: &mut [u16],
    out: Outputs,
) -> Answer<(Consumer, Polled)> {
    let (polled, num_inflight) = test_poll(&c, bytes, counts, &out)?;
    write_outputs(&c, bytes, polled.n, out);
    counts[usize::from(polled.id)] = polled.n;
    let avail = c.avail.moved(c.size(), polled.n);
    Ok((Consumer { avail, num_inflight, ..c }, polled))
}

/// "7, 8, then 5 for completions". 5: "ID not below the size", "a completed ID
/// with count 0", "in-flight would ... fall below 0". Gives the chain's length
/// and the in-flight count after it.
fn test_submit_used(c: &Consumer, bytes: &[u8], counts: &[u16], id: u16) -> Answer<(u16, u16)> {
    c.test_all(bytes, counts)?;
    let count = count_of_completed(id, c.size(), counts)?;
    Ok((count, less(c.num_inflight, count)?))
}

/// "submit_used writes address 0, the length and the ID at the used cursor and
/// moves by the chain's length."
pub fn submit_used(
    c: Consumer,
    bytes: &mut [u8],
    counts: &mut [u16],
    id: u16,
    length: u32,
) -> Answer<Consumer> {
    let (count, num_inflight) = test_submit_used(&c, bytes, counts, id)?;
    let flags = marked_used(0, c.used.wrap);
    let descriptor = Descriptor { address: 0, length, id, flags };
    c.layout.store_slot(bytes, c.used.head, descriptor);
    counts[usize::from(id)] = 0;
    let used = c.used.moved(c.size(), count);
    Ok(Consumer { used, num_inflight, ..c })
}

/// A completion, then whether the driver is to be notified of it: the used
/// cursor before and after it, against the driver's event.
pub fn submit_used_with_notify(
    c: Consumer,
    bytes: &mut [u8],
    counts: &mut [u16],
    id: u16,
    length: u32,
) -> Answer<(Consumer, bool)> {
    let after = submit_used(c, bytes, counts, id, length)?;
    let driver = event::load(bytes, after.layout.driver_event);
    Ok((after, should_notify(driver, after.size(), c.used, after.used)))
}

/// Whether the slot at the avail cursor is available.
pub fn peek_available(c: Consumer, bytes: &[u8]) -> Answer<bool> {
    c.test_bytes(bytes)?;
    Ok(head_is_available(&c, bytes))
}

/// The record, where it is not bad: 7 for a call that is lent nothing.
pub fn sound(c: Consumer) -> Answer<Consumer> {
    refuse_if(c.is_bad(), Refusal::BadRecord)?;
    Ok(c)
}

/// num_free, num_inflight, is_full, len.
pub fn counts(c: Consumer) -> Answer<[u16; 4]> {
    let c = sound(c)?;
    let is_full = c.num_inflight == c.size();
    Ok([c.size() - c.num_inflight, c.num_inflight, u16::from(is_full), c.size()])
}

pub fn avail_cursor(c: Consumer) -> Answer<Cursor> {
    Ok(sound(c)?.avail)
}

pub fn used_cursor(c: Consumer) -> Answer<Cursor> {
    Ok(sound(c)?.used)
}

/// disable_avail_notifications (DISABLE) and enable_avail_notifications (ENABLE).
pub fn turn_avail_notifications(c: Consumer, bytes: &mut [u8], flags: u16) -> Answer<Consumer> {
    c.test_bytes(bytes)?;
    let shadow = event::turn(bytes, c.layout.device_event, c.shadow, flags);
    Ok(Consumer { shadow, ..c })
}

/// enable_avail_notifications_desc: armed at a slot.
pub fn arm_avail_notifications(
    c: Consumer,
    bytes: &mut [u8],
    offset: u16,
    wrap: bool,
) -> Answer<Consumer> {
    c.test_bytes(bytes)?;
    let shadow = event::arm(bytes, c.layout.device_event, offset, wrap);
    Ok(Consumer { shadow, ..c })
}

/// enable_avail_notifications_for_next: armed at the avail cursor.
pub fn arm_for_next_avail(c: Consumer, bytes: &mut [u8]) -> Answer<Consumer> {
    arm_avail_notifications(c, bytes, c.avail.head, c.avail.wrap)
}

/// "Its reset zeroes only the device event." The record and the counts are
/// fresh.
pub fn reset(c: Consumer, bytes: &mut [u8], counts: &mut [u16]) -> Answer<Consumer> {
    c.test_all(bytes, counts)?;
    event::zero(bytes, c.layout.device_event);
    Ok(fresh(c.layout, counts))
}
