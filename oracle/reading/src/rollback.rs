//! 01, rollback: "Rollback is refused with 9 exactly if ..."

use crate::consumer::{sound, Consumer};
use crate::cursor::{Cursor, FRESH};
use crate::refuse::{id_is_outside, is_short, refuse_if, Answer, Refusal};

/// Where the consumer stood when the checkpoint was taken.
#[derive(Clone, Copy, PartialEq, Eq, Debug)]
pub struct Checkpoint {
    pub avail: Cursor,
    pub used: Cursor,
    pub in_flight: u16,
}

/// The trace format: a register "starts as ((0, true), (0, true), 0)".
pub const FIRST: Checkpoint = Checkpoint { avail: FRESH, used: FRESH, in_flight: 0 };

pub fn poll_checkpoint(c: Consumer) -> Answer<Checkpoint> {
    let c = sound(c)?;
    Ok(Checkpoint { avail: c.avail, used: c.used, in_flight: c.num_inflight })
}

/// 7: "a head not below the size, also in an old cursor or checkpoint that is
/// handed in".
fn is_bad(c: &Consumer, checkpoint: &Checkpoint) -> bool {
    c.is_bad() || checkpoint.avail.is_outside(c.size()) || checkpoint.used.is_outside(c.size())
}

/// 9: "an ID is not below the size, has count 0 or is named twice".
/// Gives "the sum of counts".
fn sum_of_counts(size: u16, counts: &[u16], ids: &[u16]) -> Answer<u64> {
    let mut is_named = vec![false; usize::from(size)];
    let mut sum = 0;
    for &id in ids {
        refuse_if(id_is_outside(id, size), Refusal::BadRollback)?;
        let count = counts[usize::from(id)];
        refuse_if(count == 0, Refusal::BadRollback)?;
        refuse_if(is_named[usize::from(id)], Refusal::BadRollback)?;
        is_named[usize::from(id)] = true;
        sum += u64::from(count);
    }
    Ok(sum)
}

/// "7, 8, then 9 for rollback".
fn test(c: &Consumer, counts: &[u16], checkpoint: &Checkpoint, ids: &[u16]) -> Answer<()> {
    refuse_if(is_bad(c, checkpoint), Refusal::BadRecord)?;
    refuse_if(is_short(counts, c.size()), Refusal::BadLent)?;
    // "the used cursor differs from the checkpoint's"
    refuse_if(c.used != checkpoint.used, Refusal::BadRollback)?;
    let sum = sum_of_counts(c.size(), counts, ids)?;
    // "in-flight is not the checkpoint's plus the sum of counts"
    let in_flight = u64::from(checkpoint.in_flight) + sum;
    refuse_if(u64::from(c.num_inflight) != in_flight, Refusal::BadRollback)?;
    // "the avail cursor is not the checkpoint's moved by that sum"; the sum is
    // at most in-flight, which is at most the size.
    let moved = checkpoint.avail.moved(c.size(), sum as u16);
    refuse_if(c.avail != moved, Refusal::BadRollback)
}

/// rollback_polls: the chains named are as if they had not been polled. "An
/// empty list is allowed."
pub fn rollback_polls(
    c: Consumer,
    counts: &mut [u16],
    checkpoint: Checkpoint,
    ids: &[u16],
) -> Answer<Consumer> {
    test(&c, counts, &checkpoint, ids)?;
    for &id in ids {
        counts[usize::from(id)] = 0;
    }
    Ok(Consumer { avail: checkpoint.avail, num_inflight: checkpoint.in_flight, ..c })
}
