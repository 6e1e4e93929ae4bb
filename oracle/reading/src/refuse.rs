//! 01, "When the ring says no": the nine numbers, and the tests that several
//! calls share. Each call names its own tests in 01's order.
//!
//! "Every refusal hands back its number and the record unchanged, and no lent
//! byte or number differs": each call makes all its tests before it writes
//! anything, and its record is a value that the caller keeps on a refusal.

#[derive(Clone, Copy, PartialEq, Eq, Debug)]
pub enum Refusal {
    EmptyChain = 1,
    BadChain = 2,
    WouldBlock = 3,
    OutOfMemory = 4,
    InvalidState = 5,
    InvalidLayout = 6,
    BadRecord = 7,
    BadLent = 8,
    BadRollback = 9,
}

impl Refusal {
    /// 01's number.
    pub fn number(self) -> u64 {
        self as u64
    }
}

pub type Answer<T> = Result<T, Refusal>;

pub fn refuse_if(condition: bool, refusal: Refusal) -> Answer<()> {
    if condition {
        Err(refusal)
    } else {
        Ok(())
    }
}

/// 8: "an ID table or poll output shorter than the size".
pub fn is_short<T>(lent: &[T], size: u16) -> bool {
    lent.len() < usize::from(size)
}

/// 5: "ID not below the size".
pub fn id_is_outside(id: u16, size: u16) -> bool {
    id >= size
}

/// 5: "a free or newly polled ID with a recorded count".
/// The ID is below the size, the table is at least that long.
pub fn has_a_count(counts: &[u16], id: u16) -> bool {
    counts[usize::from(id)] != 0
}

/// 5 for an ID that no chain may hold: a free or a newly polled one.
pub fn refuse_unless_unheld(id: u16, size: u16, counts: &[u16]) -> Answer<()> {
    refuse_if(id_is_outside(id, size), Refusal::InvalidState)?;
    refuse_if(has_a_count(counts, id), Refusal::InvalidState)
}

/// 5 for a completed ID: "ID not below the size", "a completed ID with count
/// 0". Gives the recorded count.
pub fn count_of_completed(id: u16, size: u16, counts: &[u16]) -> Answer<u16> {
    refuse_if(id_is_outside(id, size), Refusal::InvalidState)?;
    refuse_if(!has_a_count(counts, id), Refusal::InvalidState)?;
    Ok(counts[usize::from(id)])
}

/// 5: "in-flight would ... fall below 0". Gives what is left.
pub fn less(in_flight: u16, count: u16) -> Answer<u16> {
    in_flight.checked_sub(count).ok_or(Refusal::InvalidState)
}

/// 5: "in-flight would pass the size" and "free stack would pass the size".
/// Gives the sum.
pub fn more(held: u16, count: u16, size: u16) -> Answer<u16> {
    let sum = u32::from(held) + u32::from(count);
    refuse_if(sum > u32::from(size), Refusal::InvalidState)?;
    Ok(held + count)
}
