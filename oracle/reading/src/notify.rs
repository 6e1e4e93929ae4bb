//! 01, "Notify".

use crate::cursor::Cursor;
use crate::event::{Event, DESC, DISABLE, ENABLE};
use crate::refuse::{refuse_if, Answer, Refusal};

/// "DISABLE no, ENABLE yes, 3 no, DESC with offset at or past the size no."
pub fn should_notify(event: Event, size: u16, old: Cursor, new: Cursor) -> bool {
    match event.flags() {
        DISABLE => false,
        ENABLE => true,
        DESC => event.offset() < size && has_passed(event, size, old, new),
        _ => false,
    }
}

/// "Yes exactly if new - offset - 1 is below new - old, all of them
/// subtractions that wrap at 65,536."
fn has_passed(event: Event, size: u16, old: Cursor, new: Cursor) -> bool {
    let offset = offset_seen_from(event, size, new);
    let since_event = new.head.wrapping_sub(offset).wrapping_sub(1);
    let since_old = new.head.wrapping_sub(old.head);
    since_event < since_old
}

/// "Else, if the event's wrap differs from the new cursor's, the size is first
/// taken from the offset, modulo 65,536."
fn offset_seen_from(event: Event, size: u16, new: Cursor) -> u16 {
    if event.wrap() != new.wrap {
        event.offset().wrapping_sub(size)
    } else {
        event.offset()
    }
}

/// "should_notify alone gives 7 exactly if a head is not below the size" (the
/// settled points).
pub fn should_notify_alone(event: Event, size: u16, old: Cursor, new: Cursor) -> Answer<bool> {
    let bad = old.is_outside(size) || new.is_outside(size);
    refuse_if(bad, Refusal::BadRecord)?;
    Ok(should_notify(event, size, old, new))
}
