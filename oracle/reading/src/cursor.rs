//! 01, "Slots, flags and cursors": the cursor.

use crate::layout::size_is_in_range;
use crate::refuse::{refuse_if, Answer, Refusal};

/// "A cursor is (head, wrap)".
#[derive(Clone, Copy, PartialEq, Eq, Debug)]
pub struct Cursor {
    pub head: u16,
    pub wrap: bool,
}

/// "fresh at (0, true)".
pub const FRESH: Cursor = Cursor { head: 0, wrap: true };

impl Cursor {
    /// A head that 7 speaks of: "a head not below the size".
    pub fn is_outside(self, size: u16) -> bool {
        self.head >= size
    }

    /// "One step past the last slot returns to 0 and flips wrap."
    /// The head is below the size.
    pub fn step(self, size: u16) -> Cursor {
        if self.head == size - 1 {
            Cursor { head: 0, wrap: !self.wrap }
        } else {
            Cursor { head: self.head + 1, wrap: self.wrap }
        }
    }

    /// "Moving by n, at most the ring size, equals n single steps."
    pub fn moved(self, size: u16, n: u16) -> Cursor {
        (0..n).fold(self, |at, _| at.step(size))
    }
}

/// A move called alone. 7: "a head not below the size"; "a cursor move called
/// alone by more than the size, or with a size outside 6's range".
pub fn move_alone(at: Cursor, size: u16, n: u16) -> Answer<Cursor> {
    let bad = !size_is_in_range(size) || at.is_outside(size) || n > size;
    refuse_if(bad, Refusal::BadRecord)?;
    Ok(at.moved(size, n))
}

/// "a single step alone is a move by one" (the settled points).
pub fn step_alone(at: Cursor, size: u16) -> Answer<Cursor> {
    move_alone(at, size, 1)
}
