//! 01, "What must change shape": a chain is "lent addresses, lent lengths and
//! a readable count, so readables come first by form".

use crate::slots::{NEXT, WRITE};

#[derive(Clone, Copy)]
pub struct Chain<'a> {
    pub addresses: &'a [u64],
    pub lengths: &'a [u32],
    pub readable: u64,
}

/// 8: "chain slices of unequal length; readable count above the length".
pub fn is_bad(addresses: usize, lengths: usize, readable: u64) -> bool {
    addresses != lengths || readable > addresses as u64
}

impl Chain<'_> {
    /// 8, the same of a chain that is handed in.
    pub fn is_bad(&self) -> bool {
        is_bad(self.addresses.len(), self.lengths.len(), self.readable)
    }

    /// The number of elements of a chain that is not bad.
    pub fn len(&self) -> usize {
        self.addresses.len()
    }

    /// Element i's flags in an available slot, before the round's mark: "NEXT
    /// on all but the last", WRITE on the elements past the readable ones.
    pub fn element_flags(&self, i: usize) -> u16 {
        let next = if i + 1 < self.len() { NEXT } else { 0 };
        let write = if i as u64 >= self.readable { WRITE } else { 0 };
        next | write
    }
}

/// "`readables` ... hand back a part of one slice, or its empty end where the
/// count passes its length".
pub fn readables<T>(slice: &[T], readable: u64) -> &[T] {
    match usize::try_from(readable) {
        Ok(count) if count <= slice.len() => &slice[..count],
        _ => &slice[slice.len()..],
    }
}

/// "... and `writables` hand back a part of one slice, or its empty end where
/// the count passes its length".
pub fn writables<T>(slice: &[T], readable: u64) -> &[T] {
    match usize::try_from(readable) {
        Ok(count) if count <= slice.len() => &slice[count..],
        _ => &slice[slice.len()..],
    }
}
