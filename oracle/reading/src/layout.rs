//! The ring's geometry: one size and three offsets into the lent bytes, and
//! the conditions that 6, 7 and 8 put on them. No sum wraps: all are 128 bits.

use crate::event::EVENT_BYTES;
use crate::slots::{decode, encode, Descriptor, SLOT_BYTES};

#[derive(Clone, Copy, PartialEq, Eq, Debug)]
pub struct Layout {
    pub size: u16,
    pub table: u64,
    pub driver_event: u64,
    pub device_event: u64,
}

/// The bytes from `start` up to, and without, `end`.
#[derive(Clone, Copy)]
struct Area {
    start: u128,
    end: u128,
}

impl Area {
    fn new(start: u64, bytes: usize) -> Area {
        let start = u128::from(start);
        Area { start, end: start + bytes as u128 }
    }

    fn overlaps(self, other: Area) -> bool {
        self.start < other.end && other.start < self.end
    }
}

/// 6's range: "size outside 1..32,768" is refused, both ends allowed.
pub fn size_is_in_range(size: u16) -> bool {
    (1..=32768).contains(&size)
}

impl Layout {
    fn areas(&self) -> [Area; 3] {
        [
            Area::new(self.table, usize::from(self.size) * SLOT_BYTES),
            Area::new(self.driver_event, EVENT_BYTES),
            Area::new(self.device_event, EVENT_BYTES),
        ]
    }

    /// "table offset not a multiple of 16".
    fn table_is_unaligned(&self) -> bool {
        !self.table.is_multiple_of(16)
    }

    /// "event offset not a multiple of 4".
    fn an_event_is_unaligned(&self) -> bool {
        !self.driver_event.is_multiple_of(4) || !self.device_event.is_multiple_of(4)
    }

    /// "two areas overlap".
    fn two_areas_overlap(&self) -> bool {
        let [table, driver, device] = self.areas();
        table.overlaps(driver) || table.overlaps(device) || driver.overlaps(device)
    }

    /// 6's "an area outside the lent bytes", 8's "bytes too short for the areas".
    pub fn is_outside(&self, lent_bytes: usize) -> bool {
        self.areas().iter().any(|area| area.end > lent_bytes as u128)
    }

    /// 7: "stored geometry breaks 6, apart from fitting the lent bytes".
    pub fn is_broken(&self) -> bool {
        !size_is_in_range(self.size)
            || self.table_is_unaligned()
            || self.an_event_is_unaligned()
            || self.two_areas_overlap()
    }

    /// 6, InvalidLayout, with all its conditions.
    pub fn is_invalid(&self, lent_bytes: usize) -> bool {
        self.is_broken() || self.is_outside(lent_bytes)
    }

    /// Where a slot of the table starts, if that is a number of 64 bits.
    pub fn slot_place(&self, index: u16) -> Option<u64> {
        let place = u128::from(self.table) + u128::from(index) * SLOT_BYTES as u128;
        u64::try_from(place).ok()
    }

    /// desc_addr: the place of slot `index`, or nothing where it is not below
    /// the size or the place would pass the largest number.
    pub fn desc_addr(&self, index: u16) -> Option<u64> {
        if index < self.size {
            self.slot_place(index)
        } else {
            None
        }
    }

    /// The slot's sixteen bytes. The areas fit the bytes, the index is below
    /// the size.
    fn slot_range(&self, index: u16) -> std::ops::Range<usize> {
        let at = self.table as usize + usize::from(index) * SLOT_BYTES;
        at..at + SLOT_BYTES
    }

    pub fn load_slot(&self, bytes: &[u8], index: u16) -> Descriptor {
        let mut slot = [0; SLOT_BYTES];
        slot.copy_from_slice(&bytes[self.slot_range(index)]);
        decode(slot)
    }

    pub fn store_slot(&self, bytes: &mut [u8], index: u16, d: Descriptor) {
        bytes[self.slot_range(index)].copy_from_slice(&encode(d));
    }

    /// A reset "zeroes the table".
    pub fn zero_table(&self, bytes: &mut [u8]) {
        let start = self.table as usize;
        bytes[start..start + usize::from(self.size) * SLOT_BYTES].fill(0);
    }
}
