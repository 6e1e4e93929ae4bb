//! 01, "Slots, flags and cursors": the event area, and what an end does to its
//! own event area.

/// "Event area, 4 bytes".
pub const EVENT_BYTES: usize = 4;

// "ENABLE 0, DISABLE 1, DESC 2."
pub const ENABLE: u16 = 0;
pub const DISABLE: u16 = 1;
pub const DESC: u16 = 2;

/// The low two bits of the second word are the flags.
const FLAG_BITS: u16 = 3;

/// The two words, each 16 bits, little-endian.
#[derive(Clone, Copy, PartialEq, Eq, Debug)]
pub struct Event {
    pub first: u16,
    pub second: u16,
}

impl Event {
    /// "offset in the low 15 bits ... of the first word".
    pub fn offset(self) -> u16 {
        self.first % 32768
    }

    /// "and wrap in bit 15 of the first word".
    pub fn wrap(self) -> bool {
        self.first >= 32768
    }

    /// "flags in the low two bits of the second".
    pub fn flags(self) -> u16 {
        self.second & FLAG_BITS
    }

    /// "Setting flags keeps the other 14 bits." The low two bits given count.
    pub fn with_flags(self, flags: u16) -> Event {
        Event { second: self.second & !FLAG_BITS | flags & FLAG_BITS, ..self }
    }

    /// The slot awaited: "the offset given is taken modulo 32,768". It is the
    /// first word's matter; the second word stays.
    pub fn with_slot(self, offset: u16, wrap: bool) -> Event {
        Event { first: offset % 32768 + if wrap { 32768 } else { 0 }, ..self }
    }
}

/// The event area at its place in the lent bytes.
pub fn load(bytes: &[u8], place: u64) -> Event {
    let at = place as usize;
    Event {
        first: u16::from_le_bytes([bytes[at], bytes[at + 1]]),
        second: u16::from_le_bytes([bytes[at + 2], bytes[at + 3]]),
    }
}

pub fn store(bytes: &mut [u8], place: u64, event: Event) {
    let at = place as usize;
    bytes[at..at + 2].copy_from_slice(&event.first.to_le_bytes());
    bytes[at + 2..at + 4].copy_from_slice(&event.second.to_le_bytes());
}

/// "Turning notifications on or off writes nothing if the end's shadow already
/// says so, and otherwise keeps the offset word." Gives the shadow after it.
pub fn turn(bytes: &mut [u8], place: u64, shadow: u16, flags: u16) -> u16 {
    if shadow != flags {
        let event = load(bytes, place).with_flags(flags);
        store(bytes, place, event);
    }
    flags
}

/// "Arming at a slot always writes; the offset given is taken modulo 32,768."
/// Gives the shadow after it.
pub fn arm(bytes: &mut [u8], place: u64, offset: u16, wrap: bool) -> u16 {
    let event = load(bytes, place).with_slot(offset, wrap).with_flags(DESC);
    store(bytes, place, event);
    DESC
}

/// The resets zero the end's own event.
pub fn zero(bytes: &mut [u8], place: u64) {
    store(bytes, place, Event { first: 0, second: 0 });
}
