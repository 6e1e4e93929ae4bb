//! 01, "Slots, flags and cursors": the descriptor and its flags.

/// "A descriptor is 16 bytes".
pub const SLOT_BYTES: usize = 16;

// "Flags: NEXT 1, WRITE 2, INDIRECT 4, AVAIL 128, USED 32768."
pub const NEXT: u16 = 1;
pub const WRITE: u16 = 2;
pub const INDIRECT: u16 = 4;
pub const AVAIL: u16 = 128;
pub const USED: u16 = 32768;

#[derive(Clone, Copy, PartialEq, Eq, Debug)]
pub struct Descriptor {
    pub address: u64,
    pub length: u32,
    pub id: u16,
    pub flags: u16,
}

/// "little-endian: address 8 at 0, length 4 at 8, ID 2 at 12, flags 2 at 14.
/// It is made as sixteen bytes by value, then stored."
pub fn encode(d: Descriptor) -> [u8; SLOT_BYTES] {
    let mut bytes = [0; SLOT_BYTES];
    bytes[0..8].copy_from_slice(&d.address.to_le_bytes());
    bytes[8..12].copy_from_slice(&d.length.to_le_bytes());
    bytes[12..14].copy_from_slice(&d.id.to_le_bytes());
    bytes[14..16].copy_from_slice(&d.flags.to_le_bytes());
    bytes
}

/// The same sixteen bytes, read. The flags come as they stand, all 16 bits.
pub fn decode(b: [u8; SLOT_BYTES]) -> Descriptor {
    Descriptor {
        address: u64::from_le_bytes([b[0], b[1], b[2], b[3], b[4], b[5], b[6], b[7]]),
        length: u32::from_le_bytes([b[8], b[9], b[10], b[11]]),
        id: u16::from_le_bytes([b[12], b[13]]),
        flags: u16::from_le_bytes([b[14], b[15]]),
    }
}

/// Is this flag set? "Others are ignored when read."
pub fn has(flags: u16, flag: u16) -> bool {
    flags & flag != 0
}

/// "Available in round w: AVAIL equals w and USED differs from w."
pub fn is_available(flags: u16, round: bool) -> bool {
    has(flags, AVAIL) == round && has(flags, USED) != round
}

/// "Used in round w: both equal w."
pub fn is_used(flags: u16, round: bool) -> bool {
    has(flags, AVAIL) == round && has(flags, USED) == round
}

/// The flags made available in a round; every bit but AVAIL and USED is kept.
pub fn marked_available(flags: u16, round: bool) -> u16 {
    let mark = if round { AVAIL } else { USED };
    flags & !(AVAIL | USED) | mark
}

/// The flags made used in a round; every bit but AVAIL and USED is kept.
pub fn marked_used(flags: u16, round: bool) -> u16 {
    let mark = if round { AVAIL | USED } else { 0 };
    flags & !(AVAIL | USED) | mark
}
