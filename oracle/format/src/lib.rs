//! The trace format of TRACE.md. One table (`ops`) says what each record is
//! made of; reading, writing and the text form all follow it.

pub mod hash;
pub mod ops;
pub mod read;
pub mod text;

pub use hash::{Hash, first_bytes};
pub use ops::{Shape, Width, shape, shape_named};
pub use read::{Bad, Reader};

pub const MAGIC: u32 = 0x3151_5650;
pub const HEADER_BYTES: usize = 40;
/// An input is read whole up to this length.
pub const INPUT_LIMIT: usize = 262_144;
pub const REGION_LIMIT: u32 = 65_536;
/// Entries of each lent table and of each poll output.
pub const TABLE_ENTRIES: u64 = 2_048;
/// The largest n, m or k of a record.
pub const COUNT_LIMIT: u64 = 4_096;

#[derive(Clone, Copy, Debug, PartialEq, Eq, Default)]
pub struct Header {
    pub size: u32,
    pub table: u32,
    pub driver: u32,
    pub device: u32,
    pub region: u32,
    pub seed: u32,
    pub hash_every: u32,
    pub records: u32,
}

impl Header {
    /// Whether document 01 accepts the opening: its 6, then its 8.
    pub fn refusal(&self) -> u8 {
        if !self.geometry_is_good() {
            6
        } else if u64::from(self.size) > TABLE_ENTRIES {
            8
        } else {
            0
        }
    }

    fn geometry_is_good(&self) -> bool {
        let areas = [
            (u64::from(self.table), u64::from(self.size) * 16),
            (u64::from(self.driver), 4),
            (u64::from(self.device), 4),
        ];
        let fits = areas.iter().all(|(at, len)| at + len <= u64::from(self.region));
        let apart = |a: (u64, u64), b: (u64, u64)| a.0 + a.1 <= b.0 || b.0 + b.1 <= a.0;
        (1..=32_768).contains(&self.size)
            && self.table.is_multiple_of(16)
            && self.driver.is_multiple_of(4)
            && self.device.is_multiple_of(4)
            && fits
            && apart(areas[0], areas[1])
            && apart(areas[0], areas[2])
            && apart(areas[1], areas[2])
    }

    /// Whether the line of the record with this number, counted from 1, bears
    /// a hash.
    pub fn hashes(&self, number: u32) -> bool {
        number == self.records || (self.hash_every != 0 && number.is_multiple_of(self.hash_every))
    }
}

/// A record's op and its fields in order, repeated fields flattened.
#[derive(Clone, Debug, PartialEq, Eq)]
pub struct Record {
    pub op: u8,
    pub nums: Vec<u64>,
}

impl Record {
    pub fn new(op: u8, nums: impl Into<Vec<u64>>) -> Self {
        Self { op, nums: nums.into() }
    }

    pub fn num(&self, i: usize) -> u64 {
        self.nums[i]
    }

    pub fn half(&self, i: usize) -> u16 {
        self.nums[i] as u16
    }

    pub fn word(&self, i: usize) -> u32 {
        self.nums[i] as u32
    }

    pub fn flag(&self, i: usize) -> bool {
        self.nums[i] != 0
    }

    pub fn write(&self, out: &mut Vec<u8>) {
        out.push(self.op);
        let Some(shape) = shape(self.op) else {
            return;
        };
        for (width, num) in shape.widths(&self.nums).zip(&self.nums) {
            out.extend_from_slice(&num.to_le_bytes()[..width.bytes()]);
        }
    }
}

/// What stands after a trace's good records.
#[derive(Clone, Debug, PartialEq, Eq, Default)]
pub enum Ending {
    #[default]
    Well,
    /// The bytes of one more record, which is bad.
    InRecord(Vec<u8>),
    /// The bytes of one more header, which is bad.
    InHeader(Vec<u8>),
}

#[derive(Clone, Debug, PartialEq, Eq, Default)]
pub struct Trace {
    pub header: Header,
    pub records: Vec<Record>,
    pub ending: Ending,
}

impl Trace {
    pub fn bytes(&self) -> Vec<u8> {
        let h = self.header();
        let mut out = Vec::new();
        for word in [
            MAGIC,
            h.size,
            h.table,
            h.driver,
            h.device,
            h.region,
            h.seed,
            h.hash_every,
            h.records,
            0,
        ] {
            out.extend_from_slice(&word.to_le_bytes());
        }
        for record in &self.records {
            record.write(&mut out);
        }
        if let Ending::InRecord(bytes) | Ending::InHeader(bytes) = &self.ending {
            out.extend_from_slice(bytes);
        }
        out
    }

    /// The header with the number of records that there are.
    pub fn header(&self) -> Header {
        let one_more = matches!(self.ending, Ending::InRecord(_));
        Header { records: (self.records.len() + usize::from(one_more)) as u32, ..self.header }
    }

    pub fn ends_badly(&self) -> bool {
        self.ending != Ending::Well
    }

    /// How many lines a program answers with.
    pub fn lines(&self) -> usize {
        let answered = if self.header.refusal() == 0 { self.records.len() } else { 0 };
        1 + answered + usize::from(self.ends_badly())
    }
}

/// Status 0 with its values, or a refusal's number.
#[derive(Clone, Debug, PartialEq, Eq)]
pub struct Answer {
    pub status: u8,
    pub values: Vec<u64>,
}

impl Answer {
    pub fn good(values: impl Into<Vec<u64>>) -> Self {
        Self { status: 0, values: values.into() }
    }

    pub fn refused(status: u8) -> Self {
        Self { status, values: Vec::new() }
    }

    pub fn line(&self, op: u8, hash: u64) -> String {
        let mut line = format!("{op} {}", self.status);
        for value in &self.values {
            line.push(' ');
            line.push_str(&value.to_string());
        }
        line.push(' ');
        line.push_str(&hash.to_string());
        line
    }
}
