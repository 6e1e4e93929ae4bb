//! For the tests: traces are made here, and their answers read.

use crate::run::run;

pub fn b(x: u8) -> Vec<u8> {
    vec![x]
}

pub fn w(x: u16) -> Vec<u8> {
    x.to_le_bytes().to_vec()
}

pub fn d(x: u32) -> Vec<u8> {
    x.to_le_bytes().to_vec()
}

pub fn q(x: u64) -> Vec<u8> {
    x.to_le_bytes().to_vec()
}

/// A trace: its header's ten numbers and its records.
#[derive(Clone)]
pub struct Trace {
    pub header: [u32; 10],
    pub records: Vec<u8>,
}

/// The header's places, in order.
pub const SIZE: usize = 1;
pub const TABLE: usize = 2;
pub const DRIVER: usize = 3;
pub const DEVICE: usize = 4;
pub const REGION: usize = 5;
pub const SEED: usize = 6;
pub const HASH_EVERY: usize = 7;
pub const RECORDS: usize = 8;

/// The table at 0, then the driver event, then the device event, then nothing.
pub fn ring(size: u32) -> Trace {
    let (driver, device) = (16 * size, 16 * size + 4);
    let header = [0x3151_5650, size, 0, driver, device, device + 4, 0, 0, 0, 0];
    Trace { header, records: vec![] }
}

impl Trace {
    pub fn with(mut self, place: usize, value: u32) -> Trace {
        self.header[place] = value;
        self
    }

    pub fn op(mut self, op: u8, fields: &[Vec<u8>]) -> Trace {
        self.records.push(op);
        self.records.extend(fields.concat());
        self.header[RECORDS] += 1;
        self
    }

    /// Op 1: one readable element.
    pub fn submit_one(self) -> Trace {
        self.op(1, &[q(4096), d(64), b(0)])
    }

    /// Op 3: a chain of n elements at 0, 1, ..; each as long as its address.
    pub fn submit(self, n: u16, readable: u16) -> Trace {
        let mut fields = vec![w(n), w(readable)];
        for i in 0..n {
            fields.extend([q(u64::from(i)), d(u32::from(i))]);
        }
        self.op(3, &fields)
    }

    /// Op 64.
    pub fn overwrite(self, at: u32, bytes: &[u8]) -> Trace {
        self.op(64, &[d(at), w(bytes.len() as u16), bytes.to_vec()])
    }

    pub fn bytes(&self) -> Vec<u8> {
        let mut bytes: Vec<u8> = self.header.iter().flat_map(|x| x.to_le_bytes()).collect();
        bytes.extend(&self.records);
        bytes
    }

    /// The lines after the first one, without their hashes.
    pub fn answers(&self) -> Vec<String> {
        let lines = lines(&self.bytes());
        assert!(lines[0].starts_with("0 0 "), "not opened: {}", lines[0]);
        lines[1..].iter().map(|line| without_hash(line)).collect()
    }

    /// The last of them.
    pub fn last_answer(&self) -> String {
        self.answers().pop().unwrap()
    }
}

pub fn without_hash(line: &str) -> String {
    match line.rsplit_once(' ') {
        Some((answer, _)) => answer.to_string(),
        None => line.to_string(),
    }
}

pub fn lines(bytes: &[u8]) -> Vec<String> {
    let mut out = Vec::new();
    run(bytes, &mut out).unwrap();
    String::from_utf8(out).unwrap().lines().map(String::from).collect()
}
