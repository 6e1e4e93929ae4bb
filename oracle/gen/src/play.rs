//! A trace in the making, with the original run beside it, so that the next
//! record can be chosen by what is held, free or saved.

use format::{Answer, Header, Record};
use original::Machine;
use original::virtq::ring::probe;

use crate::rng::Rng;

/// Checkpoint registers that the generator keeps track of.
const TRACKED: usize = 4;

pub struct Play {
    pub rng: Rng,
    pub header: Header,
    pub machine: Machine,
    pub records: Vec<Record>,
    /// For each tracked register: whether it was taken, and the IDs polled
    /// since, oldest first.
    since: [Option<Vec<u16>>; TRACKED],
    /// Cursors of the producer as they were at earlier times.
    pub old_cursors: Vec<(u16, bool)>,
    written: usize,
}

impl Play {
    pub fn new(rng: Rng, header: Header) -> Self {
        let machine = Machine::open(&header).expect("the header is one that 01 accepts");
        Self {
            rng,
            header,
            machine,
            records: Vec::new(),
            since: Default::default(),
            old_cursors: vec![(0, true)],
            written: 0,
        }
    }

    pub fn size(&self) -> u64 {
        u64::from(self.header.size)
    }

    /// How many bytes the records take.
    pub fn written(&self) -> usize {
        self.written
    }

    /// Adds a record and runs it, unless it leaves the original's domain.
    pub fn push(&mut self, op: u8, nums: impl Into<Vec<u64>>) -> Option<Answer> {
        let record = Record::new(op, nums);
        if self.machine.outside(&record).is_some() {
            return None;
        }
        let answer = self.machine.answer(&record);
        self.note(&record, &answer);
        self.add(record);
        Some(answer)
    }

    /// Adds a record without running it.
    pub fn add(&mut self, record: Record) {
        let mut bytes = Vec::new();
        record.write(&mut bytes);
        self.written += bytes.len();
        self.records.push(record);
    }

    /// Both ends are fresh again, over a table and events of zeros.
    pub fn start_over(&mut self) {
        let zeroed = Header { seed: 0, ..self.header };
        self.machine = Machine::open(&zeroed).expect("it was opened before");
        self.since = Default::default();
    }

    fn note(&mut self, record: &Record, answer: &Answer) {
        match record.op {
            _ if answer.status != 0 => {}
            1..=4 => {
                let cursor = self.machine.producer.avail_cursor();
                self.old_cursors.push((cursor.head(), cursor.wrap()));
            }
            33 => {
                let id = answer.values[0] as u16;
                self.since.iter_mut().flatten().for_each(|ids| ids.push(id));
            }
            34 | 35 => self.forget(&[record.half(0)]),
            40 if record.num(0) < TRACKED as u64 => {
                self.since[record.num(0) as usize] = Some(Vec::new());
            }
            41 => {
                let ids: Vec<u16> = record.nums[2..].iter().map(|id| *id as u16).collect();
                self.forget(&ids);
            }
            46 => self.since = Default::default(),
            _ => {}
        }
    }

    fn forget(&mut self, gone: &[u16]) {
        for ids in self.since.iter_mut().flatten() {
            ids.retain(|id| !gone.contains(id));
        }
    }

    /// A register that was taken, with the IDs polled since.
    pub fn saved(&mut self) -> Option<(u64, Vec<u16>)> {
        let reg = self.rng.below(TRACKED as u64);
        let ids = self.since[reg as usize].clone()?;
        Some((reg, ids))
    }

    pub fn any_register(&mut self) -> u64 {
        if self.rng.once_in(12) { self.rng.below(256) } else { self.rng.below(TRACKED as u64) }
    }

    /// IDs that the consumer holds.
    pub fn held(&self) -> Vec<u16> {
        nonzero(probe::consumer_chain_counts(&self.machine.consumer))
    }

    /// IDs of chains that the producer has not got back.
    pub fn in_flight(&self) -> Vec<u16> {
        nonzero(probe::producer_chain_counts(&self.machine.producer))
    }

    /// An ID of any kind: held, in flight, free, at or above the size.
    pub fn any_id(&mut self) -> u64 {
        let size = self.size();
        let known = if self.rng.bit() == 0 { self.held() } else { self.in_flight() };
        match self.rng.below(5) {
            0 | 1 if !known.is_empty() => u64::from(self.rng.pick(&known)),
            0..=2 => self.rng.below(size),
            3 => self.rng.near(&[size, 0]),
            _ => self.rng.half(),
        }
    }

    pub fn slot(&self, index: u64) -> u64 {
        u64::from(self.header.table) + index % self.size() * 16
    }
}

fn nonzero(counts: &[u16]) -> Vec<u16> {
    (0..counts.len()).filter(|i| counts[*i] != 0).map(|i| i as u16).collect()
}
