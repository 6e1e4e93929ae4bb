//! Cuts a trace down while it still shows what it showed.

use format::{Ending, Header, Record, Trace};

pub struct Shrinker<'a> {
    /// Whether the trace still shows it, and after how many records at the
    /// latest: all later ones can go.
    pub shows: &'a mut dyn FnMut(&Trace) -> Option<usize>,
}

impl Shrinker<'_> {
    pub fn shrink(&mut self, trace: &Trace) -> Trace {
        let mut best = trace.clone();
        self.accept(&mut best, Header { hash_every: 1, ..trace.header }, trace.records.clone());
        self.cut_end(&mut best);
        loop {
            let before = best.clone();
            self.drop_records(&mut best);
            self.simplify(&mut best);
            if best == before {
                return best;
            }
        }
    }

    fn accept(&mut self, best: &mut Trace, header: Header, records: Vec<Record>) -> bool {
        let mut tried = Trace { header, records, ending: best.ending.clone() };
        tried.header.records = tried.header().records;
        let shows = (self.shows)(&tried).is_some();
        if shows {
            *best = tried;
        }
        shows
    }

    fn cut_end(&mut self, best: &mut Trace) {
        let Some(needed) = (self.shows)(best) else {
            return;
        };
        if needed < best.records.len() {
            let mut cut = best.clone();
            cut.records.truncate(needed);
            cut.ending = Ending::Well;
            cut.header.records = cut.header().records;
            if (self.shows)(&cut).is_some() {
                *best = cut;
            }
        }
    }

    /// Tries to leave out runs of records, halving the run's length.
    fn drop_records(&mut self, best: &mut Trace) {
        let mut run = best.records.len().div_ceil(2);
        while run > 0 {
            let mut at = 0;
            while at < best.records.len() {
                let mut fewer = best.records.clone();
                fewer.drain(at..(at + run).min(fewer.len()));
                if !self.accept(best, best.header, fewer) {
                    at += run;
                }
            }
            run /= 2;
        }
    }

    fn simplify(&mut self, best: &mut Trace) {
        self.accept(best, Header { seed: 0, ..best.header }, best.records.clone());
        for i in 0..best.records.len() {
            for plainer in plainer(&best.records[i]) {
                let mut records = best.records.clone();
                records[i] = plainer;
                if self.accept(best, best.header, records) {
                    break;
                }
            }
        }
    }
}

/// The same call with a chain of fewer elements or one number made 0.
fn plainer(record: &Record) -> Vec<Record> {
    let mut tries = Vec::new();
    if matches!(record.op, 3 | 4) && record.num(0) > 1 {
        for n in [1, record.num(0) / 2, record.num(0) - 1] {
            let mut nums = record.nums[..2 + 2 * n as usize].to_vec();
            nums[0] = n;
            nums[1] = nums[1].min(n);
            tries.push(Record::new(record.op, nums));
        }
    }
    let counted = match record.op {
        3 | 4 | 64 | 65 | 41 | 71 => 2,
        _ => 0,
    };
    if record.nums.len() <= 64 {
        for i in counted..record.nums.len() {
            if record.nums[i] != 0 {
                let mut nums = record.nums.clone();
                nums[i] = 0;
                tries.push(Record::new(record.op, nums));
            }
        }
    }
    tries
}
