//! What was compared and equal, counted.

use std::collections::BTreeMap;

use format::Trace;

#[derive(Clone, Debug, Default)]
pub struct Tally {
    pub traces: u64,
    pub records: u64,
    pub bad_endings: u64,
    /// By number, openings included.
    pub refusals: BTreeMap<u8, u64>,
    /// By op and status.
    pub ops: BTreeMap<u8, BTreeMap<u8, u64>>,
}

impl Tally {
    pub fn add(&mut self, trace: &Trace, lines: &[String]) {
        self.traces += 1;
        self.bad_endings += u64::from(trace.ends_badly());
        for (i, line) in lines.iter().enumerate() {
            let mut words = line.split(' ');
            let op = words.next().and_then(|w| w.parse::<u8>().ok());
            let status = words.next().and_then(|w| w.parse::<u8>().ok());
            let (Some(op), Some(status)) = (op, status) else {
                continue;
            };
            if i > 0 {
                self.records += 1;
                *self.ops.entry(op).or_default().entry(status).or_default() += 1;
            }
            if status != 0 {
                *self.refusals.entry(status).or_default() += 1;
            }
        }
    }

    /// One line for each op: how often each status was given.
    pub fn ops_text(&self) -> String {
        let mut text = String::new();
        for (op, statuses) in &self.ops {
            let name = format::shape(*op).map_or("opening", |s| s.name);
            text.push_str(&format!("  {op:3} {name}: {}\n", counted(statuses)));
        }
        text
    }

    pub fn refusals_text(&self) -> String {
        if self.refusals.is_empty() { "none".to_string() } else { counted(&self.refusals) }
    }
}

pub fn counted<K: std::fmt::Display>(counts: &BTreeMap<K, u64>) -> String {
    let parts: Vec<String> = counts.iter().map(|(key, n)| format!("{key}: {n}")).collect();
    parts.join(", ")
}
