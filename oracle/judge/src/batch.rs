//! Several traces in one input, run by several programs, compared trace by
//! trace and line by line.

use std::io;

use format::{INPUT_LIMIT, Trace};

use crate::exceptions::Exceptions;
use crate::programs::{Program, Ran};
use crate::tally::Tally;

/// Programs that must agree: the first one judges. Only the last one's
/// answers may be excepted, and only if it is the program under test.
pub struct Panel {
    pub programs: Vec<Program>,
    pub last_is_under_test: bool,
}

pub struct Difference {
    pub trace: Trace,
    /// Index of the program that differs from the first.
    pub program: usize,
}

#[derive(Default)]
pub struct Batch {
    traces: Vec<Trace>,
    bytes: Vec<u8>,
}

impl Batch {
    /// Whether the trace can still be added: the input stays within its
    /// limit, and no trace of it ends badly before the last.
    pub fn takes(&self, trace: &Trace) -> bool {
        let closed = self.traces.last().is_some_and(Trace::ends_badly);
        !closed && (self.traces.is_empty() || self.bytes.len() + trace.bytes().len() <= INPUT_LIMIT)
    }

    pub fn add(&mut self, trace: Trace) {
        self.bytes.extend(trace.bytes());
        self.traces.push(trace);
    }

    pub fn is_empty(&self) -> bool {
        self.traces.is_empty()
    }

    /// Runs the batch and counts what is equal, up to the first difference.
    pub fn compare(
        &self,
        panel: &Panel,
        exceptions: &mut Exceptions,
        tally: &mut Tally,
    ) -> io::Result<Option<Difference>> {
        let ran =
            panel.programs.iter().map(|p| p.run(&self.bytes)).collect::<io::Result<Vec<_>>>()?;
        if let Some(who) = ran.iter().position(|r| r.outside) {
            let name = &panel.programs[who].name;
            return Err(io::Error::other(format!("a trace leaves the domain of {name}")));
        }
        let mut at = 0;
        for trace in &self.traces {
            let end = at + trace.lines();
            let mut equal = part(&ran[0], at, end);
            for (program, other) in ran.iter().enumerate().skip(1) {
                let excepting = panel.last_is_under_test && program + 1 == ran.len();
                let list = excepting.then_some(&*exceptions);
                match compare_lines(part(&ran[0], at, end), part(other, at, end), list) {
                    Verdict::Equal => {}
                    Verdict::Excepted { which, line } => {
                        exceptions.0[which].met += 1;
                        equal = &equal[..line];
                    }
                    Verdict::Differ => {
                        return Ok(Some(Difference { trace: trace.clone(), program }));
                    }
                }
            }
            tally.add(trace, equal);
            at = end;
        }
        let who = |program: usize| program.max(1).min(ran.len() - 1);
        if let Some(longer) = ran.iter().position(|r| r.lines.len() != at) {
            let trace = self.traces.last().cloned().unwrap_or_default();
            return Ok(Some(Difference { trace, program: who(longer) }));
        }
        let Some(failed) = ran.iter().position(|r| r.failed.is_some()) else {
            return Ok(None);
        };
        let trace = self.failing_trace(&panel.programs[failed])?;
        Ok(Some(Difference { trace, program: who(failed) }))
    }

    /// The trace on which the program fails alone, else the last.
    fn failing_trace(&self, program: &Program) -> io::Result<Trace> {
        for trace in &self.traces {
            if program.run(&trace.bytes())?.failed.is_some() {
                return Ok(trace.clone());
            }
        }
        Ok(self.traces.last().cloned().unwrap_or_default())
    }
}

/// The lines from `at` up to `end`, as far as the program wrote them.
fn part(ran: &Ran, at: usize, end: usize) -> &[String] {
    let all = &ran.lines;
    &all[at.min(all.len())..end.min(all.len())]
}

#[derive(Debug, PartialEq, Eq)]
pub enum Verdict {
    Equal,
    /// From this line on nothing is compared.
    Excepted {
        which: usize,
        line: usize,
    },
    Differ,
}

pub fn compare_lines(
    judge: &[String],
    other: &[String],
    exceptions: Option<&Exceptions>,
) -> Verdict {
    let Some(i) = first_difference(judge, other) else {
        return Verdict::Equal;
    };
    let excepted = match (exceptions, judge.get(i), other.get(i)) {
        (Some(list), Some(a), Some(b)) => list.of(a, b),
        _ => None,
    };
    excepted.map_or(Verdict::Differ, |which| Verdict::Excepted { which, line: i })
}

pub fn first_difference(a: &[String], b: &[String]) -> Option<usize> {
    let common = a.iter().zip(b).position(|(x, y)| x != y);
    common.or_else(|| (a.len() != b.len()).then(|| a.len().min(b.len())))
}
