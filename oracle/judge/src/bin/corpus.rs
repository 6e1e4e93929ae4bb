//! Makes the stored corpora: `corpus DIR FACTS...` writes into DIR the
//! traces original, leaf, leaf-01 and forged, their answers, and what they
//! cover.

use std::collections::BTreeMap;
use std::fs;
use std::path::Path;
use std::process::ExitCode;

use format::{INPUT_LIMIT, Trace, text};
use generator::{Mode, place};
use judge::programs::{Built, Program};
use judge::tally::{Tally, counted};
use judge::{generated, leaves, walks};

/// A corpus stays below this, so that its answers, too, stay below the limit
/// of an input. The original's has long chains, whose answers are shorter than
/// they are.
const ORIGINAL_BYTES: usize = 170_000;
const FORGED_BYTES: usize = 150_000;

fn main() -> ExitCode {
    let args: Vec<String> = std::env::args().skip(1).collect();
    let Some((dir, facts)) = args.split_first() else {
        eprintln!("usage: corpus DIR FACTS...");
        return ExitCode::from(2);
    };
    match make(Path::new(dir), facts) {
        Ok(()) => ExitCode::SUCCESS,
        Err(why) => {
            eprintln!("corpus: {why}");
            ExitCode::FAILURE
        }
    }
}

fn make(dir: &Path, facts: &[String]) -> Result<(), String> {
    let built = Built::here().map_err(|e| e.to_string())?;
    let (honest_facts, forged_facts) = sorted(facts)?;
    let original = original_corpus(honest_facts);
    let forged = forged_corpus(forged_facts);
    let mut covered = String::new();
    for (name, traces, program) in [
        ("original", original, built.original(&[])),
        ("leaf", vec![leaves::by_the_original()], built.original(&[])),
        ("leaf-01", leaves::by_01(), built.reading()),
        ("forged", forged, built.reading()),
    ] {
        covered.push_str(&store(dir, name, &traces, &program)?);
    }
    fs::write(dir.join("COVERAGE.txt"), covered).map_err(|e| e.to_string())
}

/// The facts' traces: those on the original's domain, those that are 01's.
fn sorted(files: &[String]) -> Result<(Vec<Trace>, Vec<Trace>), String> {
    let (mut honest, mut forged) = (Vec::new(), Vec::new());
    for file in files {
        let words = fs::read_to_string(file).map_err(|e| format!("{file}: {e}"))?;
        let traces = text::parse(&words).map_err(|e| format!("{file}: {e}"))?.traces;
        if words.contains("#! reading") {
            forged.extend(traces);
        } else if !words.contains("#! beyond") && !words.contains("#! both panic") {
            honest.extend(traces);
        }
    }
    Ok((honest, forged))
}

/// Traces up to the corpus's limit, none too long and none with a bad ending.
struct Collected {
    traces: Vec<Trace>,
    bytes: usize,
    limit: usize,
}

impl Collected {
    fn new(traces: Vec<Trace>, limit: usize) -> Self {
        let bytes = traces.iter().map(|t| t.bytes().len()).sum();
        Self { traces, bytes, limit }
    }

    fn offer(&mut self, trace: Trace, most: usize) {
        let bytes = trace.bytes().len();
        if !trace.ends_badly() && bytes <= most && self.bytes + bytes <= self.limit {
            self.bytes += bytes;
            self.traces.push(trace);
        }
    }
}

fn original_corpus(facts: Vec<Trace>) -> Vec<Trace> {
    let mut corpus = Collected::new(facts, ORIGINAL_BYTES);
    for walk in walks::traces() {
        corpus.offer(walk, 30_000);
    }
    for size in place::SIZES {
        // A full ring of 2,048 slots takes many bytes; it is met once.
        corpus.offer(generated(Mode::Full, size, 0), if size == 2_048 { 60_000 } else { 4_000 });
        corpus.offer(generated(Mode::Full, size, 1), 2_000);
    }
    for number in 0..12 {
        for size in place::SIZES {
            corpus.offer(generated(Mode::Honest, size, number), 2_500);
            corpus.offer(generated(Mode::Hostile, size, number), 3_500);
            corpus.offer(generated(Mode::Hostile, size, number + 100), 3_500);
            if number == 0 {
                corpus.offer(generated(Mode::Long, size.min(256), number), 5_500);
            }
        }
    }
    corpus.traces
}

fn forged_corpus(facts: Vec<Trace>) -> Vec<Trace> {
    let mut corpus = Collected::new(facts, FORGED_BYTES);
    for number in 0..40 {
        for size in [1, 2, 3, 4, 5, 7, 8, 16] {
            corpus.offer(generated(Mode::Forged, size, number), 5_000);
        }
        for size in [64, 255, 2_048] {
            corpus.offer(generated(Mode::Forged, size, number), 3_000);
        }
    }
    corpus.traces
}

/// Stores the traces and their answers; says what they cover.
fn store(dir: &Path, name: &str, traces: &[Trace], program: &Program) -> Result<String, String> {
    let bytes: Vec<u8> = traces.iter().flat_map(|t| t.bytes()).collect();
    let ran = program.run(&bytes).map_err(|e| e.to_string())?;
    if let Some(how) = &ran.failed {
        return Err(format!("{name}: {} {how}", program.name));
    }
    let wanted: usize = traces.iter().map(Trace::lines).sum();
    let answers = ran.lines.join("\n") + "\n";
    if bytes.len().max(answers.len()) > INPUT_LIMIT || ran.lines.len() != wanted {
        return Err(format!(
            "{name}: {} bytes, {} of answers, {} of {wanted} lines",
            bytes.len(),
            answers.len(),
            ran.lines.len()
        ));
    }
    let put = |end: &str, what: &[u8]| {
        fs::write(dir.join(format!("{name}.{end}")), what).map_err(|e| e.to_string())
    };
    put("trace", &bytes)?;
    put("answers", answers.as_bytes())?;
    Ok(coverage(name, traces, &bytes, &ran.lines))
}

fn coverage(name: &str, traces: &[Trace], bytes: &[u8], lines: &[String]) -> String {
    let mut sizes: BTreeMap<u32, u64> = BTreeMap::new();
    let mut tally = Tally::default();
    let mut at = 0;
    for trace in traces {
        *sizes.entry(trace.header.size).or_default() += 1;
        tally.add(trace, &lines[at..at + trace.lines()]);
        at += trace.lines();
    }
    format!(
        "{name}: {} bytes, {} traces, {} records\n  traces by size: {}\n  refusals: {}\n  \
         avail cursors answered, by size in round true and false: {}\n  \
         used cursors answered, by size in round true and false: {}\n  \
         by op, then status: number\n{}",
        bytes.len(),
        tally.traces,
        tally.records,
        counted(&sizes),
        tally.refusals_text(),
        rounds(traces, lines, ["8", "38"]),
        rounds(traces, lines, ["9", "39"]),
        tally.ops_text()
    )
}

/// How many of the rings' cursors were answered in each round, by size.
fn rounds(traces: &[Trace], lines: &[String], ops: [&str; 2]) -> String {
    let mut seen: BTreeMap<u32, [u64; 2]> = BTreeMap::new();
    let mut at = 0;
    for trace in traces {
        for line in &lines[at..at + trace.lines()] {
            let words: Vec<&str> = line.split(' ').collect();
            if let [op, "0", _, wrap, _] = words[..]
                && ops.contains(&op)
            {
                seen.entry(trace.header.size).or_default()[usize::from(wrap == "0")] += 1;
            }
        }
        at += trace.lines();
    }
    let parts: Vec<String> = seen.iter().map(|(size, [t, f])| format!("{size}: {t} {f}")).collect();
    if parts.is_empty() { "none".to_string() } else { parts.join(", ") }
}
