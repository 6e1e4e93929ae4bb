//! Generates traces, runs the original in both builds, the reading of 01 and
//! a given program over them, and compares their answers line by line.

use std::io::{self, Write};
use std::process::ExitCode;
use std::time::{Duration, Instant};

use format::{Trace, text};
use generator::Mode;
use judge::batch::{Batch, Difference, Panel, Verdict, compare_lines, first_difference};
use judge::exceptions::Exceptions;
use judge::programs::{Built, Program};
use judge::shrink::Shrinker;
use judge::tally::Tally;

const USAGE: &str = "usage: compare [--seed S] [--traces N] [--from N] [--mode M] \
[--with COMMAND] [--exceptions FILE] [--ops]";

enum Outcome {
    Equal,
    Differed,
    /// No trace was run by two programs, which is no success.
    Nothing(&'static str),
}

struct Options {
    seed: u64,
    traces: u64,
    from: u64,
    mode: Option<Mode>,
    with: Option<String>,
    exceptions: Exceptions,
    ops: bool,
}

fn main() -> ExitCode {
    let options = match options() {
        Ok(options) => options,
        Err(why) => {
            eprintln!("compare: {why}\n{USAGE}");
            return ExitCode::from(2);
        }
    };
    match compare(options) {
        Ok(Outcome::Equal) => ExitCode::SUCCESS,
        Ok(Outcome::Differed) => ExitCode::FAILURE,
        Ok(Outcome::Nothing(why)) => {
            eprintln!("compare: {why}");
            ExitCode::from(2)
        }
        Err(e) => {
            eprintln!("compare: {e}");
            ExitCode::from(2)
        }
    }
}

fn options() -> Result<Options, String> {
    let mut options = Options {
        seed: 1,
        traces: 600,
        from: 0,
        mode: None,
        with: None,
        exceptions: Exceptions::default(),
        ops: false,
    };
    let mut args = std::env::args().skip(1);
    while let Some(arg) = args.next() {
        if arg == "--ops" {
            options.ops = true;
            continue;
        }
        let value = args.next().ok_or(format!("{arg} needs a value"))?;
        let number = || value.parse::<u64>().map_err(|_| format!("no number: {value}"));
        match arg.as_str() {
            "--seed" => options.seed = number()?,
            "--traces" => options.traces = number()?,
            "--from" => options.from = number()?,
            "--mode" if value == "all" => options.mode = None,
            "--mode" => options.mode = Some(Mode::named(&value).ok_or(format!("no mode {value}"))?),
            "--with" => options.with = Some(value),
            "--exceptions" => {
                let list = std::fs::read_to_string(&value).map_err(|e| format!("{value}: {e}"))?;
                options.exceptions = Exceptions::parse(&list)?;
            }
            _ => return Err(format!("no option {arg}")),
        }
    }
    if options.from.checked_add(options.traces).is_none() {
        return Err("--from and --traces together pass the largest number".to_string());
    }
    Ok(options)
}

/// One of the two courts: traces of the original's domain, judged by the
/// original, and forged ones, judged by the reading of 01.
struct Court {
    panel: Panel,
    batch: Batch,
    tally: Tally,
}

impl Court {
    fn new(mut programs: Vec<Program>, with: Option<&Program>) -> Self {
        programs.extend(with.cloned());
        let panel = Panel { programs, last_is_under_test: with.is_some() };
        Self { panel, batch: Batch::default(), tally: Tally::default() }
    }

    fn hear(&mut self, trace: Trace, list: &mut Exceptions) -> io::Result<Option<Difference>> {
        let difference = if self.batch.takes(&trace) { None } else { self.close(list)? };
        self.batch.add(trace);
        Ok(difference)
    }

    fn close(&mut self, list: &mut Exceptions) -> io::Result<Option<Difference>> {
        let batch = std::mem::take(&mut self.batch);
        if batch.is_empty() {
            return Ok(None);
        }
        batch.compare(&self.panel, list, &mut self.tally)
    }

    fn summary(&self) -> String {
        let names: Vec<&str> = self.panel.programs.iter().map(|p| p.name.as_str()).collect();
        format!(
            "{} traces with {} records ({} ended badly) by {}; refusals {}",
            self.tally.traces,
            self.tally.records,
            self.tally.bad_endings,
            names.join(" = "),
            self.tally.refusals_text()
        )
    }
}

fn compare(mut options: Options) -> io::Result<Outcome> {
    if options.mode == Some(Mode::Forged) && options.with.is_none() {
        return Ok(Outcome::Nothing(
            "without --with there is nothing to compare forged traces with",
        ));
    }
    let built = Built::here()?;
    let with = options.with.as_ref().map(|line| Program::shell("the given program", line));
    let originals = vec![built.original(&[]), built.checked(&[]), built.reading()];
    let mut domain = Court::new(originals, with.as_ref());
    let mut forged = Court::new(vec![built.reading()], with.as_ref());
    let mut told = Instant::now();
    for number in options.from..options.from + options.traces {
        let mode = options.mode.unwrap_or(Mode::ALL[(number % 6) as usize]);
        let trace = generator::trace(options.seed, number, mode);
        let court = if mode.is_the_originals() { &mut domain } else { &mut forged };
        if let Some(difference) = court.hear(trace, &mut options.exceptions)? {
            return report(&court.panel, &difference, &options.exceptions)
                .map(|()| Outcome::Differed);
        }
        if told.elapsed() > Duration::from_secs(5) {
            told = Instant::now();
            let records = domain.tally.records + forged.tally.records;
            eprintln!(
                "  {} of {} traces, {records} records equal",
                number - options.from,
                options.traces
            );
        }
    }
    for court in [&mut domain, &mut forged] {
        if let Some(difference) = court.close(&mut options.exceptions)? {
            return report(&court.panel, &difference, &options.exceptions)
                .map(|()| Outcome::Differed);
        }
    }
    let with_forged = if with.is_some() { forged.tally.traces } else { 0 };
    if domain.tally.traces + with_forged == 0 {
        return Ok(Outcome::Nothing("nothing was compared"));
    }
    summarize(&options, &domain, &forged);
    Ok(Outcome::Equal)
}

fn summarize(options: &Options, domain: &Court, forged: &Court) {
    if options.ops {
        println!("on the original's domain, by op, then status: number");
        print!("{}", domain.tally.ops_text());
        println!("forged, by op, then status: number");
        print!("{}", forged.tally.ops_text());
    }
    for exception in &options.exceptions.0 {
        println!("exception {}: met {} times", exception.name, exception.met);
    }
    let mut parts = Vec::new();
    if domain.tally.traces > 0 {
        parts.push(domain.summary());
    }
    if forged.tally.traces > 0 {
        let alone = if options.with.is_none() { " alone, nothing to compare with" } else { "" };
        parts.push(format!("forged: {}{alone}", forged.summary()));
    }
    let met: u64 = options.exceptions.0.iter().map(|e| e.met).sum();
    let but = if met == 0 { String::new() } else { format!(" but {met} traces with an exception") };
    println!("seed {}: {}; nothing differed{but}", options.seed, parts.join("; "));
}

/// Shows the difference with its trace cut down.
fn report(panel: &Panel, difference: &Difference, list: &Exceptions) -> io::Result<()> {
    let judge = &panel.programs[0];
    let other = &panel.programs[difference.program];
    let excepting = panel.last_is_under_test && difference.program + 1 == panel.programs.len();
    eprintln!("{} differs from {}; cutting its trace down", other.name, judge.name);
    let mut shows = |trace: &Trace| differs(judge, other, excepting.then_some(list), trace);
    let trace = match shows(&difference.trace) {
        Some(_) => Shrinker { shows: &mut shows }.shrink(&difference.trace),
        None => {
            println!("the trace alone does not differ, only after those before it in its input:");
            difference.trace.clone()
        }
    };
    let bytes = trace.bytes();
    let (judged, answered) = (judge.run(&bytes)?, other.run(&bytes)?);
    let (a, b) = (&judged.lines, &answered.lines);
    println!("{}", text::show_trace(&trace));
    match first_difference(a, b) {
        None => println!("# equal lines"),
        Some(i) => {
            // Escaped, so that a stray carriage return is seen.
            let shown = |lines: &[String]| {
                lines.get(i).map_or("(no line)".to_string(), |line| line.escape_debug().to_string())
            };
            println!("# line {} of the answers:", i + 1);
            println!("#   {}: {}", judge.name, shown(a));
            println!("#   {}: {}", other.name, shown(b));
        }
    }
    for (program, ran) in [(judge, &judged), (other, &answered)] {
        if let Some(how) = &ran.failed {
            println!("#   {} {how}", program.name);
        }
    }
    println!("{} differs from {}: {} records show it", other.name, judge.name, trace.records.len());
    io::stdout().flush()
}

/// How many records are enough to show that the two differ, if they do.
fn differs(
    judge: &Program,
    other: &Program,
    list: Option<&Exceptions>,
    trace: &Trace,
) -> Option<usize> {
    let bytes = trace.bytes();
    let (a, b) = (judge.run(&bytes).ok()?, other.run(&bytes).ok()?);
    if a.outside || b.outside {
        return None;
    }
    match compare_lines(&a.lines, &b.lines, list) {
        Verdict::Differ => first_difference(&a.lines, &b.lines),
        _ if a.failed.is_some() || b.failed.is_some() => Some(trace.records.len()),
        _ => None,
    }
}
