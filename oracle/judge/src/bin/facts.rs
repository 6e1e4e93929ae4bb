//! Runs the small traces of facts/*.txt and compares what is answered with
//! what the text states after `=>`. With `--write` it states it instead.
//!
//! A refused or accepted opening is compared where the text states it after
//! the header. By default the original in both builds and the reading of 01
//! must answer as stated. A line in the text says otherwise:
//!
//! - `#! beyond`: outside the domain; the original alone answers, unchecked;
//! - `#! checked too`: there the checked build answers the same;
//! - `#! checked panics`: there the checked build panics;
//! - `#! both panic`: both builds panic, nothing is stated;
//! - `#! reading`: the reading of 01 alone answers.

use std::process::ExitCode;
use std::{fs, io};

use format::text::{self, Listing};
use judge::programs::{Built, Program};

fn main() -> ExitCode {
    let mut files: Vec<String> = std::env::args().skip(1).collect();
    let write = files.first().is_some_and(|f| f == "--write");
    if write {
        files.remove(0);
    }
    let mut wrong = 0;
    for file in &files {
        if let Err(why) = check(file, write) {
            println!("{file}: {why}");
            wrong += 1;
        }
    }
    println!("{} facts run, {wrong} not as stated", files.len());
    if wrong == 0 { ExitCode::SUCCESS } else { ExitCode::FAILURE }
}

fn check(file: &str, write: bool) -> Result<(), String> {
    let words = fs::read_to_string(file).map_err(|e| e.to_string())?;
    let listing = text::parse(&words)?;
    let built = Built::here().map_err(|e| e.to_string())?;
    let says = |directive: &str| words.lines().any(|line| line.trim() == directive);
    if says("#! both panic") {
        panics(&built.original(&["--beyond"]), &listing)?;
        return panics(&built.checked(&["--beyond"]), &listing);
    }
    let programs = if says("#! reading") {
        vec![built.reading()]
    } else if says("#! beyond") && says("#! checked too") {
        vec![built.original(&["--beyond"]), built.checked(&["--beyond"])]
    } else if says("#! beyond") {
        vec![built.original(&["--beyond"])]
    } else {
        vec![built.original(&[]), built.checked(&[]), built.reading()]
    };
    if write {
        let answers = answers(&programs[0], &listing).map_err(|e| e.to_string())?;
        fs::write(file, stated(&words, &answers)).map_err(|e| e.to_string())?;
    }
    let listing = if write {
        text::parse(&fs::read_to_string(file).map_err(|e| e.to_string())?)?
    } else {
        listing
    };
    for program in &programs {
        as_stated(program, &listing)?;
    }
    if says("#! checked panics") {
        panics(&built.checked(&["--beyond"]), &listing)?;
    }
    Ok(())
}

/// What a program answers, without op and hash.
#[derive(Default)]
struct Answers {
    openings: Vec<String>,
    /// To all records, in order.
    records: Vec<String>,
}

fn answers(program: &Program, listing: &Listing) -> io::Result<Answers> {
    let mut answers = Answers::default();
    for trace in &listing.traces {
        let ran = program.run(&trace.bytes())?;
        if let Some(how) = ran.failed {
            return Err(io::Error::other(format!("{} {how}", program.name)));
        }
        let mut lines = ran.lines.iter().map(|line| bare(line));
        answers.openings.extend(lines.next());
        answers.records.extend(lines);
    }
    Ok(answers)
}

fn bare(line: &str) -> String {
    let words: Vec<&str> = line.split(' ').collect();
    words[1.min(words.len())..words.len().max(2) - 1].join(" ")
}

fn as_stated(program: &Program, listing: &Listing) -> Result<(), String> {
    let answers = answers(program, listing).map_err(|e| e.to_string())?;
    let stated: Vec<&Option<String>> = listing.stated.iter().flatten().collect();
    let (openings, records) = (&answers.openings, &answers.records);
    if records.len() != stated.len() || openings.len() != listing.openings.len() {
        return Err(format!("{}: {} of {} records", program.name, records.len(), stated.len()));
    }
    for (i, (answer, stated)) in openings.iter().zip(&listing.openings).enumerate() {
        if stated.as_ref().is_some_and(|stated| stated != answer) {
            return Err(format!("{}: opening {} is answered {answer}", program.name, i + 1));
        }
    }
    for (i, (answer, stated)) in records.iter().zip(stated).enumerate() {
        if stated.as_ref() != Some(answer) {
            return Err(format!("{}: record {} is answered {answer}", program.name, i + 1));
        }
    }
    Ok(())
}

fn panics(program: &Program, listing: &Listing) -> Result<(), String> {
    let bytes: Vec<u8> = listing.traces.iter().flat_map(|t| t.bytes()).collect();
    let ran = program.run(&bytes).map_err(|e| e.to_string())?;
    if ran.panicked { Ok(()) } else { Err(format!("{} does not panic", program.name)) }
}

/// The text with each record's answer stated anew.
fn stated(words: &str, answers: &Answers) -> String {
    let mut openings = answers.openings.iter();
    let mut records = answers.records.iter();
    let mut out = String::new();
    for line in words.lines() {
        let call = line.split('#').next().unwrap_or("").split("=>").next().unwrap_or("").trim();
        let opens = call.starts_with("trace");
        let answer = if call.is_empty() {
            None
        } else if opens {
            openings.next()
        } else {
            records.next()
        };
        if call.is_empty() || (opens && !line.contains("=>")) {
            out.push_str(line);
        } else {
            let answer = answer.map_or("(none)", String::as_str);
            out.push_str(&format!("{call} => {answer}"));
            if let Some((_, comment)) = line.split_once('#') {
                out.push_str(&format!("  #{comment}"));
            }
        }
        out.push('\n');
    }
    out
}
