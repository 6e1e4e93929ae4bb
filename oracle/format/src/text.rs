//! Traces as text, one line for each header and record:
//!
//! ```text
//! # a comment
//! trace size=4 table=0 driver=64 device=68 region=72 seed=0 hash_every=0
//! submit_one 0x1000 64 1 => 0 3
//! ```
//!
//! A call's numbers stand in the order of its fields. After `=>` may stand the
//! answer's status and values, without op and hash; after a header's `=>` the
//! opening's status.

use crate::{COUNT_LIMIT, Ending, Header, Record, Trace, Width, shape, shape_named};

#[derive(Debug, Default)]
pub struct Listing {
    pub traces: Vec<Trace>,
    /// For each trace's records, the answer that the text states.
    pub stated: Vec<Vec<Option<String>>>,
    /// For each trace, the opening's status, where the text states it.
    pub openings: Vec<Option<String>>,
}

pub fn parse(text: &str) -> Result<Listing, String> {
    let mut listing = Listing::default();
    for (i, line) in text.lines().enumerate() {
        let line = line.split('#').next().unwrap_or("").trim();
        if !line.is_empty() {
            parse_line(line, &mut listing).map_err(|e| format!("line {}: {e}", i + 1))?;
        }
    }
    Ok(listing)
}

fn parse_line(line: &str, listing: &mut Listing) -> Result<(), String> {
    let (call, stated) = match line.split_once("=>") {
        Some((call, answer)) => (call.trim(), Some(answer.trim().to_string())),
        None => (line, None),
    };
    let mut words = call.split_whitespace();
    let name = words.next().ok_or("no call")?;
    if name == "trace" {
        let header = parse_header(words)?;
        listing.traces.push(Trace { header, ..Trace::default() });
        listing.stated.push(Vec::new());
        listing.openings.push(stated);
        return Ok(());
    }
    let record = parse_record(name, words)?;
    let trace = listing.traces.last_mut().ok_or("a record before any trace")?;
    trace.records.push(record);
    trace.header.records += 1;
    listing.stated.last_mut().ok_or("no trace")?.push(stated);
    Ok(())
}

fn parse_header<'a>(words: impl Iterator<Item = &'a str>) -> Result<Header, String> {
    let mut header = Header::default();
    for word in words {
        let (key, value) = word.split_once('=').ok_or(format!("no = in {word}"))?;
        let value = number(value)? as u32;
        let field = match key {
            "size" => &mut header.size,
            "table" => &mut header.table,
            "driver" => &mut header.driver,
            "device" => &mut header.device,
            "region" => &mut header.region,
            "seed" => &mut header.seed,
            "hash_every" => &mut header.hash_every,
            _ => return Err(format!("no header field {key}")),
        };
        *field = value;
    }
    Ok(header)
}

fn parse_record<'a>(name: &str, words: impl Iterator<Item = &'a str>) -> Result<Record, String> {
    let shape = shape_named(name).ok_or(format!("no call {name}"))?;
    let nums = words.map(number).collect::<Result<Vec<u64>, _>>()?;
    if nums.len() < shape.head.len() {
        return Err(format!("{name} takes {} numbers", shape.head.len()));
    }
    let widths: Vec<Width> = shape.widths(&nums).collect();
    if widths.len() != nums.len() {
        return Err(format!("{name} takes {} numbers, not {}", widths.len(), nums.len()));
    }
    for (width, num) in widths.iter().zip(&nums) {
        if !holds(*width, *num) {
            return Err(format!("{num} is too large in {name}"));
        }
    }
    Ok(Record { op: shape.op, nums })
}

fn holds(width: Width, num: u64) -> bool {
    match width {
        Width::Flag => num <= 1,
        Width::Count => num <= COUNT_LIMIT,
        Width::Long => true,
        other => num < 1 << (8 * other.bytes()),
    }
}

fn number(word: &str) -> Result<u64, String> {
    let parsed = match word.strip_prefix("0x") {
        Some(hex) => u64::from_str_radix(hex, 16),
        None => word.parse(),
    };
    parsed.map_err(|_| format!("no number: {word}"))
}

pub fn show_header(h: &Header) -> String {
    format!(
        "trace size={} table={} driver={} device={} region={} seed={} hash_every={}",
        h.size, h.table, h.driver, h.device, h.region, h.seed, h.hash_every
    )
}

pub fn show_record(record: &Record) -> String {
    let mut line = match shape(record.op) {
        Some(shape) => shape.name.to_string(),
        None => format!("op{}", record.op),
    };
    for num in &record.nums {
        line.push_str(&format!(" {num}"));
    }
    line
}

pub fn show_trace(trace: &Trace) -> String {
    let mut text = show_header(&trace.header);
    for record in &trace.records {
        text.push('\n');
        text.push_str(&show_record(record));
    }
    if let Ending::InRecord(bytes) | Ending::InHeader(bytes) = &trace.ending {
        text.push_str(&format!("\n# then the bytes {bytes:?}"));
    }
    text
}
