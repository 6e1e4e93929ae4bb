//! The corpora of records that do not touch the ring: what the original
//! answers, and what is document 01's alone.

use format::{Header, REGION_LIMIT, Record, Trace};
use generator::Mode;

use crate::generated;

/// Every small cursor and event by enumeration, then mixed ones.
pub fn by_the_original() -> Trace {
    let size = 8;
    let header =
        Header { size: 8, table: 0, driver: 128, device: 132, region: 136, ..Header::default() };
    let mut records = small_cursors();
    records.extend(small_notifies());
    records.extend(every_flag_bit());
    for number in 0..60 {
        // Their region is another one, so their overwrites and looks go.
        let mixed = generated(Mode::Leaf, size, number).records;
        records.extend(mixed.into_iter().filter(|r| r.op != 64 && r.op != 65));
        records.push(Record::new(64, [number * 2 + 3, 3, number, 255 - number, 7]));
        records.push(Record::new(65, [number * 2, 8]));
    }
    let mut trace = Trace { header, records, ..Trace::default() };
    trace.header.records = trace.header().records;
    trace
}

fn small_cursors() -> Vec<Record> {
    let mut records = Vec::new();
    for size in 1..=4 {
        for head in 0..size {
            for wrap in 0..2 {
                records.push(Record::new(96, [size, head, wrap]));
                records.extend((0..=size).map(|n| Record::new(97, [size, head, wrap, n])));
            }
        }
    }
    records
}

/// DESC for every event, old and new cursor of rings of one to four slots.
fn small_notifies() -> Vec<Record> {
    let mut records = Vec::new();
    for size in 1..=4 {
        for event in 0..=size {
            for (old, new) in (0..size).flat_map(|old| (0..size).map(move |new| (old, new))) {
                for wraps in 0..4 {
                    let words = event | (wraps & 1) << 15;
                    records.push(Record::new(98, [words, 2, size, old, 1, new, wraps >> 1]));
                }
            }
        }
    }
    records
}

fn every_flag_bit() -> Vec<Record> {
    let mut records = Vec::new();
    for bits in (0..16).map(|i| 1 << i).chain([0, 65_535, 32_896, 32_768 + 1, 128 + 7]) {
        for wrap in 0..2 {
            records.push(Record::new(101, [bits, wrap]));
            records.push(Record::new(99, [bits, 64, 3, bits, wrap]));
            records.push(Record::new(100, [bits, 5, 3, bits, wrap]));
            records.push(Record::new(103, [bits, bits, 65_535 - bits, wrap]));
        }
        records.extend((0..4).map(|flags| Record::new(102, [bits, bits, flags])));
        records.push(Record::new(104, [bits, bits]));
    }
    records
}

/// Places at and past the size, chains at their edges, refused cursors and
/// notifies; then openings that are refused, each with records that are passed
/// over, and a good one after them.
pub fn by_01() -> Vec<Trace> {
    let mut records = places(8);
    records.extend(chains());
    records.extend(refused_cursors());
    let mut traces = vec![trace(place(8), records)];
    traces.push(trace(Header { table: 16, driver: 4, device: 0, ..place(1) }, places(1)));
    for header in refused_headers() {
        traces.push(trace(header, passed_over(header.region)));
    }
    traces.push(trace(Header { seed: 7, hash_every: 2, ..place(2_048) }, places(2_048)));
    traces
}

/// The table at 0 and the two events after it.
fn place(size: u32) -> Header {
    let end = size * 16;
    Header {
        size,
        driver: end,
        device: end + 4,
        region: end + 8,
        hash_every: 1,
        ..Header::default()
    }
}

fn trace(header: Header, records: Vec<Record>) -> Trace {
    let header = Header { records: records.len() as u32, ..header };
    Trace { header, records, ..Trace::default() }
}

fn places(size: u64) -> Vec<Record> {
    let indices = [0, size - 1, size, size + 1, 32_768, 65_535];
    indices.into_iter().map(|index| Record::new(105, [index])).collect()
}

fn chains() -> Vec<Record> {
    let mut records = Vec::new();
    for n in [0_u64, 1, 2, 5] {
        for readable in [0, n / 2, n, n + 1, 65_536 + n, 1 << 32, u64::MAX] {
            for m in [n, n + 1, n.saturating_sub(1), 4_096] {
                records.push(Record::new(107, [n, m, readable]));
            }
            records.extend((108..=111).map(|op| Record::new(op, [n, readable])));
        }
    }
    // The longest that a record takes, with few numbers handed back.
    for (op, readable) in [(108, 2), (109, 4_095), (110, 1), (111, 4_094), (108, 4_097)] {
        records.push(Record::new(op, [4_096, readable]));
    }
    for readable in [4_095, 4_096, 4_097] {
        records.push(Record::new(107, [4_096, 4_096, readable]));
    }
    records
}

/// 7 of each: sizes, heads and moves at and past their edges, beside ones
/// that are accepted.
fn refused_cursors() -> Vec<Record> {
    let mut records = Vec::new();
    let sizes = [0, 1, 2, 4, 32_768, 32_769, 65_535];
    for size in sizes {
        let heads = [0, size.max(1) - 1, size, (size + 1).min(65_535), 65_535];
        for head in heads {
            records.push(Record::new(96, [size, head, 1]));
            for n in [0, size, (size + 1).min(65_535), 65_535] {
                records.push(Record::new(97, [size, head, 0, n]));
            }
            for flags in [0, 1, 2] {
                records.push(Record::new(98, [0, flags, size, head, 1, 0, 1]));
                records.push(Record::new(98, [0, flags, size, 0, 1, head, 0]));
            }
        }
    }
    records
}

fn refused_headers() -> Vec<Header> {
    let good = place(4);
    let large = |size: u32| Header { region: REGION_LIMIT, ..place(size) };
    vec![
        // 6: the size.
        Header { size: 0, ..good },
        Header { size: 32_769, ..good },
        Header { size: 65_535, ..good },
        // An area that is misaligned.
        Header { table: 8, region: 200, driver: 160, device: 164, ..good },
        Header { driver: 66, region: 200, device: 164, ..good },
        Header { device: 69, region: 200, ..good },
        // An area outside the region.
        Header { region: good.region - 1, ..good },
        Header { table: 16, driver: 0, ..good },
        Header { driver: good.region, ..good },
        Header { device: u32::MAX - 3, ..good },
        Header { region: 0, ..good },
        large(4_096),
        // Two areas that overlap.
        Header { driver: 60, ..good },
        Header { device: 0, ..good },
        Header { device: 64, ..good },
        // 8: more slots than the lent tables have entries.
        large(2_049),
        large(4_095),
    ]
}

/// Records of every kind that a leaf trace has, within the region.
fn passed_over(region: u32) -> Vec<Record> {
    let mut records = vec![Record::new(65, [u64::from(region), 0])];
    if region > 2 {
        records.push(Record::new(64, [u64::from(region) - 2, 2, 1, 2]));
    }
    records.extend(places(4));
    records.push(Record::new(96, [0, 0, 1]));
    records.push(Record::new(97, [4, 3, 1, 4]));
    records.push(Record::new(107, [2, 3, 1]));
    records.push(Record::new(109, [2, 1]));
    records
}
