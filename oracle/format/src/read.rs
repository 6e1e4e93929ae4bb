//! Reading an input, trace by trace and record by record.

use crate::{
    COUNT_LIMIT, Ending, HEADER_BYTES, Header, MAGIC, REGION_LIMIT, Record, Shape, TABLE_ENTRIES,
    Trace, Width, shape,
};

/// The input is not well formed here: the line `bad`, and the run ends.
#[derive(Debug, PartialEq, Eq)]
pub struct Bad;

pub struct Reader<'a> {
    rest: &'a [u8],
}

impl<'a> Reader<'a> {
    pub fn new(input: &'a [u8]) -> Self {
        Self { rest: input }
    }

    pub fn at_end(&self) -> bool {
        self.rest.is_empty()
    }

    pub fn header(&mut self) -> Result<Header, Bad> {
        let bytes = self.take(HEADER_BYTES)?;
        let mut words = [0; 10];
        for (word, four) in words.iter_mut().zip(bytes.chunks(4)) {
            *word = little(four) as u32;
        }
        let [magic, size, table, driver, device, region, seed, hash_every, records, _] = words;
        if magic != MAGIC || region > REGION_LIMIT || size > 65_535 {
            return Err(Bad);
        }
        Ok(Header { size, table, driver, device, region, seed, hash_every, records })
    }

    pub fn record(&mut self, header: &Header) -> Result<Record, Bad> {
        let op = self.take(1)?[0];
        let shape = shape(op).ok_or(Bad)?;
        let nums = self.numbers(shape)?;
        let record = Record { op, nums };
        if fits(&record, header) { Ok(record) } else { Err(Bad) }
    }

    /// All traces of an input that ends well.
    pub fn traces(mut self) -> Result<Vec<Trace>, Bad> {
        let mut traces = Vec::new();
        while !self.at_end() {
            let header = self.header()?;
            let records =
                (0..header.records).map(|_| self.record(&header)).collect::<Result<_, _>>()?;
            traces.push(Trace { header, records, ending: Ending::Well });
        }
        Ok(traces)
    }

    fn numbers(&mut self, shape: &Shape) -> Result<Vec<u64>, Bad> {
        let mut nums = Vec::new();
        for width in shape.head {
            nums.push(self.number(*width)?);
        }
        let widths: Vec<Width> = shape.widths(&nums).skip(shape.head.len()).collect();
        for width in widths {
            nums.push(self.number(width)?);
        }
        Ok(nums)
    }

    fn number(&mut self, width: Width) -> Result<u64, Bad> {
        let num = little(self.take(width.bytes())?);
        match width {
            Width::Flag if num > 1 => Err(Bad),
            Width::Count if num > COUNT_LIMIT => Err(Bad),
            _ => Ok(num),
        }
    }

    fn take(&mut self, n: usize) -> Result<&'a [u8], Bad> {
        let (taken, rest) = self.rest.split_at_checked(n).ok_or(Bad)?;
        self.rest = rest;
        Ok(taken)
    }
}

fn little(bytes: &[u8]) -> u64 {
    bytes.iter().rev().fold(0, |n, b| n << 8 | u64::from(*b))
}

/// Whether the record stays inside the region and the tables, and names a
/// field or table that is there.
fn fits(record: &Record, header: &Header) -> bool {
    match record.op {
        64 | 65 => record.num(0) + record.num(1) <= u64::from(header.region),
        66 => record.num(0) <= 10,
        67 => record.num(0) <= 9,
        68 => record.num(0) <= 2 && record.num(1) < TABLE_ENTRIES,
        72 => record.num(0) + record.num(1) <= TABLE_ENTRIES,
        73 => record.num(0) <= 2 && record.num(1) + record.num(2) <= TABLE_ENTRIES,
        _ => true,
    }
}
