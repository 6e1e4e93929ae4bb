//! What a trace stands on: the region, the lent tables, the poll outputs, how
//! much of each is lent, the two ends' records and the checkpoint registers.

use crate::consumer::{self, Consumer, Outputs};
use crate::layout::Layout;
use crate::producer::{self, Producer, Tables};
use crate::refuse::Answer;
use crate::rollback::{Checkpoint, FIRST};
use crate::trace::Header;

/// "Three lent tables ... and the two poll outputs have 2,048 entries each".
pub const ENTRIES: usize = 2048;

/// How many entries of each are lent, from the first on: op 69's six numbers.
#[derive(Clone, PartialEq)]
pub struct Lending {
    bytes: usize,
    free_ids: usize,
    producer_counts: usize,
    consumer_counts: usize,
    addresses: usize,
    lengths: usize,
}

/// Everything that is lent to calls.
#[derive(Clone, PartialEq)]
pub struct Ground {
    pub region: Vec<u8>,
    pub free_ids: Vec<u16>,
    pub producer_counts: Vec<u16>,
    pub consumer_counts: Vec<u16>,
    pub addresses: Vec<u64>,
    pub lengths: Vec<u32>,
    lending: Lending,
}

/// What the next call is lent.
pub struct Lent<'a> {
    pub bytes: &'a mut [u8],
    pub tables: Tables<'a>,
    pub consumer_counts: &'a mut [u16],
    pub outputs: Outputs<'a>,
}

#[derive(Clone, PartialEq)]
pub struct World {
    pub ground: Ground,
    pub producer: Producer,
    pub consumer: Consumer,
    pub registers: [Checkpoint; 256],
}

/// "The region's first bytes: with seed 0 all zero; otherwise x starts as the
/// seed and for each byte in order x = x * 16807 % 2147483647, the byte being
/// x / 256 % 256."
pub fn first_bytes(seed: u32, length: usize) -> Vec<u8> {
    let mut region = vec![0; length];
    if seed != 0 {
        let mut x = u64::from(seed);
        for byte in &mut region {
            x = x * 16807 % 2_147_483_647;
            *byte = (x / 256 % 256) as u8;
        }
    }
    region
}

impl Ground {
    /// "every bit 1 at the start"; all of it is lent.
    fn new(seed: u32, region_length: usize) -> Ground {
        Ground {
            region: first_bytes(seed, region_length),
            free_ids: vec![u16::MAX; ENTRIES],
            producer_counts: vec![u16::MAX; ENTRIES],
            consumer_counts: vec![u16::MAX; ENTRIES],
            addresses: vec![u64::MAX; ENTRIES],
            lengths: vec![u32::MAX; ENTRIES],
            lending: Lending {
                bytes: region_length,
                free_ids: ENTRIES,
                producer_counts: ENTRIES,
                consumer_counts: ENTRIES,
                addresses: ENTRIES,
                lengths: ENTRIES,
            },
        }
    }

    /// Op 69: "each number is cut to what there is, and a later 69 can lend
    /// more again".
    pub fn set_lending(&mut self, numbers: [u32; 6]) {
        let [bytes, free_ids, producer_counts, consumer_counts, addresses, lengths] =
            numbers.map(|number| number as usize);
        self.lending = Lending {
            bytes: bytes.min(self.region.len()),
            free_ids: free_ids.min(ENTRIES),
            producer_counts: producer_counts.min(ENTRIES),
            consumer_counts: consumer_counts.min(ENTRIES),
            addresses: addresses.min(ENTRIES),
            lengths: lengths.min(ENTRIES),
        };
    }

    pub fn lend(&mut self) -> Lent<'_> {
        let lending = &self.lending;
        Lent {
            bytes: &mut self.region[..lending.bytes],
            tables: Tables {
                free_ids: &mut self.free_ids[..lending.free_ids],
                counts: &mut self.producer_counts[..lending.producer_counts],
            },
            consumer_counts: &mut self.consumer_counts[..lending.consumer_counts],
            outputs: Outputs {
                addresses: &mut self.addresses[..lending.addresses],
                lengths: &mut self.lengths[..lending.lengths],
            },
        }
    }

    /// "Tables: 0 free IDs, 1 the producer's counts, 2 the consumer's counts."
    pub fn table(&mut self, number: u8) -> &mut [u16] {
        match number {
            0 => &mut self.free_ids,
            1 => &mut self.producer_counts,
            _ => &mut self.consumer_counts,
        }
    }

    pub fn open_producer(&mut self, layout: Layout) -> Answer<Producer> {
        let lent = self.lend();
        producer::open(layout, lent.bytes, lent.tables)
    }

    pub fn open_consumer(&mut self, layout: Layout) -> Answer<Consumer> {
        let lent = self.lend();
        consumer::open(layout, lent.bytes, lent.consumer_counts)
    }
}

impl World {
    /// "Both ends are then opened over it, the producer first."
    pub fn open(header: &Header) -> Answer<World> {
        let mut ground = Ground::new(header.seed, header.region_length);
        let producer = ground.open_producer(header.layout)?;
        let consumer = ground.open_consumer(header.layout)?;
        Ok(World { ground, producer, consumer, registers: [FIRST; 256] })
    }
}
