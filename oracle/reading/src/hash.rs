//! The trace format's HASH: "h = 1, then for each number x in order
//! h = (h * 257 + x % 1000000007) % 1000000007".

use crate::world::World;

const MODULUS: u64 = 1_000_000_007;

pub struct Hash(u64);

impl Hash {
    pub fn new() -> Hash {
        Hash(1)
    }

    pub fn value(&self) -> u64 {
        self.0
    }

    pub fn take(&mut self, x: u64) {
        self.0 = (self.0 * 257 + x % MODULUS) % MODULUS;
    }

    fn take_all(&mut self, numbers: &[u64]) {
        numbers.iter().for_each(|&x| self.take(x));
    }

    fn take_entries(&mut self, entries: &[u16]) {
        entries.iter().for_each(|&x| self.take(u64::from(x)));
    }

    /// Every byte in order. Four at a time, one remainder for the four: the
    /// sums stay below 2^64, and the result is the same.
    pub fn take_bytes(&mut self, bytes: &[u8]) {
        const P1: u64 = 257;
        const P2: u64 = P1 * P1;
        const P3: u64 = P2 * P1;
        const P4: u64 = P3 * P1;
        let fours = bytes.chunks_exact(4);
        let rest = fours.remainder();
        for four in fours {
            let [a, b, c, d] = [four[0], four[1], four[2], four[3]].map(u64::from);
            self.0 = (self.0 * P4 + a * P3 + b * P2 + c * P1 + d) % MODULUS;
        }
        rest.iter().for_each(|&x| self.take(u64::from(x)));
    }
}

/// "where one says more than 2,048 entries, the 2,048 there are".
fn there_are(entries: &[u16], number: u16) -> &[u16] {
    &entries[..entries.len().min(usize::from(number))]
}

/// "The numbers: the producer's ... the consumer's ... every byte of the region."
pub fn of(world: &World) -> u64 {
    let mut hash = Hash::new();
    take_producer(&mut hash, world);
    take_consumer(&mut hash, world);
    hash.take_bytes(&world.ground.region);
    hash.value()
}

fn take_producer(hash: &mut Hash, world: &World) {
    let p = &world.producer;
    hash.take_all(&[
        u64::from(p.layout.size),
        p.layout.table,
        p.layout.driver_event,
        p.layout.device_event,
        u64::from(p.avail.head),
        u64::from(p.avail.wrap),
        u64::from(p.used.head),
        u64::from(p.used.wrap),
        u64::from(p.num_free),
        u64::from(p.shadow),
        u64::from(p.height),
    ]);
    hash.take_entries(there_are(&world.ground.free_ids, p.height));
    hash.take_entries(there_are(&world.ground.producer_counts, p.layout.size));
}

fn take_consumer(hash: &mut Hash, world: &World) {
    let c = &world.consumer;
    hash.take_all(&[
        u64::from(c.layout.size),
        c.layout.table,
        c.layout.driver_event,
        c.layout.device_event,
        u64::from(c.avail.head),
        u64::from(c.avail.wrap),
        u64::from(c.used.head),
        u64::from(c.used.wrap),
        u64::from(c.num_inflight),
        u64::from(c.shadow),
    ]);
    hash.take_entries(there_are(&world.ground.consumer_counts, c.layout.size));
}
