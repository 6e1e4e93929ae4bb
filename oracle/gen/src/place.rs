//! Headers: which size, where the areas lie, which first bytes.

use format::{Header, REGION_LIMIT};

use crate::rng::Rng;

/// The sizes that every run is to meet.
pub const SIZES: [u64; 12] = [1, 2, 3, 4, 5, 7, 8, 16, 64, 255, 256, 2_048];

pub fn any_size(rng: &mut Rng) -> u64 {
    if rng.once_in(5) { rng.within(1, 80) } else { rng.pick(&SIZES) }
}

/// A header that document 01 accepts.
pub fn header(rng: &mut Rng, size: u64) -> Header {
    let table = size * 16;
    let gap = |rng: &mut Rng| if rng.bit() == 0 { 0 } else { rng.below(8) * 4 };
    let mut at = if rng.bit() == 0 { 0 } else { rng.below(4) * 16 };
    let mut places = [0; 3];
    let mut order = [0, 1, 2];
    shuffle(rng, &mut order);
    for area in order {
        at += gap(rng);
        let (align, len) = if area == 0 { (16, table) } else { (4, 4) };
        at = at.next_multiple_of(align);
        places[area] = at;
        at += len;
    }
    let region = at + if rng.bit() == 0 { 0 } else { rng.below(40) };
    Header {
        size: size as u32,
        table: places[0] as u32,
        driver: places[1] as u32,
        device: places[2] as u32,
        region: region.min(u64::from(REGION_LIMIT)) as u32,
        seed: seed(rng),
        hash_every: 1,
        records: 0,
    }
}

fn seed(rng: &mut Rng) -> u32 {
    match rng.below(8) {
        0..=3 => 0,
        // The first number turns every byte to 0, the second passes the modulus.
        4 => rng.pick(&[2_147_483_647, u32::MAX, 1]),
        _ => (rng.draw() & 0x7fff_ffff) as u32,
    }
}

/// A header that document 01 refuses with 6 or 8, or nearly so.
pub fn doubtful_header(rng: &mut Rng) -> Header {
    let size = rng.pick(&[1, 2, 4, 5, 8, 64]);
    let mut h = header(rng, size);
    let table_end = h.table + h.size * 16;
    match rng.below(12) {
        0 => h.size = 0,
        1 => h.size = rng.pick(&[2_047, 2_048, 2_049, 4_095, 32_767, 32_768, 32_769, 65_535]),
        2 => h.table += rng.pick(&[1, 4, 8, 15]),
        3 => h.driver += rng.pick(&[1, 2, 3]),
        4 => h.device += rng.pick(&[1, 2, 3]),
        5 => h.driver = h.device,
        6 => h.driver = rng.pick(&[h.table, table_end - 4, table_end]),
        7 => h.device = rng.pick(&[h.table, table_end - 4, table_end]),
        8 => h.region = h.region.saturating_sub(rng.pick(&[1, 4, 40])),
        9 => h.table = rng.pick(&[0xffff_fff0, 0xffff_0000, 65_536]),
        10 => h.driver = rng.pick(&[0xffff_fffc, 65_536, 65_532]),
        _ => return large_header(rng),
    }
    h
}

/// Sizes about the lent tables' 2,048 entries, over a region that holds them.
fn large_header(rng: &mut Rng) -> Header {
    let size = rng.pick(&[2_047, 2_048, 2_049, 2_050, 3_000, 4_094, 4_095, 4_096]);
    let driver = size * 16;
    Header {
        size,
        table: 0,
        driver,
        device: driver + 4,
        region: REGION_LIMIT,
        seed: seed(rng),
        hash_every: 0,
        records: 0,
    }
}

pub fn shuffle<T>(rng: &mut Rng, items: &mut [T]) {
    for i in (1..items.len()).rev() {
        items.swap(i, rng.below(i as u64 + 1) as usize);
    }
}
