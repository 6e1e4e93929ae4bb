//! The region's first bytes and the running hash over a ring's state.

const PRIME: u64 = 1_000_000_007;

pub struct Hash(u64);

impl Default for Hash {
    fn default() -> Self {
        Self(1)
    }
}

impl Hash {
    pub fn add(&mut self, x: u64) {
        self.0 = (self.0 * 257 + x % PRIME) % PRIME;
    }

    pub fn value(&self) -> u64 {
        self.0
    }
}

/// The bytes that a region of this length starts with.
pub fn first_bytes(seed: u32, length: u32) -> Vec<u8> {
    if seed == 0 {
        return vec![0; length as usize];
    }
    let mut x = u64::from(seed);
    (0..length)
        .map(|_| {
            x = x * 16_807 % 2_147_483_647;
            (x / 256 % 256) as u8
        })
        .collect()
}
