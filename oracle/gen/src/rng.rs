//! A small generator of numbers (splitmix64): the same seed gives the same
//! traces on every machine.

pub struct Rng(u64);

impl Rng {
    pub fn new(seed: u64) -> Self {
        Self(seed)
    }

    pub fn draw(&mut self) -> u64 {
        self.0 = self.0.wrapping_add(0x9e37_79b9_7f4a_7c15);
        let mut z = self.0;
        z = (z ^ (z >> 30)).wrapping_mul(0xbf58_476d_1ce4_e5b9);
        z = (z ^ (z >> 27)).wrapping_mul(0x94d0_49bb_1331_11eb);
        z ^ (z >> 31)
    }

    /// A number below n, which is not 0.
    pub fn below(&mut self, n: u64) -> u64 {
        self.draw() % n
    }

    /// A number from low up to high, both included.
    pub fn within(&mut self, low: u64, high: u64) -> u64 {
        low + self.below(high - low + 1)
    }

    /// True once in n times.
    pub fn once_in(&mut self, n: u64) -> bool {
        self.below(n) == 0
    }

    pub fn bit(&mut self) -> u64 {
        self.below(2)
    }

    pub fn pick<T: Copy>(&mut self, from: &[T]) -> T {
        from[self.below(from.len() as u64) as usize]
    }

    /// An address or other long number, often at an edge.
    pub fn long(&mut self) -> u64 {
        match self.below(6) {
            0 => self.pick(&[0, 1, 255, 256, 1 << 32, 1 << 63, u64::MAX, u64::MAX - 1]),
            1 => self.draw(),
            2 => 1 << self.below(64),
            _ => self.below(1 << 20),
        }
    }

    /// A length or other 32-bit number, often at an edge.
    pub fn word(&mut self) -> u64 {
        match self.below(5) {
            0 => {
                self.pick(&[0, 1, 255, 256, 65_535, 65_536, 0x7fff_ffff, 0x8000_0000, 0xffff_ffff])
            }
            1 => self.draw() & 0xffff_ffff,
            _ => self.below(4_096),
        }
    }

    /// A 16-bit number, often at an edge.
    pub fn half(&mut self) -> u64 {
        match self.below(4) {
            0 => self.pick(&[0, 1, 127, 128, 255, 256, 32_767, 32_768, 32_769, 65_534, 65_535]),
            1 => 1 << self.below(16),
            _ => self.draw() & 0xffff,
        }
    }

    /// A number at or beside one of the given ones, modulo 65,536.
    pub fn near(&mut self, from: &[u64]) -> u64 {
        let n = self.pick(from);
        match self.below(4) {
            0 => n.wrapping_sub(1) & 0xffff,
            1 => (n + 1) & 0xffff,
            _ => n & 0xffff,
        }
    }
}
