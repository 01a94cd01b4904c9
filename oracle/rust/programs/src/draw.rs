//! Seeded draws of words.

/// SplitMix64: seeded, the same on every machine.
pub struct Draw(pub u64);

impl Draw {
    pub fn next(&mut self) -> u64 {
        self.0 = self.0.wrapping_add(0x9e37_79b9_7f4a_7c15);
        let z = (self.0 ^ (self.0 >> 30)).wrapping_mul(0xbf58_476d_1ce4_e5b9);
        let z = (z ^ (z >> 27)).wrapping_mul(0x94d0_49bb_1331_11eb);
        z ^ (z >> 31)
    }

    /// A word with two of m modes.
    pub fn pair(&mut self, m: u64) -> u64 {
        let p = self.next() % m;
        let q = (p + 1 + self.next() % (m - 1)) % m;
        1 << p | 1 << q
    }
}
