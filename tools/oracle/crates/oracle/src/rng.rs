//! Random numbers, the same for the same seed on every machine, and small pieces of texts made of them.

pub struct Rng(u64);

impl Rng {
    pub fn new(seed: u64) -> Self {
        Rng(seed ^ 0x9e37_79b9_7f4a_7c15)
    }

    /// The numbers of text `index` of a run: they depend on the seed and the index only.
    pub fn of(seed: u64, index: u64) -> Self {
        Rng::new(seed.wrapping_mul(0x1_0000_0001).wrapping_add(index << 17))
    }

    pub fn next(&mut self) -> u64 {
        self.0 = self.0.wrapping_add(0x9e37_79b9_7f4a_7c15);
        let mut z = self.0;
        z = (z ^ (z >> 30)).wrapping_mul(0xbf58_476d_1ce4_e5b9);
        z = (z ^ (z >> 27)).wrapping_mul(0x94d0_49bb_1331_11eb);
        z ^ (z >> 31)
    }

    pub fn below(&mut self, n: usize) -> usize {
        (self.next() % n as u64) as usize
    }

    /// True in `percent` of 100 cases.
    pub fn chance(&mut self, percent: usize) -> bool {
        self.below(100) < percent
    }

    /// True in `n` of 1000 cases.
    pub fn rare(&mut self, n: usize) -> bool {
        self.below(1000) < n
    }

    pub fn pick<'a, T: ?Sized>(&mut self, from: &[&'a T]) -> &'a T {
        from[self.below(from.len())]
    }

    /// One of these numbers.
    pub fn one<T: Copy>(&mut self, of: &[T]) -> T {
        of[self.below(of.len())]
    }

    /// A number of up to `bits` bits: short ones as often as long ones, and the neighbours of powers of two.
    pub fn number(&mut self, bits: u32) -> u64 {
        let width = self.below(bits as usize + 1) as u32;
        let power = 1u64.checked_shl(width).unwrap_or(0);
        let n = match self.below(4) {
            0 => power,
            1 => power.wrapping_add(1),
            2 => power.wrapping_sub(1),
            _ => self.next() & power.wrapping_sub(1),
        };
        n & 1u64.checked_shl(bits).unwrap_or(0).wrapping_sub(1)
    }

    /// Digits of a number, at times past 32 or 64 bits, with leading zeros, or none at all.
    pub fn digits(&mut self) -> String {
        let zeros = if self.chance(10) { "0".repeat(1 + self.below(24)) } else { String::new() };
        match self.below(20) {
            0 => zeros,
            1 => format!("{zeros}{}", (1u64 << 32) + self.below(3) as u64 - 1),
            2 => format!("{zeros}{}", u128::from(u64::MAX) + self.below(3) as u128 - 1),
            3 => format!("{zeros}{}", 254 + self.below(4)),
            4 => format!("{zeros}{}{}", self.next(), self.below(1000)),
            5..=8 => format!("{zeros}{}", self.number(64)),
            9..=12 => format!("{zeros}{}", self.number(8)),
            _ => format!("{zeros}{}", self.below(20)),
        }
    }

    /// `count` pieces, one after the other.
    pub fn pieces(&mut self, count: usize, from: &[&str]) -> String {
        (0..count).map(|_| self.pick(from)).collect()
    }

    /// Up to `most` characters of ASCII: mostly from `often`, else any.
    pub fn ascii(&mut self, most: usize, often: &str) -> String {
        let count = self.below(most + 1);
        (0..count).map(|_| if self.chance(90) { self.one(often.as_bytes()) } else { self.below(128) as u8 } as char).collect()
    }
}
