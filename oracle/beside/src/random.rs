//! Numbers that look random and are the same for the same seed.

pub struct Random(u64);

impl Random {
    /// A start of its own for every seed, sort and case number.
    pub fn new(seed: u64, sort: &str, number: u64) -> Random {
        let mut r = Random(seed);
        for part in sort.bytes().map(u64::from).chain([number]) {
            r.0 = r.next() ^ part;
        }
        r
    }

    pub fn next(&mut self) -> u64 {
        self.0 = self.0.wrapping_add(0x9E37_79B9_7F4A_7C15);
        let mut z = self.0;
        for odd in [0xD6E8_FEB8_6659_FD93, 0xCA9B_0C7E_BA1D_A115] {
            z = (z ^ (z >> 32)).wrapping_mul(odd);
        }
        z ^ (z >> 32)
    }

    /// 0 to `n` - 1.
    pub fn below(&mut self, n: usize) -> usize {
        (self.next() >> 11) as usize % n
    }

    /// True in so many of a hundred times.
    pub fn chance(&mut self, percent: usize) -> bool {
        self.below(100) < percent
    }

    pub fn pick<T: Copy>(&mut self, from: &[T]) -> T {
        from[self.below(from.len())]
    }

    pub fn byte(&mut self) -> u8 {
        self.next() as u8
    }

    pub fn word(&mut self) -> u32 {
        self.next() as u32
    }

    pub fn bytes(&mut self, n: usize) -> Vec<u8> {
        (0..n).map(|_| self.byte()).collect()
    }
}
