//! Random numbers of a seed: splitmix64. Each case has a generator of its own, so that it can be made again alone.

pub struct Random(u64);

impl Random {
    /// The generator of case `index` in a family of that name.
    pub fn of(seed: u64, family: &str, index: u64) -> Self {
        let mut state = seed.wrapping_mul(0x2545F4914F6CDD1D) ^ index.wrapping_mul(0xD1B54A32D192ED03);
        for b in family.bytes() {
            state = (state ^ u64::from(b)).wrapping_mul(0x100000001B3);
        }
        Random(state)
    }

    pub fn next(&mut self) -> u64 {
        self.0 = self.0.wrapping_add(0x9E3779B97F4A7C15);
        let z = (self.0 ^ (self.0 >> 30)).wrapping_mul(0xBF58476D1CE4E5B9);
        let z = (z ^ (z >> 27)).wrapping_mul(0x94D049BB133111EB);
        z ^ (z >> 31)
    }

    /// A number below n.
    pub fn below(&mut self, n: usize) -> usize {
        (self.next() % n as u64) as usize
    }

    /// A number from a to b, both included.
    pub fn within(&mut self, a: usize, b: usize) -> usize {
        a + self.below(b - a + 1)
    }

    /// True once in n times.
    pub fn once_in(&mut self, n: usize) -> bool {
        self.below(n) == 0
    }

    pub fn byte(&mut self) -> u8 {
        self.next() as u8
    }
}
