//! Numbers that look random and are the same on every machine (splitmix64).

pub struct Random(u64);

impl Random {
    /// Each case has numbers of its own, so that it is the same whatever stands before it.
    pub fn of_case(seed: u64, case: usize) -> Random {
        let mut first = Random(seed);
        let mixed = first.any();
        Random(mixed ^ case as u64)
    }

    /// Any number of 64 bits.
    pub fn any(&mut self) -> u64 {
        self.0 = self.0.wrapping_add(0x9e37_79b9_7f4a_7c15);
        let mut z = self.0;
        z = (z ^ (z >> 30)).wrapping_mul(0xbf58_476d_1ce4_e5b9);
        z = (z ^ (z >> 27)).wrapping_mul(0x94d0_49bb_1331_11eb);
        z ^ (z >> 31)
    }

    /// A number from low to high, both included.
    pub fn between(&mut self, low: usize, high: usize) -> usize {
        low + (self.any() % (high - low + 1) as u64) as usize
    }

    /// A place in something that is so long; the length is not 0.
    pub fn place(&mut self, length: usize) -> usize {
        self.between(0, length - 1)
    }

    /// A number as the sum of so many parts, at least one, any of which may be 0.
    pub fn parts(&mut self, sum: u64, parts: usize) -> Vec<u64> {
        let mut cuts: Vec<u64> = (1..parts).map(|_| self.any() % (sum + 1)).collect();
        cuts.extend([0, sum]);
        cuts.sort();
        cuts.windows(2).map(|two| two[1] - two[0]).collect()
    }

    pub fn one_of<T: Copy>(&mut self, choices: &[T]) -> T {
        choices[self.place(choices.len())]
    }
}
