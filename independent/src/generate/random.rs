//! Pseudo-random numbers (splitmix64).

pub struct Random {
    state: u64,
}

impl Random {
    pub fn new(seed: u64) -> Random {
        Random { state: seed }
    }

    fn next(&mut self) -> u64 {
        self.state = self.state.wrapping_add(0x9e37_79b9_7f4a_7c15);
        let mut mixed = self.state;
        mixed = (mixed ^ (mixed >> 30)).wrapping_mul(0xbf58_476d_1ce4_e5b9);
        mixed = (mixed ^ (mixed >> 27)).wrapping_mul(0x94d0_49bb_1331_11eb);
        mixed ^ (mixed >> 31)
    }

    /// 0 to `count` - 1; `count` is above 0.
    pub fn below(&mut self, count: usize) -> usize {
        (self.next() % count as u64) as usize
    }

    /// `lowest` to `highest`, both included.
    pub fn between(&mut self, lowest: i128, highest: i128) -> i128 {
        lowest + (self.next() as i128) % (highest - lowest + 1)
    }

    pub fn count(&mut self, lowest: usize, highest: usize) -> usize {
        lowest + self.below(highest - lowest + 1)
    }

    /// True once in `times`.
    pub fn once_in(&mut self, times: usize) -> bool {
        self.below(times) == 0
    }

    pub fn pick<T: Clone>(&mut self, choices: &[T]) -> T {
        choices[self.below(choices.len())].clone()
    }

    /// `count` different numbers in rising order, fewer where the range holds fewer.
    pub fn rising(&mut self, count: usize, lowest: i128, highest: i128) -> Vec<i128> {
        let room = (highest - lowest + 1).max(0) as usize;
        let mut numbers = std::collections::BTreeSet::new();
        while numbers.len() < count.min(room) {
            numbers.insert(self.between(lowest, highest));
        }
        numbers.into_iter().collect()
    }
}
