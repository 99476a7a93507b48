//! Repeatable chance: the same kind and seed give the same lines on every machine.

/// The splitmix64 sequence.
pub struct Chance {
    state: u64,
}

impl Chance {
    /// Each kind of lines has a sequence of its own for every seed.
    pub fn new(kind: &str, seed: u64) -> Chance {
        let mut state = seed;
        for byte in kind.bytes() {
            state = state.wrapping_mul(1_099_511_628_211).wrapping_add(u64::from(byte));
        }
        Chance { state }
    }

    fn next(&mut self) -> u64 {
        self.state = self.state.wrapping_add(0x9e37_79b9_7f4a_7c15);
        let mut mixed = self.state;
        mixed = (mixed ^ (mixed >> 30)).wrapping_mul(0xbf58_476d_1ce4_e5b9);
        mixed = (mixed ^ (mixed >> 27)).wrapping_mul(0x94d0_49bb_1331_11eb);
        mixed ^ (mixed >> 31)
    }

    /// A number from 0 to `count` − 1.
    pub fn below(&mut self, count: usize) -> usize {
        (self.next() % count as u64) as usize
    }

    /// A number from `low` to `high`, both included.
    pub fn between(&mut self, low: i128, high: i128) -> i128 {
        low + i128::from(self.next()) % (high - low + 1)
    }

    /// True once in `count` times.
    pub fn one_in(&mut self, count: usize) -> bool {
        self.below(count) == 0
    }

    /// True `percent` times in a hundred.
    pub fn percent(&mut self, percent: usize) -> bool {
        self.below(100) < percent
    }

    pub fn pick<T: Copy>(&mut self, choices: &[T]) -> T {
        choices[self.below(choices.len())]
    }

    /// The same things in an order by chance.
    pub fn shuffled<T>(&mut self, mut things: Vec<T>) -> Vec<T> {
        let mut shuffled = Vec::new();
        while !things.is_empty() {
            shuffled.push(things.swap_remove(self.below(things.len())));
        }
        shuffled
    }

    /// A number from `low` to `high` that is often at or next to a limit, or small.
    pub fn odd(&mut self, low: i128, high: i128) -> i128 {
        let near = |value: i128| value.clamp(low, high);
        match self.below(10) {
            0 => low,
            1 => near(low + 1),
            2 => near(high - 1),
            3 => high,
            4..=6 => self.small(low, high),
            _ => self.between(low, high),
        }
    }

    /// A number from `low` to `high`, each order of magnitude alike.
    pub fn small(&mut self, low: i128, high: i128) -> i128 {
        let span = high - low + 1;
        let mut limit = 10;
        while limit < span && !self.one_in(4) {
            limit *= 10;
        }
        low + self.between(0, limit.min(span) - 1)
    }
}
