//! A pseudo-random source for the order in which the relays fall.

/// splitmix64: the same seed gives the same order on every machine.
pub struct Random(u64);

impl Random {
    pub fn new(seed: u64) -> Random {
        Random(seed)
    }

    fn next(&mut self) -> u64 {
        self.0 = self.0.wrapping_add(0x9e37_79b9_7f4a_7c15);
        let mut z = self.0;
        z = (z ^ (z >> 30)).wrapping_mul(0xbf58_476d_1ce4_e5b9);
        z = (z ^ (z >> 27)).wrapping_mul(0x94d0_49bb_1331_11eb);
        z ^ (z >> 31)
    }

    /// A number below another that is not 0.
    pub fn below(&mut self, n: usize) -> usize {
        (self.next() % n as u64) as usize
    }

    /// One of a list that is not empty.
    pub fn choose<T: Copy>(&mut self, from: &[T]) -> T {
        from[self.below(from.len())]
    }
}

/// Who chooses the place of the next step.
pub enum Chooser {
    /// The first that is open, as the program takes it.
    First,
    Relays(Random),
}

impl Chooser {
    pub fn new(seed: Option<u64>) -> Chooser {
        seed.map_or(Chooser::First, |seed| Chooser::Relays(Random::new(seed)))
    }

    pub fn choose(&mut self, open: &[u32]) -> u32 {
        match self {
            Chooser::First => open[0],
            Chooser::Relays(random) => random.choose(open),
        }
    }
}
