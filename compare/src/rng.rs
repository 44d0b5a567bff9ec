//! Random numbers that depend on the seed alone (splitmix64), so that every case can be run again.

/// From one state to the next.
const STEP: u64 = 0x9E37_79B9_7F4A_7C15;

#[derive(Clone, Debug)]
pub struct Rng {
    state: u64,
}

impl Rng {
    pub fn new(seed: u64) -> Rng {
        Rng { state: seed }
    }

    /// The numbers of one case of a run: cases can be run alone and in any order.
    pub fn of_case(seed: u64, case: u64) -> Rng {
        let mut mixed = Rng::new(seed ^ case.wrapping_mul(0xD134_2543_DE82_EF95));
        Rng::new(mixed.word())
    }

    pub fn word(&mut self) -> u64 {
        self.state = self.state.wrapping_add(STEP);
        let mut z = self.state;
        z = (z ^ (z >> 30)).wrapping_mul(0xBF58_476D_1CE4_E5B9);
        z = (z ^ (z >> 27)).wrapping_mul(0x94D0_49BB_1331_11EB);
        z ^ (z >> 31)
    }

    /// 0 to `end` - 1.
    pub fn below(&mut self, end: u64) -> u64 {
        assert!(end > 0);
        ((u128::from(self.word()) * u128::from(end)) >> 64) as u64
    }

    pub fn index(&mut self, end: usize) -> usize {
        self.below(end as u64) as usize
    }

    /// `low` to `high`, both included.
    pub fn between(&mut self, low: u64, high: u64) -> u64 {
        low + self.below(high - low + 1)
    }

    pub fn byte(&mut self) -> u8 {
        self.word() as u8
    }

    /// True once in `n` times.
    pub fn once_in(&mut self, n: u64) -> bool {
        self.below(n) == 0
    }

    pub fn pick<T: Copy>(&mut self, from: &[T]) -> T {
        from[self.index(from.len())]
    }

    /// So many bytes of a stream of their own, eight to a word; the numbers go on as if each byte had been drawn.
    pub fn noise(&mut self, count: usize) -> Vec<u8> {
        let mut own = Rng::new(!self.state);
        self.state = self.state.wrapping_add(STEP.wrapping_mul(count as u64));
        let mut bytes = vec![0; count];
        for eight in bytes.chunks_mut(8) {
            eight.copy_from_slice(&own.word().to_le_bytes()[..eight.len()]);
        }
        bytes
    }

    pub fn bytes(&mut self, count: usize) -> Vec<u8> {
        (0..count).map(|_| self.byte()).collect()
    }
}
