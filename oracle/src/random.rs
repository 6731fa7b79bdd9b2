//! A small seeded generator of random numbers (splitmix64).

/// The state of the generator.
pub struct Random(u64);

impl Random {
    /// The generator for one stream of a seed; the same pair always gives the same numbers.
    pub fn new(seed: u64, stream: u64) -> Self {
        let mut mixer = Random(seed);
        let mixed = mixer.next();
        Random(mixed ^ stream.wrapping_mul(0xd605_bbb5_8c8a_bc03))
    }

    /// The next 64 random bits.
    fn next(&mut self) -> u64 {
        self.0 = self.0.wrapping_add(0x9e37_79b9_7f4a_7c15);
        let mut bits = self.0;
        bits = (bits ^ (bits >> 30)).wrapping_mul(0xbf58_476d_1ce4_e5b9);
        bits = (bits ^ (bits >> 27)).wrapping_mul(0x94d0_49bb_1331_11eb);
        bits ^ (bits >> 31)
    }

    /// A number from 0 up to but without `count`, which is not 0.
    pub fn below(&mut self, count: usize) -> usize {
        (self.next() % count as u64) as usize
    }

    /// A number from `low` to `high`, both included; `low` if there is none.
    pub fn between(&mut self, (low, high): (i32, i32)) -> i32 {
        let count = i64::from(high) - i64::from(low) + 1;
        let step = self.next() % count.max(1) as u64;
        (i64::from(low) + step as i64) as i32
    }

    /// True once in `count` times.
    pub fn one_in(&mut self, count: usize) -> bool {
        self.below(count) == 0
    }

    /// One of the choices, of which there is at least one.
    pub fn pick<T: Copy>(&mut self, choices: &[T]) -> T {
        choices[self.below(choices.len())]
    }
}
