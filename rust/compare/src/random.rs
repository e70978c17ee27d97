//! Numbers by chance that are the same in every run: xorshift, from a seed.

pub struct Random(u64);

impl Random {
    /// A seed made of all the bytes, so that another stream of drafts brings other chances.
    pub fn from_bytes(bytes: &[u8]) -> Self {
        let mixed = bytes
            .iter()
            .fold(0xCBF2_9CE4_8422_2325, |mixed: u64, byte| {
                (mixed ^ u64::from(*byte)).wrapping_mul(0x0000_0100_0000_01B3)
            });
        // Zero would stay zero.
        Random(mixed | 1)
    }

    fn next(&mut self) -> u64 {
        self.0 ^= self.0 << 13;
        self.0 ^= self.0 >> 7;
        self.0 ^= self.0 << 17;
        self.0.wrapping_mul(0x2545_F491_4F6C_DD1D) >> 16
    }

    /// A number below that one, which is not 0.
    pub fn below(&mut self, end: usize) -> usize {
        (self.next() % end as u64) as usize
    }

    /// Whether a chance of one in so many comes up.
    pub fn one_in(&mut self, many: usize) -> bool {
        self.below(many) == 0
    }

    pub fn one_of<T: Copy>(&mut self, choices: &[T]) -> T {
        choices[self.below(choices.len())]
    }
}
