// Numbers for drawn cases, the same in every run: Marsaglia's xorshift of 64 bits, its low bits dropped.
pub struct Random(pub u64);

impl Random {
    // The numbers of a seed. From 0 no numbers would follow.
    pub fn of_seed(seed: u64) -> Random {
        Random(seed.wrapping_mul(0x9e37_79b9_7f4a_7c15) | 1)
    }

    pub fn below(&mut self, n: u64) -> u64 {
        self.0 ^= self.0 << 13;
        self.0 ^= self.0 >> 7;
        self.0 ^= self.0 << 17;
        (self.0 >> 11) % n
    }
}
