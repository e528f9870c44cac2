//! Random numbers (splitmix64), the same in every run.

pub struct Numbers(pub u64);

impl Numbers {
    pub fn word(&mut self) -> u64 {
        self.0 = self.0.wrapping_add(0x9e37_79b9_7f4a_7c15);
        let mut z = self.0;
        z = (z ^ (z >> 30)).wrapping_mul(0xbf58_476d_1ce4_e5b9);
        z = (z ^ (z >> 27)).wrapping_mul(0x94d0_49bb_1331_11eb);
        z ^ (z >> 31)
    }

    pub fn up_to(&mut self, most: u64) -> u64 {
        self.word() % (most + 1)
    }

    pub fn pick<T: Copy>(&mut self, choices: &[T]) -> T {
        choices[self.up_to(choices.len() as u64 - 1) as usize]
    }

    /// From 1 to 10^15, small ones as often as large ones.
    pub fn amount(&mut self) -> i64 {
        let most = 10u64.pow(self.up_to(15) as u32);
        1 + self.up_to(most - 1) as i64
    }
}
