//! Random numbers by seed (splitmix64).

pub struct Random(u64);

impl Random {
    /// The numbers of one item of a seed's sequence.
    pub fn new(seed: u64, item: u64) -> Random {
        let mut random = Random(seed);
        let mixed = random.word();
        Random(mixed ^ item.wrapping_mul(0xD1B5_4A32_D192_ED03))
    }

    pub fn word(&mut self) -> u64 {
        self.0 = self.0.wrapping_add(0x9E37_79B9_7F4A_7C15);
        let mixed = (self.0 ^ self.0 >> 30).wrapping_mul(0xBF58_476D_1CE4_E5B9);
        let mixed = (mixed ^ mixed >> 27).wrapping_mul(0x94D0_49BB_1331_11EB);
        mixed ^ mixed >> 31
    }

    /// A number below a bound that is not 0.
    pub fn below(&mut self, bound: u64) -> u64 {
        (self.word() as u128 * bound as u128 >> 64) as u64
    }

    /// A number from low to high.
    pub fn within(&mut self, low: u64, high: u64) -> u64 {
        low + self.below(high - low + 1)
    }

    pub fn percent(&mut self, chance: u64) -> bool {
        self.below(100) < chance
    }

    pub fn of<T: Copy>(&mut self, choices: &[T]) -> T {
        choices[self.below(choices.len() as u64) as usize]
    }
}
