//! The random numbers of the hold model.

/// The random numbers of `SplitMix64`.
pub struct Draws(pub u64);

impl Draws {
    /// The next 64 random bits.
    pub fn draw(&mut self) -> u64 {
        self.0 = self.0.wrapping_add(0x9E37_79B9_7F4A_7C15);
        let mut z = self.0;
        z = (z ^ (z >> 30)).wrapping_mul(0xBF58_476D_1CE4_E5B9);
        z = (z ^ (z >> 27)).wrapping_mul(0x94D0_49BB_1331_11EB);
        z ^ (z >> 31)
    }

    /// A random number below `span`.
    pub fn below(&mut self, span: u32) -> u32 {
        (self.draw() % u64::from(span)) as u32
    }
}
