//! A seeded generator of numbers.

/// The generator, by its state.
pub struct Rng(pub u64);

impl Rng {
    /// A number below a bound above 0.
    pub fn below(&mut self, bound: usize) -> usize {
        self.0 = self.0.wrapping_mul(6_364_136_223_846_793_005).wrapping_add(1_442_695_040_888_963_407);
        (self.0 >> 33) as usize % bound
    }

    /// Lines in another order.
    pub fn shuffle(&mut self, lines: &mut [String]) {
        for at in (1..lines.len()).rev() {
            lines.swap(at, self.below(at + 1));
        }
    }
}
