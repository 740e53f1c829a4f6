//! Numbers by chance: the same for the same seed, on each machine.

/// Numbers by chance.
pub struct Dice(u64);

impl Dice {
    /// Dice of a seed.
    pub fn of(seed: u64) -> Dice {
        Dice(seed.wrapping_mul(0x9e37_79b9_7f4a_7c15) ^ 0x5851_f42d_4c95_7f2d)
    }

    fn draw(&mut self) -> u64 {
        self.0 = self.0.wrapping_add(0x9e37_79b9_7f4a_7c15);
        let mut mixed = self.0;
        mixed = (mixed ^ (mixed >> 30)).wrapping_mul(0xbf58_476d_1ce4_e5b9);
        mixed = (mixed ^ (mixed >> 27)).wrapping_mul(0x94d0_49bb_1331_11eb);
        mixed ^ (mixed >> 31)
    }

    /// The next number below `most`, which is not 0.
    pub fn below(&mut self, most: u64) -> u64 {
        ((u128::from(self.draw()) * u128::from(most)) >> 64) as u64
    }

    /// The next number from 0 on, below 1.
    fn share(&mut self) -> f64 {
        (self.draw() >> 11) as f64 / (1u64 << 53) as f64
    }

    /// Whether something happens whose probability this is.
    pub fn happens(&mut self, probability: f64) -> bool {
        self.share() < probability
    }

    /// A time of exponential distribution with that mean.
    pub fn wait(&mut self, mean: u64) -> u64 {
        (-(1.0 - self.share()).ln() * mean as f64) as u64
    }
}

#[cfg(test)]
mod tests {
    use super::*;

    #[test]
    fn means_are_near() {
        let mut dice = Dice::of(1);
        let sum: u64 = (0..100_000).map(|_| dice.wait(1000)).sum();
        assert!((99_000_000..101_000_000).contains(&sum), "{sum}");
        let count = (0..100_000).filter(|_| dice.happens(0.01)).count();
        assert!((900..1100).contains(&count), "{count}");
    }
}
