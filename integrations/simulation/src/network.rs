//! The network: three sites, whose messages take time and are lost.

use crate::dice::Dice;

/// A time, in microseconds since the beginning.
pub type Time = u64;

/// A second.
pub const SECOND: Time = 1_000_000;
/// How many sites there are.
pub const SITES: usize = 3;
/// How long a message takes at least from one site to another, in microseconds.
const DELAYS: [[Time; SITES]; SITES] = [[250, 10_000, 40_000], [10_000, 250, 35_000], [40_000, 35_000, 250]];

/// Carries messages.
pub struct Network {
    /// What happens by chance.
    pub dice: Dice,
    /// The probability that a message is lost.
    loss: f64,
}

impl Network {
    /// A network that loses that share of all messages.
    pub fn new(loss: f64, seed: u64) -> Network {
        Network { dice: Dice::of(seed), loss }
    }

    /// How long a message takes: at least the delay, and a tenth of it more in the mean.
    pub fn delay(&mut self, from: usize, to: usize) -> Time {
        let least = DELAYS[from][to];
        least + self.dice.wait(least / 10)
    }

    /// The same of a message that may be lost: none if it is.
    pub fn carry(&mut self, from: usize, to: usize) -> Option<Time> {
        let is_lost = self.dice.happens(self.loss);
        let delay = self.delay(from, to);
        (!is_lost).then_some(delay)
    }
}
