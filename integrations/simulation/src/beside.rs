//! Routers that hear no frames, beside those of squall: they learn by redirects.

use crate::ground::{Ground, Went};
use crate::network::Time;
use crate::plans::{cell_of, SLOTS};

/// Routers that learn of one slot by each redirect.
pub struct BySlot {
    /// For each router which slots it knows to be away from the partition of the old plan.
    away: Vec<Vec<u64>>,
}

impl BySlot {
    /// Routers that know the old plan.
    pub fn new(count: usize) -> BySlot {
        BySlot { away: vec![vec![0; SLOTS.div_ceil(64) as usize]; count] }
    }

    /// How a request of a router for a key of that slot goes.
    pub fn ask(&mut self, router: usize, slot: u64, ground: &Ground) -> Went {
        let cell = cell_of(slot);
        let is_redirected = self.is_away(router, slot) != ground.is_away(cell);
        if is_redirected {
            self.away[router][(slot / 64) as usize] ^= 1 << (slot % 64);
        }
        Went { hops: u32::from(is_redirected), waits: ground.is_on_its_way(cell) }
    }

    fn is_away(&self, router: usize, slot: u64) -> bool {
        self.away[router][(slot / 64) as usize] >> (slot % 64) & 1 == 1
    }

    /// Of how many of the slots that were given a router knows the place, as a share, in the mean.
    pub fn share(&self, ground: &Ground) -> f64 {
        let given: Vec<u64> = (0..SLOTS).filter(|&slot| ground.given(cell_of(slot)).is_some()).collect();
        let knows = |router, slot: &&u64| self.is_away(router, **slot) == ground.is_away(cell_of(**slot));
        let known: usize =
            (0..self.away.len()).map(|router| given.iter().filter(|slot| knows(router, slot)).count()).sum();
        known as f64 / (given.len() * self.away.len()) as f64
    }
}

/// Routers that read the whole table of slots anew after each redirect.
pub struct ByTable {
    /// For each router when it has read the table last.
    read: Vec<Time>,
    /// How often a table was read.
    pub reads: u64,
}

impl ByTable {
    /// Routers that know the old plan.
    pub fn new(count: usize) -> ByTable {
        ByTable { read: vec![0; count], reads: 0 }
    }

    /// How a request of a router for a key of that slot goes. What a table says is as new as the redirect.
    pub fn ask(&mut self, router: usize, slot: u64, ground: &Ground, now: Time) -> Went {
        let cell = cell_of(slot);
        let is_redirected = ground.given(cell).is_some_and(|given| given > self.read[router]);
        if is_redirected {
            self.read[router] = now;
            self.reads += 1;
        }
        Went { hops: u32::from(is_redirected), waits: ground.is_on_its_way(cell) }
    }
}
