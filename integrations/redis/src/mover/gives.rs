//! How a chunk is given, and how its source gets back what its destination can't load.

use super::feeder::Feeder;
use super::index::Ranked;
use super::sizes::{Stuck, Why};
use super::steps::{Back, Given, Step};
use crate::course::Move;
use crate::fault::{Done, Fault};
use crate::keymap;
use squall::Rank;

/// How many keys are looked at in one step, which decides whether they are given. Clients of their server wait meanwhile.
pub(super) const LOOKED: usize = 1000;

impl Feeder<'_> {
    /// Gives, copies and loads a chunk: up to where it was put, and how far keys are loaded then. None if its first key
    /// can't be moved. What is not loaded goes back to its source.
    pub(super) fn carry(&mut self, it: &Move, lo: Rank) -> Done<Option<(Rank, Step)>> {
        let given = self.give(it, lo)?;
        // From now on the source serves no key of the chunk, and no new one comes.
        self.index.listen()?;
        let put = match self.copy_all(lo..self.given, given.generation) {
            Err(fault) if !fault.is_lost() && self.may_give_back => {
                // If that fails too, the keys wait for the next run.
                let _ = self.give_back(it, lo);
                return Err(fault);
            }
            put => put?,
        };
        let loaded = match put.end > lo {
            true => Some((put.end, self.dest.load(it, put.end, given.generation)?)),
            false => None,
        };
        if let Some((key, why)) = put.left {
            self.is_stuck = true;
            if self.may_give_back {
                self.give_back(it, put.end)?;
            }
            self.name(it, &key, why);
        }
        Ok(loaded)
    }

    /// Gives the next chunk. It ends before the first key that is too large to be moved.
    fn give(&mut self, it: &Move, lo: Rank) -> Done<Step> {
        let mut wanted = self.index.cut(lo, it.hi, self.chunk_size());
        let mut given = None;
        while wanted > lo.max(self.given) {
            let from = lo.max(self.given);
            let to = self.index.cut(from, wanted, LOOKED);
            let keys = self.index.keys(from..to);
            let names: Vec<Vec<u8>> = keys.iter().take(LOOKED).map(|(_, key)| key.clone()).collect();
            match self.source.give(it, to, &names, self.sizes.most)? {
                Given::Below(step) => {
                    self.given = step.edge;
                    given = Some(step);
                }
                Given::TooLarge(at, size) => {
                    wanted = keys[at].0;
                    self.leave(it, &keys[at], size)?;
                }
            }
        }
        let given = given.map_or_else(|| self.source.given(it), Ok)?;
        self.given = given.edge;
        Ok(given)
    }

    /// Names a key that is too large to be given, and all others of its move.
    fn leave(&mut self, it: &Move, (rank, key): &Ranked, size: u64) -> Done<()> {
        self.is_stuck = true;
        self.name(it, key, Why::TooLarge { size, most: self.sizes.most });
        let mut from = *rank;
        while from < it.hi {
            self.job.check()?;
            let to = self.index.cut(from, it.hi, LOOKED);
            let keys = self.index.keys(from..to);
            for (at, size) in self.sizes.look(&mut self.source, &keys)? {
                self.name(it, &keys[at].1, Why::TooLarge { size, most: self.sizes.most });
            }
            self.index.keep_up()?;
            from = to;
        }
        Ok(())
    }

    /// Names a key that can't be moved.
    pub(super) fn name(&self, it: &Move, key: &[u8], why: Why) {
        self.name_as(it, key, why, keymap::rank(key) < self.given);
    }

    /// The same, of one that was given, and that its source could not have back, or not.
    pub(super) fn name_as(&self, it: &Move, key: &[u8], why: Why, is_given: bool) {
        let (source, dest, key) = (it.source, it.dest, key.to_vec());
        self.job.stuck.name(&Stuck { source, dest, key, why, is_given });
    }

    /// Gives the source back what was given from there on, if nothing of it is loaded. First the destination loads it no
    /// more. Then the source takes it back, unless it has done another step since: another mover may know that one.
    fn give_back(&mut self, it: &Move, from: Rank) -> Done<()> {
        loop {
            let given = self.source.given(it)?;
            if given.edge <= from {
                break;
            }
            let refused = match self.dest.give_back(it, from, given.generation)? {
                Back::Done(step) if step.edge == from => step.generation,
                Back::Done(_) => return Err(Fault::lost("another mover has loaded more meanwhile")),
                Back::Changed => continue,
            };
            if let Back::Done(_) = self.source.take_back(it, from, refused, given.generation)? {
                break;
            }
        }
        self.given = from;
        self.index.listen()
    }

    /// Removes rows of a move that were put and are given no longer, if there are any: their source has lost that it gave them.
    pub(super) fn clear(&mut self, it: &Move) -> Done<()> {
        let given = self.source.given(it)?;
        if !self.dest.has_arrived(it, given.edge)? {
            return Ok(());
        }
        match self.dest.give_back(it, given.edge, given.generation)? {
            Back::Done(step) if step.edge == given.edge => Ok(()),
            _ => Err(Fault::lost("another mover has loaded more meanwhile")),
        }
    }

    /// Gives back what a mover that has ended amid that has left: whether there was any. Nothing of it is loaded.
    pub(super) fn finish_back(&mut self, it: &Move, loaded: Rank) -> Done<bool> {
        if self.given <= loaded || self.dest.gives_back(it)? < Some(self.source.given(it)?.generation) {
            return Ok(false);
        }
        self.give_back(it, loaded)?;
        Ok(true)
    }
}
