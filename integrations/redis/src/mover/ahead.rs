//! How the keys of a rank move ahead of their move's edge. The edge passes them later, and changes nothing of them.

use super::disk::Loaded;
use super::dumps::Put;
use super::feeder::Feeder;
use super::gives::LOOKED;
use super::pulls::{alone, Ahead, Refused};
use super::sizes::Why;
use super::state::{Pulled, Stand, State};
use super::steps::Step;
use crate::course::Move;
use crate::fault::{Done, Fault};
use squall::Rank;

/// A rank that is loaded ahead of the edge of its move, and the generation of the destination then.
struct Loads {
    it: Move,
    rank: Rank,
    generation: u64,
}

/// The ranks of these moves that a source has given ahead of the edge and has not forgotten: a program that pulled them has
/// ended amid that.
pub fn left(moves: &[Move], source: &State, number: u32) -> Vec<(Move, Rank)> {
    let stands = moves.iter().filter_map(|it| Some((it, source.stand(number, it.lo)?)));
    let ranks =
        stands.flat_map(|(it, stand)| stand.ahead(|state| *state == Pulled::Given).map(|rank| (*it, rank)));
    ranks.collect()
}

impl Feeder<'_> {
    /// Pulls these ranks, and forgets them at their source once they are on the disk of the destination: how many keys were
    /// forgotten.
    pub(super) fn pull_all(&mut self, ranks: &[(Move, Rank)]) -> Done<usize> {
        let (mut loads, mut count) = (Vec::new(), 0);
        for (it, rank) in ranks {
            self.job.check()?;
            if let Some(generation) = self.pull(it, *rank)? {
                let one = alone(it, *rank);
                self.disk.add(Loaded { it: one, step: Step { edge: one.hi, generation } });
                loads.push(Loads { it: *it, rank: *rank, generation });
            }
        }
        self.disk.rest()?;
        for Loads { it, rank, generation } in loads {
            let one = alone(&it, rank);
            let keys = self.index.take(one.lo..one.hi);
            self.source.forget_ahead(&it, rank, &keys, generation)?;
            self.job.progress.forgot(keys.len());
            count += keys.len();
        }
        Ok(count)
    }

    /// Reports again which ranks of a move are loaded ahead of its edge.
    pub(super) fn report_ahead(&mut self, it: &Move, dest: &Stand) -> Done<()> {
        let mut ranks = dest.ahead(|state| *state == Pulled::Loaded).map(|rank| alone(it, rank));
        ranks.try_for_each(|one| self.report(it, one.lo..one.hi))
    }

    /// Gives, copies, loads and reports the keys of a rank: the generation of the destination. None if one of them can't be
    /// moved: then the source has them again.
    fn pull(&mut self, it: &Move, rank: Rank) -> Done<Option<u64>> {
        let one = alone(it, rank);
        let loaded = match self.give_ahead(it, rank)? {
            Ahead::TooLarge(at, size) => {
                let key = self.index.keys(one.lo..one.hi)[at].1.clone();
                self.name(it, &key, Why::TooLarge { size, most: self.sizes.most });
                return Ok(None);
            }
            // It has just gone back.
            Ahead::Closed if self.job.is_closed => return Ok(None),
            Ahead::Closed => return Err(self.source.explain(&format!("SQUALL CLOSED {}", self.job.number))),
            Ahead::Forgotten => self.find_ahead(it, rank)?,
            Ahead::Given(generation) => {
                // From now on the source serves no key of the rank, and no new one comes.
                self.index.listen()?;
                if !self.put_ahead(it, rank, generation)? {
                    return Ok(None);
                }
                self.dest.load_ahead(it, rank, generation)?
            }
        };
        self.report(it, one.lo..one.hi)?;
        Ok(Some(loaded))
    }

    /// Gives a rank. If one that was given before was to go back, it does so first.
    fn give_ahead(&mut self, it: &Move, rank: Rank) -> Done<Ahead> {
        loop {
            let keys = self.index.keys(rank..alone(it, rank).hi);
            let names: Vec<Vec<u8>> = keys.into_iter().take(LOOKED).map(|(_, key)| key).collect();
            let ahead = self.source.give_ahead(it, rank, &names, self.sizes.most)?;
            match ahead {
                Ahead::Given(generation) if self.dest.gives_back(it)? >= Some(generation) => {
                    if !self.give_ahead_back(it, rank)? {
                        return Ok(ahead);
                    }
                }
                ahead => return Ok(ahead),
            }
        }
    }

    /// The generation of the destination, which has loaded a rank that the source has forgotten.
    fn find_ahead(&mut self, it: &Move, rank: Rank) -> Done<u64> {
        let state = self.dest.state()?;
        if state.stand(self.job.number, it.lo).is_some_and(|stand| stand.has_passed(rank)) {
            return Ok(state.generation);
        }
        Err(Fault::new(format!("partition {} has come back with less: run the mover of the course", it.dest)))
    }

    /// Copies the keys of a rank: whether all of them could be. If not, the source has them again, if it may.
    fn put_ahead(&mut self, it: &Move, rank: Rank, given: u64) -> Done<bool> {
        let left = match self.copy_all(rank..alone(it, rank).hi, given) {
            Ok(Put { left: None, .. }) => return Ok(true),
            Ok(Put { left, .. }) => left,
            Err(fault) if !fault.is_lost() && self.may_give_back => {
                // If that fails too, the keys wait for the next run.
                let _ = self.give_ahead_back(it, rank);
                return Err(fault);
            }
            Err(fault) => return Err(fault),
        };
        if self.may_give_back && !self.give_ahead_back(it, rank)? {
            return Ok(true);
        }
        if let Some((key, why)) = left {
            self.name_as(it, &key, why, !self.may_give_back);
        }
        Ok(false)
    }

    /// Gives the source a rank back: false if it is loaded. First the destination loads nothing more that was given before.
    /// Then the source takes it back, unless it has done another step since.
    fn give_ahead_back(&mut self, it: &Move, rank: Rank) -> Done<bool> {
        loop {
            let given = self.source.given(it)?.generation;
            match self.dest.refuse_ahead(it, rank, given)? {
                Refused::Loaded => return Ok(false),
                Refused::Changed => {}
                Refused::At(refused) => {
                    if self.source.take_ahead(it, rank, refused, given)? {
                        return Ok(true);
                    }
                }
            }
        }
    }
}
