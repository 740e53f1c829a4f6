//! The steps by which all keys of one rank move ahead of their move's edge. Each carries the generation of the other end,
//! and says its own.

use super::partition::Partition;
use super::state::{Pulled, Role, Stand, State};
use super::steps::{read_large, Asked, Seen, UNLINKED};
use super::survey::Sign;
use crate::course::Move;
use crate::fault::{Done, Fault};
use crate::keymap::hex;
use squall::Rank;

/// The outcome for a rank that is to be given.
pub enum Ahead {
    /// It is given: the generation of the source.
    Given(u64),
    /// It was given before, and the source has forgotten its keys.
    Forgotten,
    /// Nothing is: of the keys that were named the one at this place is too large. Its number of bytes.
    TooLarge(usize, u64),
    /// Nothing is: the course is closed.
    Closed,
}

/// The outcome for a rank that is to go back to its source.
pub enum Refused {
    /// Nothing of it is loaded any more: the generation of the destination.
    At(u64),
    /// It is loaded.
    Loaded,
    /// The partition has done another step meanwhile.
    Changed,
}

/// A move of that rank alone.
pub fn alone(it: &Move, rank: Rank) -> Move {
    Move { lo: rank, hi: Rank(rank.0 + 1), ..*it }
}

/// The signs that a partition has lost something, by the ranks of a move that were pulled, as the other end knows them.
pub fn signs(own: &State, number: u32, other: u32, stand: &Stand) -> Vec<Sign> {
    let known = own.stand(number, stand.lo);
    let lost = stand.pulled.iter().filter(|(&rank, _)| !known.is_some_and(|it| it.has_passed(rank)));
    lost.filter_map(|(&lo, pulled)| {
        let keys = (lo, Rank(lo.0 + 1));
        match (stand.role, *pulled) {
            (Role::Out, Pulled::Forgotten(gone)) => Some(Sign::Loads { keys, lo, source: other, gone }),
            (Role::In, Pulled::Loaded) => Some(Sign::Gives { keys, dest: other }),
            _ => None,
        }
    })
    .collect()
}

impl Partition {
    /// Gives the keys of a rank, unless one of those that are named has a dump of more bytes.
    pub fn give_ahead(&mut self, it: &Move, rank: Rank, keys: &[Vec<u8>], most: u64) -> Done<Ahead> {
        let (span, more) = ((it.lo, rank), Some(most.to_string()));
        match self.say_ahead(&Asked { function: "squall_pull_give", keys, span, seen: None, more })? {
            Ok((state, _)) if state == "forgotten" => Ok(Ahead::Forgotten),
            Ok((_, generation)) => Ok(Ahead::Given(generation)),
            Err(error) => match read_large(&error) {
                Some((at, size)) if at < keys.len() => Ok(Ahead::TooLarge(at, size)),
                None if error.starts_with("SQUALL CLOSED ") => Ok(Ahead::Closed),
                _ => Err(self.explain(&error)),
            },
        }
    }

    /// Loads the keys of a rank, which the source gave at that generation: the generation of this partition.
    pub fn load_ahead(&mut self, it: &Move, rank: Rank, given: u64) -> Done<u64> {
        self.do_ahead("squall_pull_load", &[], (it.lo, rank), (it.source, given))
    }

    /// Loads nothing any more that the source has given above the edge, up to that generation of it, unless the rank is
    /// loaded.
    pub fn refuse_ahead(&mut self, it: &Move, rank: Rank, given: u64) -> Done<Refused> {
        let state = self.state()?;
        let number = self.number.parse().unwrap_or(0);
        let Some(stand) = state.stand(number, it.lo) else {
            return Err(self.explain("SQUALL STRANGER"));
        };
        let (span, seen, more) = ((it.lo, stand.edge), Some((it.source, given)), Some(hex(rank)));
        match self.try_step(&Asked { function: "squall_back", keys: &[], span, seen, more })? {
            Ok(step) if step.edge == stand.edge => Ok(Refused::At(step.generation)),
            Ok(_) => Ok(Refused::Changed),
            Err(error) if error == "SQUALL CHANGED" => Ok(Refused::Changed),
            Err(error) if error == "SQUALL LOADED" => Ok(Refused::Loaded),
            Err(error) => Err(self.explain(&error)),
        }
    }

    /// Has the keys of a rank again, which it gave ahead of the edge up to that generation, and which the destination does
    /// not load: whether it has done no other step meanwhile.
    pub fn take_ahead(&mut self, it: &Move, rank: Rank, refused: u64, given: u64) -> Done<bool> {
        let (span, seen) = ((it.lo, rank), Some((it.dest, refused)));
        let more = Some(given.to_string());
        match self.say_ahead(&Asked { function: "squall_pull_take", keys: &[], span, seen, more })? {
            Ok(_) => Ok(true),
            Err(error) if error == "SQUALL CHANGED" => Ok(false),
            Err(error) => Err(self.explain(&error)),
        }
    }

    /// Unlinks the keys of a rank, which are loaded.
    pub fn forget_ahead(&mut self, it: &Move, rank: Rank, keys: &[Vec<u8>], loaded: u64) -> Done<()> {
        let (first, last) = keys.split_at(keys.len() - keys.len() % UNLINKED);
        for block in first.chunks(UNLINKED).chain([last]) {
            self.do_ahead("squall_pull_forget", block, (it.lo, rank), (it.dest, loaded))?;
        }
        Ok(())
    }

    /// Does a step that is not refused: the generation.
    fn do_ahead(&mut self, function: &str, keys: &[Vec<u8>], span: (Rank, Rank), seen: Seen) -> Done<u64> {
        match self.say_ahead(&Asked { function, keys, span, seen: Some(seen), more: None })? {
            Ok((_, generation)) => Ok(generation),
            Err(error) => Err(self.explain(&error)),
        }
    }

    /// Does a step: how far the rank is, and the generation; the partition's own words if it refuses.
    fn say_ahead(&mut self, it: &Asked) -> Done<Result<(String, u64), String>> {
        let said = match self.say(it)? {
            Ok(said) => said,
            Err(error) => return Ok(Err(error)),
        };
        let read = said.split_once(' ').and_then(|(state, at)| Some((state.to_string(), at.parse().ok()?)));
        read.map(Ok).ok_or_else(|| Fault::new(format!("partition {}: an answer of another form", self.part)))
    }
}

#[cfg(test)]
mod tests {
    use super::*;

    #[test]
    fn ranks_that_were_pulled_show_what_is_lost() {
        let stand = |role, edge, pulled: &[(u64, Pulled)]| Stand {
            lo: Rank(100),
            hi: Rank(200),
            role,
            peer: 1,
            edge: Rank(edge),
            forgot: Rank(100),
            gone: 0,
            pulled: pulled.iter().map(|&(rank, state)| (Rank(rank), state)).collect(),
        };
        let state = |stand| State { number: 2, moves: vec![stand], ..State::default() };
        let source = [(150, Pulled::Given), (160, Pulled::Forgotten(2)), (170, Pulled::Forgotten(1))];
        let source = stand(Role::Out, 110, &source);
        let dest = |edge, pulled: &[(u64, Pulled)]| state(stand(Role::In, edge, pulled));
        let sign = |rank, gone| {
            let (lo, hi) = (Rank(rank), Rank(rank + 1));
            Sign::Loads { keys: (lo, hi), lo, source: 1, gone }
        };
        let has =
            |ranks: &[u64]| dest(110, &ranks.iter().map(|&it| (it, Pulled::Loaded)).collect::<Vec<_>>());
        assert_eq!(signs(&has(&[160, 170]), 2, 1, &source), []);
        assert_eq!(signs(&has(&[160]), 2, 1, &source), [sign(170, 1)]);
        assert_eq!(signs(&dest(165, &[]), 2, 1, &source), [sign(170, 1)]);
        assert_eq!(signs(&State::default(), 2, 1, &source), [sign(160, 2), sign(170, 1)]);
        // The other end: what it has loaded was given.
        let loaded = stand(Role::In, 110, &[(150, Pulled::Loaded)]);
        assert_eq!(signs(&state(source), 2, 1, &loaded), []);
        let lost = Sign::Gives { keys: (Rank(150), Rank(151)), dest: 1 };
        assert_eq!(signs(&state(stand(Role::Out, 120, &[])), 2, 1, &loaded), [lost]);
    }
}
