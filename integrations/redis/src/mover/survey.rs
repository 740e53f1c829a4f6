//! Which partitions have come back with less than others know of them.

use super::partition::Partition;
use super::pulls;
use super::state::{Life, Pulled, Role, Stand, State};
use crate::fault::Done;
use squall::Rank;
use std::collections::BTreeMap;
use std::fmt;

/// The generations of a partition that is let in with less begin at a multiple of this. So they are above all that
/// others may have seen or heard of it before.
const EPOCH: u64 = 1 << 32;

/// What all partitions say of themselves, asked twice. Another mover may be at work meanwhile, and what a partition
/// knows only rises. So what was claimed of one at first holds of what it says later, unless it has lost something.
pub struct Survey {
    /// What each said at first.
    pub claims: BTreeMap<u32, State>,
    /// What each said after that.
    pub facts: BTreeMap<u32, State>,
    /// The runs of their servers.
    pub lives: BTreeMap<u32, Life>,
}

/// What shows that a partition has come back with less.
#[derive(Clone, Debug, PartialEq)]
pub enum Sign {
    /// It is not in the course that has begun at all partitions.
    Course {
        /// Its own course.
        own: u32,
        /// That of the others.
        fence: u32,
    },
    /// It is in no course, and the plan gives it keys.
    Empty,
    /// Another one has seen a higher generation of it.
    Generation {
        /// Its own generation.
        own: u64,
        /// What was seen.
        seen: u64,
        /// By which partition.
        by: u32,
    },
    /// A source has forgotten keys that it has not loaded.
    Loads {
        /// Those keys.
        keys: (Rank, Rank),
        /// The first key of their move.
        lo: Rank,
        /// The source.
        source: u32,
        /// How many rows of the move the source has removed.
        gone: u64,
    },
    /// A destination has loaded keys that it has not given.
    Gives {
        /// Those keys.
        keys: (Rank, Rank),
        /// The destination.
        dest: u32,
    },
    /// It was restarted, and writes no log.
    NoLog,
}

impl Survey {
    /// Asks all of them.
    pub fn of<'a>(partitions: impl Iterator<Item = &'a mut Partition>) -> Done<Survey> {
        let mut all: Vec<&mut Partition> = partitions.collect();
        let mut states = || -> Done<BTreeMap<u32, State>> {
            all.iter_mut().map(|it| Ok((it.part, it.state()?))).collect()
        };
        let (claims, facts) = (states()?, states()?);
        let lives = all.iter().map(|it| (it.part, it.life.clone())).collect();
        Ok(Survey { claims, facts, lives })
    }

    /// The highest course of which a partition knows that it has begun at all of them.
    pub fn fence(&self) -> u32 {
        self.claims.values().map(|it| it.fence).max().unwrap_or(0)
    }

    /// What others have seen of a partition at most, and who.
    pub fn seen(&self, part: u32) -> (u64, u32) {
        let others = self.claims.iter().filter(|(&other, _)| other != part);
        others.map(|(&by, it)| (it.seen.get(&part).copied().unwrap_or(0), by)).max().unwrap_or((0, 0))
    }

    /// The generation with which a partition is let in with less.
    pub fn next_generation(&self, part: u32) -> u64 {
        let known = self.seen(part).0.max(self.facts[&part].generation);
        (known / EPOCH + 1) * EPOCH
    }

    /// Whether the server was started since the partition let routers in last, as far as is known.
    pub fn is_restarted(&self, part: u32) -> bool {
        self.facts[&part].run.as_deref() != Some(&self.lives[&part].run)
    }

    /// Whether keys are on their way to the partition: they were given, and are not loaded.
    pub fn awaits(&self, part: u32) -> bool {
        let own = &self.facts[&part];
        own.moves.iter().filter(|it| it.role == Role::In).any(|it| {
            let given = self.facts.get(&it.peer).and_then(|source| source.stand(own.number, it.lo));
            given.is_some_and(|source| {
                let mut ahead = source.ahead(|state| *state == Pulled::Given);
                source.edge > it.edge || ahead.any(|rank| !it.has_passed(rank))
            })
        })
    }

    /// All signs that a partition which should have keys has lost something. In course `number` one without a
    /// course is empty.
    pub fn signs(&self, part: u32, number: u32) -> Vec<Sign> {
        let own = &self.facts[&part];
        let mut signs = Vec::new();
        if own.number < self.fence() {
            signs.push(Sign::Course { own: own.number, fence: self.fence() });
        } else if own.number == 0 && number > 1 {
            signs.push(Sign::Empty);
        }
        let (seen, by) = self.seen(part);
        if seen > own.generation {
            signs.push(Sign::Generation { own: own.generation, seen, by });
        }
        let others = self.claims.iter().filter(|(&other, it)| other != part && it.number >= own.number);
        signs.extend(others.flat_map(|(&other, it)| {
            let its_moves = it.moves.iter().filter(move |stand| stand.peer == part);
            its_moves.flat_map(move |stand| {
                let pulled = pulls::signs(own, it.number, other, stand);
                sign(own, it.number, other, stand).into_iter().chain(pulled)
            })
        }));
        let has_run = own.run.is_some() && self.is_restarted(part);
        if has_run && !self.lives[&part].has_log {
            signs.push(Sign::NoLog);
        }
        signs
    }
}

/// What another partition's stand with a move shows of the partition at its other end.
fn sign(own: &State, number: u32, other: u32, stand: &Stand) -> Option<Sign> {
    let edge = own.stand(number, stand.lo).map_or(stand.lo, |it| it.edge);
    match stand.role {
        Role::Out if stand.forgot > edge => {
            Some(Sign::Loads { keys: (edge, stand.forgot), lo: stand.lo, source: other, gone: stand.gone })
        }
        Role::In if stand.edge > edge => Some(Sign::Gives { keys: (edge, stand.edge), dest: other }),
        _ => None,
    }
}

impl fmt::Display for Sign {
    fn fmt(&self, f: &mut fmt::Formatter<'_>) -> fmt::Result {
        match self {
            Sign::Course { own: 0, fence } => {
                write!(f, "it is in no course, and course {fence} had begun everywhere")
            }
            Sign::Course { own, fence } => {
                write!(f, "it is in course {own}, and course {fence} had begun everywhere")
            }
            Sign::Empty => {
                write!(f, "it has begun no course, and the old plan gives it keys (--init begins course 1)")
            }
            Sign::Generation { own, seen, by } => {
                write!(f, "it is at step {own}, and partition {by} has seen its step {seen}")
            }
            Sign::Loads { keys: (lo, hi), source, .. } => {
                write!(f, "it had loaded [{lo},{hi}) from partition {source}, and has not now")
            }
            Sign::Gives { keys: (lo, hi), dest } => {
                write!(f, "it had given [{lo},{hi}) to partition {dest}, and has not now")
            }
            Sign::NoLog => {
                f.write_str("its server was restarted and writes no log: ")?;
                f.write_str("what it was told since its last snapshot may be gone")
            }
        }
    }
}

#[cfg(test)]
mod tests {
    use super::*;

    const LO: Rank = Rank(100);

    fn stand(role: Role, peer: u32, edge: u64, forgot: u64) -> Stand {
        let (edge, forgot, pulled) = (Rank(edge), Rank(forgot), BTreeMap::new());
        Stand { lo: LO, hi: Rank(200), role, peer, edge, forgot, gone: 7, pulled }
    }

    fn state(generation: u64, stand: Stand) -> State {
        let run = Some("first".to_string());
        State { number: 2, generation, fence: 2, run, moves: vec![stand], ..State::default() }
    }

    /// Partition 1 has given to 3 below 150, and has forgotten below 140; 3 has loaded below 140.
    fn survey() -> Survey {
        let states = BTreeMap::from([
            (1, state(5, stand(Role::Out, 3, 150, 140))),
            (3, state(9, stand(Role::In, 1, 140, 100))),
        ]);
        let life = Life { run: "first".to_string(), has_log: false };
        Survey {
            claims: states.clone(),
            facts: states,
            lives: BTreeMap::from([(1, life.clone()), (3, life)]),
        }
    }

    fn change(part: u32, change: impl FnOnce(&mut State)) -> Vec<Sign> {
        let mut survey = survey();
        change(survey.facts.get_mut(&part).unwrap());
        survey.signs(part, 2)
    }

    #[test]
    fn those_that_lost_nothing_have_no_signs() {
        let mut it = survey();
        assert!(it.signs(1, 2).is_empty() && it.signs(3, 2).is_empty());
        assert!(it.awaits(3) && !it.awaits(1));
        it.facts.get_mut(&1).unwrap().moves[0].edge = Rank(140);
        assert!(!it.awaits(3));
        // A key that was pulled is on its way, until it is loaded.
        it.facts.get_mut(&1).unwrap().moves[0].pulled.insert(Rank(170), Pulled::Given);
        assert!(it.awaits(3) && it.signs(3, 2).is_empty());
        it.facts.get_mut(&3).unwrap().moves[0].pulled.insert(Rank(170), Pulled::Loaded);
        assert!(!it.awaits(3) && it.signs(1, 2).is_empty());
        // Another mover has gone on between the two questions.
        *it.facts.get_mut(&1).unwrap() = state(8, stand(Role::Out, 3, 180, 170));
        *it.facts.get_mut(&3).unwrap() = state(12, stand(Role::In, 1, 170, 100));
        assert!(it.signs(1, 2).is_empty() && it.signs(3, 2).is_empty());
        // Those of an earlier version have no generation, and no run is known.
        for state in it.claims.values_mut().chain(it.facts.values_mut()) {
            (state.generation, state.fence, state.run) = (0, 0, None);
        }
        assert!(it.signs(1, 2).is_empty() && it.signs(3, 2).is_empty());
    }

    #[test]
    fn a_destination_that_lost_loads_is_found() {
        let signs = change(3, |it| it.moves[0].edge = Rank(120));
        assert_eq!(signs, [Sign::Loads { keys: (Rank(120), Rank(140)), lo: LO, source: 1, gone: 7 }]);
    }

    #[test]
    fn a_source_that_lost_gives_is_found() {
        let signs = change(1, |it| it.moves[0].edge = Rank(120));
        assert_eq!(signs, [Sign::Gives { keys: (Rank(120), Rank(140)), dest: 3 }]);
    }

    #[test]
    fn one_without_its_course_is_found() {
        let signs = change(3, |it| *it = State::default());
        assert_eq!(signs[0], Sign::Course { own: 0, fence: 2 });
        assert!(matches!(signs[1], Sign::Loads { .. }));
        let mut fresh = survey();
        for state in fresh.claims.values_mut() {
            *state = State::default();
        }
        *fresh.facts.get_mut(&1).unwrap() = State::default();
        assert_eq!((fresh.signs(1, 2), fresh.signs(1, 1)), (vec![Sign::Empty], vec![]));
    }

    #[test]
    fn a_generation_that_fell_is_found() {
        let mut it = survey();
        it.claims.get_mut(&1).unwrap().seen.insert(3, 9);
        assert!(it.signs(3, 2).is_empty());
        it.claims.get_mut(&1).unwrap().seen.insert(3, 10);
        assert_eq!(it.signs(3, 2), [Sign::Generation { own: 9, seen: 10, by: 1 }]);
        assert_eq!(it.next_generation(3), 1 << 32);
        it.claims.get_mut(&1).unwrap().seen.insert(3, (1 << 32) + 5);
        assert_eq!(it.next_generation(3), 2 << 32);
    }

    #[test]
    fn a_restart_without_a_log_is_found() {
        let mut it = survey();
        it.lives.get_mut(&3).unwrap().run = "second".to_string();
        assert_eq!(it.signs(3, 2), [Sign::NoLog]);
        it.lives.get_mut(&3).unwrap().has_log = true;
        assert!(it.is_restarted(3) && it.signs(3, 2).is_empty());
    }
}
