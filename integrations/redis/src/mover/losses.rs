//! What a partition has lost that came back with less, and how it is let in all the same.

use super::index::{is_own, scan};
use super::partition::{Beginning, Partition};
use super::passed::Passed;
use super::state::{Role, Stand, State};
use super::survey::{Sign, Survey};
use super::Mover;
use crate::course::{Move, Plan};
use crate::fault::{Done, Fault};
use crate::keymap;
use crate::log;
use crate::resp::Value;
use squall::{Course, Leg, Rank};
use std::collections::BTreeMap;
use std::fmt;

/// How many rows are removed at once.
const REMOVED: usize = 256;

/// A partition that has come back with less.
pub struct Loss {
    /// Which one.
    pub part: u32,
    /// What shows it.
    signs: Vec<Sign>,
    /// About how many rows that had moved to it are gone.
    rows: u64,
}

impl Loss {
    /// That of a partition with these signs, whose rows are counted.
    pub fn new(partition: &mut Partition, signs: Vec<Sign>) -> Done<Loss> {
        let spans = signs.iter().filter_map(|it| match it {
            Sign::Loads { keys, lo, gone, .. } => Some(((*lo, keys.1), *gone)),
            _ => None,
        });
        let mut left: Vec<((Rank, Rank), u64)> = spans.collect();
        if !left.is_empty() {
            scan(&mut partition.conn, |keys| {
                keys.iter().filter(|key| !is_own(key)).for_each(|key| take_one(&mut left, keymap::rank(key)));
                Ok(())
            })?;
        }
        Ok(Loss { part: partition.part, signs, rows: left.iter().map(|(_, gone)| gone).sum() })
    }
}

/// Counts a row that is there.
fn take_one(left: &mut [((Rank, Rank), u64)], rank: Rank) {
    if let Some((_, gone)) = left.iter_mut().find(|((lo, hi), _)| (*lo..*hi).contains(&rank)) {
        *gone = gone.saturating_sub(1);
    }
}

impl fmt::Display for Loss {
    fn fmt(&self, f: &mut fmt::Formatter<'_>) -> fmt::Result {
        let signs: Vec<String> = self.signs.iter().map(Sign::to_string).collect();
        write!(f, "partition {} has come back with less: {}", self.part, signs.join("; "))?;
        match self.rows {
            0 => write!(f, "; how many rows are lost is not known"),
            rows => write!(f, "; about {rows} rows that had moved to it are gone"),
        }
    }
}

impl Mover {
    /// Goes on with what a partition has. No mover that was asleep does a step any more by what the partition knew
    /// before. Its edges rise to what the other ends know.
    pub(super) fn accept(
        &self,
        partitions: &mut [Partition],
        at: usize,
        survey: &Survey,
        losses: &BTreeMap<u32, Loss>,
    ) -> Done<()> {
        let part = partitions[at].part;
        let (loss, own, next) = (&losses[&part], &survey.facts[&part], survey.next_generation(part));
        let mut states = BTreeMap::from([(part, own.clone())]);
        for other in partitions.iter_mut().filter(|it| it.part != part) {
            other.ask(&["FCALL", "squall_since", "0", &part.to_string(), &next.to_string()])?;
            states.insert(other.part, other.state()?);
        }
        let are_lost = |it: &Move| losses.contains_key(&it.source) && losses.contains_key(&it.dest);
        let mut passed: Vec<Passed> =
            self.moves.iter().map(|it| Passed::of(it, part, self.number, &states)).collect();
        for (it, passed) in self.moves.iter().zip(&mut passed) {
            if part == it.source && are_lost(it) && survey.fence() == self.number {
                // Nobody knows which of them routers send to the destination. So all come there before it lets them in.
                passed.edge = it.hi;
            }
        }
        let may_remove = self.is_vouched(part, survey, losses);
        let holds = Holds { part, legs: legs(&self.old)?, moves: &self.moves, passed: &passed };
        self.remove(partitions, &states, &holds, may_remove)?;
        let course = self.beginning(part, survey);
        // The others were asked once they had heard of it: what they do by what the partition said before is refused.
        let others: Vec<(u32, u64)> =
            states.iter().filter(|(&it, _)| it != part).map(|(&it, state)| (it, state.generation)).collect();
        partitions[at].accept(&course, &passed, [own.generation, next, loss.rows], &others)?;
        log::warn(format!("accepted: {loss}"));
        Ok(())
    }

    /// Removes what a partition should not have, if the plans are known to be right, and what others hold back that it
    /// had given them: it gives these keys again, and some may be gone then.
    fn remove(
        &self,
        partitions: &mut [Partition],
        states: &BTreeMap<u32, State>,
        holds: &Holds,
        may_remove: bool,
    ) -> Done<()> {
        let part = holds.part;
        for it in partitions {
            let state = &states[&it.part];
            let comes = |stand: &&Stand| stand.role == Role::In && stand.peer == part;
            let pending: Vec<&Stand> = state.moves.iter().filter(comes).collect();
            let removed = if it.part == part {
                it.shut(state)?;
                it.remove(state, |rank| may_remove && !holds.has(rank))?
            } else if !pending.is_empty() {
                let awaits = |to: &Stand, rank| to.lo <= rank && rank < to.hi && !to.has_passed(rank);
                it.remove(state, |rank| pending.iter().any(|to| awaits(to, rank)))?
            } else {
                0
            };
            if removed > 0 {
                let part = it.part;
                log::warn(format!("partition {part}: {removed} rows that it does not hold were removed"));
            }
        }
        Ok(())
    }
}

/// The ranges of a plan.
fn legs(plan: &Plan) -> Done<Vec<Leg>> {
    Ok(Course::open(1, &plan.text, &plan.text)?.old_plan())
}

/// Which rows a partition should have.
struct Holds<'a> {
    part: u32,
    legs: Vec<Leg>,
    moves: &'a [Move],
    passed: &'a [Passed],
}

impl Holds<'_> {
    /// Whether it should have one of that rank. It forgets later what it has given below its edge. A rank that was pulled
    /// from it is the destination's: a row of it is an older one, whose turn may be far off.
    fn has(&self, rank: Rank) -> bool {
        let is_of = |leg: &Leg| leg.part == self.part && leg.lo <= rank && rank < leg.hi;
        let at = self.moves.partition_point(|it| it.lo <= rank).checked_sub(1);
        let of = at.map(|at| (&self.moves[at], &self.passed[at])).filter(|(it, _)| rank < it.hi);
        match of {
            Some((it, passed)) if it.dest == self.part => rank < passed.edge || passed.loaded.contains(&rank),
            Some((it, passed)) if it.source == self.part => !passed.loaded.contains(&rank),
            _ => self.legs.iter().any(is_of),
        }
    }
}

impl Partition {
    /// Removes the rows of some ranks: how many. Nobody is served by them.
    fn remove(&mut self, own: &State, is_wrong: impl Fn(Rank) -> bool) -> Done<usize> {
        let mut foreign = Vec::new();
        scan(&mut self.conn, |keys| {
            let wrong = |key: &Vec<u8>| !is_own(key) && is_wrong(keymap::rank(key));
            foreign.extend(keys.into_iter().filter(wrong));
            Ok(())
        })?;
        for keys in foreign.chunks(REMOVED) {
            let unlink = [b"UNLINK".as_slice()].into_iter().chain(keys.iter().map(Vec::as_slice)).collect();
            self.unless_changed(own, &[unlink])?;
        }
        Ok(foreign.len())
    }

    /// Shuts out all routers. Those that a server has kept over a restart, or that are there since it lost keys without one,
    /// would be answered by what it has.
    pub fn shut(&mut self, own: &State) -> Done<()> {
        let users = self.users()?;
        let resets: Vec<Vec<&[u8]>> =
            users.iter().map(|name| vec![b"ACL".as_slice(), b"SETUSER", name.as_bytes(), b"reset"]).collect();
        self.unless_changed(own, &resets)
    }

    /// Does commands, unless another mover has let routers in here meanwhile.
    fn unless_changed(&mut self, own: &State, commands: &[Vec<&[u8]>]) -> Done<()> {
        self.ask(&["WATCH", "squall:generation"])?;
        let now = self.ask(&["GET", "squall:generation"])?.text();
        if now.parse().unwrap_or(0) != own.generation {
            return Err(self.explain("SQUALL CHANGED"));
        }
        self.ask(&["MULTI"])?;
        commands.iter().try_for_each(|words| self.ask(words).map(drop))?;
        match self.ask(&["EXEC"])? {
            Value::List(_) => Ok(()),
            _ => Err(self.explain("SQUALL CHANGED")),
        }
    }

    /// Goes on with what it has: its own generation, the next one, and about how many rows are lost. Steps that
    /// other partitions did before these generations of theirs no longer count: it may have lost that it refuses them.
    fn accept(
        &mut self,
        course: &Beginning,
        passed: &[Passed],
        numbers: [u64; 3],
        others: &[(u32, u64)],
    ) -> Done<()> {
        let others = others.iter().map(|(part, generation)| format!(":{part}={generation}"));
        let numbers = numbers.map(|it| it.to_string()).join(":") + &others.collect::<String>();
        let head = ["FCALL", "squall_accept", "0", &self.number, course.old, course.new, &numbers];
        let mut words: Vec<String> = head.into_iter().map(String::from).collect();
        let moves = course.moves.iter().zip(passed);
        words.extend(moves.map(|(it, passed)| format!("{} {}", self.line(it), passed.word())));
        match self.ask(&words)?.text().strip_prefix("accepted ") {
            Some(_) => Ok(()),
            None => Err(Fault::new(format!("partition {}: it did not go on", self.part))),
        }
    }
}

#[cfg(test)]
mod tests {
    use super::*;

    #[test]
    fn rows_of_others_are_told_from_own() {
        let legs =
            vec![Leg { lo: Rank(0), hi: Rank(100), part: 1 }, Leg { lo: Rank(100), hi: Rank(300), part: 2 }];
        let moves = [
            Move { lo: Rank(50), hi: Rank(100), source: 1, dest: 2, sub: 0 },
            Move { lo: Rank(200), hi: Rank(300), source: 2, dest: 1, sub: 1 },
        ];
        // The ranks 70 and 270 were pulled.
        let passed = [(60, 70), (250, 270)].map(|(edge, ahead)| Passed::with(Rank(edge), &[Rank(ahead)]));
        let holds = |part| Holds { part, legs: legs.clone(), moves: &moves, passed: &passed };
        let ranks = [10, 55, 70, 99, 150, 249, 250, 270, 299];
        let has = |part| ranks.into_iter().filter(|&rank| holds(part).has(Rank(rank))).collect::<Vec<_>>();
        assert_eq!(has(1), [10, 55, 99, 249, 270]);
        assert_eq!(has(2), [55, 70, 150, 249, 250, 299]);
    }

    #[test]
    fn rows_that_are_there_are_not_lost() {
        let mut left = vec![((Rank(0), Rank(10)), 3), ((Rank(10), Rank(20)), 1)];
        [5, 7, 15, 16, 30].into_iter().for_each(|rank| take_one(&mut left, Rank(rank)));
        assert_eq!(left.iter().map(|(_, gone)| *gone).collect::<Vec<_>>(), [1, 0]);
    }
}
