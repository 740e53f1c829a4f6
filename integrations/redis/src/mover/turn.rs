//! How a course is turned back: it ends where it is, and the next one begins from where the keys are.

use super::feeder::Job;
use super::partition::Partition;
use super::pulls::alone;
use super::sizes::AllStuck;
use super::state::{Pulled, Stand, State};
use super::{need_addresses, pull, sources, Mover};
use crate::args::Args;
use crate::course::{self, Move, Plan};
use crate::fault::{say, Done, Fault, Trying};
use crate::{faults, log};
use squall::Span;
use std::collections::{BTreeMap, BTreeSet};

/// The flag that asks for it, and the option that says where the next course leads.
pub const FLAG: &str = "turn-back";
pub const TO: &str = "to";

/// The plan to which the next course leads, if a course is to be turned back: without the option the plan from which it came.
///
/// # Errors
///
/// The words do not go together, or name no plan.
pub fn to(args: &Args, old: &Plan) -> Done<Option<Plan>> {
    match (args.has(FLAG), args.has(TO)) {
        (true, _) if args.has(pull::OPTION) => {
            Err(Fault::of_words(format!("--{FLAG} and --{} exclude each other", pull::OPTION)))
        }
        (true, true) => Plan::of(args, TO).map(Some),
        (true, false) => Ok(Some(old.clone())),
        (false, true) => Err(Fault::of_words(format!("--{TO} needs --{FLAG}"))),
        (false, false) => Ok(None),
    }
}

impl Mover {
    /// Turns the course back, and moves by the next one what is not at that plan.
    pub(super) fn turn_back(&self, args: &Args, to: &Plan) -> Done<()> {
        need_addresses(&self.servers, &to.parts)?;
        let last = self.number + 1;
        self.work(args, last, |job| self.turn(job, to))?;
        say(format!("course {} was turned back: course {last} is over", self.number))
    }

    /// Shows how far the course is and what would move, and changes nothing.
    pub(super) fn preview_turn(&self, to: &Plan) -> Done<()> {
        need_addresses(&self.servers, &to.parts)?;
        let (begun, _) = self.look(to)?;
        if let Some(left) = begun {
            say(format!("course {} was turned back: course {} has begun", self.number, self.number + 1))?;
            return self.next(left, to)?.preview_left();
        }
        let states = states(&mut self.partitions()?)?;
        for it in &self.moves {
            let Move { lo, hi, source, dest, sub } = it;
            let stand = states[source].stand(self.number, *lo);
            let (edge, ahead) = stand.map_or((*lo, 0), |it| (it.edge, it.pulled.len()));
            say(format!(
                "move [{lo},{hi}) {source} to {dest} sub {sub}: given below {edge}, {ahead} ranks ahead of that"
            ))?;
        }
        let in_it = states.values().filter(|it| it.number == self.number);
        let (closed, open): (Vec<&State>, Vec<&State>) = in_it.partition(|it| it.is_closed);
        let (begun, closed) = (closed.len() + open.len(), closed.len());
        say(format!(
            "course {}: begun at {begun} of {} partitions, closed at {closed}",
            self.number,
            states.len()
        ))?;
        self.next(self.plan_left(&states, |it| it.source)?, to)?.preview_left()
    }

    /// Shows the plan from which the course begins, without which it can't be turned back, and what would move.
    fn preview_left(&self) -> Done<()> {
        say(format!("course {} begins at {}", self.number, String::from_utf8_lossy(&self.old.text)))?;
        self.preview()
    }

    /// All of it once, from wherever an earlier one has stopped.
    fn turn(&self, job: &Job, to: &Plan) -> Done<()> {
        let left = match self.begun(to)? {
            Some(left) => left,
            None => {
                let ended = self.end(job);
                // Another program that turns the course back may be further.
                self.begun(to)?.map_or(ended, Ok)?
            }
        };
        let moved = match &left.ranges {
            left if *left == self.new.ranges => "all keys of it have moved",
            left if *left == self.old.ranges => "no key of it has moved",
            _ => "some keys of it have moved",
        };
        let next = self.next(left, to)?;
        job.progress.set_closed(false);
        log::info(format!("course {} is at its end: {moved}; course {} goes on", self.number, next.number));
        next.attempt(&job.of_course(next.number))
    }

    /// Where the keys were when the next course began, if it has begun anywhere; and the partitions that are in this one.
    fn look(&self, to: &Plan) -> Done<(Option<Plan>, Vec<Partition>)> {
        let (next, mut begun, mut others) = (self.number + 1, None, Vec::new());
        for mut it in self.partitions()? {
            let said = it.ask(&["MGET", "squall:number", "squall:old", "squall:new"])?.list();
            let words: Vec<String> = said.into_iter().map(|word| word.text()).collect();
            let [number, old, new] = &words[..] else {
                return Err(Fault::new(format!("partition {}: an answer of another form", it.part)));
            };
            match number.parse::<u32>().unwrap_or(0) {
                number if number > next => return Err(it.explain(&format!("SQUALL LATE {number}"))),
                number if number == next && *new != to.ranges => {
                    return Err(it.of_course(next).explain("SQUALL CLASH"));
                }
                number if number == next => begun = Some(Plan::of_ranges(old)?),
                number if number == self.number && (old, new) != (&self.old.ranges, &self.new.ranges) => {
                    return Err(it.explain("SQUALL CLASH"));
                }
                number if number == self.number => others.push(it),
                _ => {}
            }
        }
        Ok((begun, others))
    }

    /// Where the keys were when the next course began, if it has begun anywhere. All other partitions are closed then: it may
    /// have begun there since this one was over.
    fn begun(&self, to: &Plan) -> Done<Option<Plan>> {
        let (begun, mut others) = self.look(to)?;
        if begun.is_some() {
            others.iter_mut().try_for_each(|it| it.prepare().and_then(|()| it.close()))?;
        }
        Ok(begun)
    }

    /// Ends the course where it is, once nothing is given in it any more: the plan of where the keys are then.
    fn end(&self, job: &Job) -> Done<Plan> {
        // A key that its destination does not take stays where it is, and ends nothing.
        let stuck = AllStuck::default();
        let job = Job { is_closed: true, stuck: &stuck, ..job.of_course(self.number) };
        let mut entered = self.start(&job)?;
        let number = self.number;
        faults::stop_at("old-started");
        if entered.survey.facts.values().all(|it| it.number < number) {
            log::info(format!(
                "course {number} had begun nowhere: it begins, so that no mover begins it later"
            ));
        }
        self.refuse_many(&states(&mut entered.partitions)?)?;
        for it in &mut entered.partitions {
            it.close()?;
            faults::stop_at("closed-at-one");
        }
        // Each one is told how far the others are: if one loses that it is closed, that is found out.
        self.fence(&mut entered)?;
        drop(entered);
        job.progress.set_closed(true);
        log::info(format!("course {number} is closed: what was given is loaded, and nothing more is given"));
        faults::stop_at("closed");
        self.finish(&job)
    }

    /// Nothing, unless the plan of where the keys are would have too many ranges now. Once a course is closed, there is no other
    /// way than to go on.
    fn refuse_many(&self, states: &BTreeMap<u32, State>) -> Done<()> {
        if states.values().any(|it| it.is_closed) {
            return Ok(());
        }
        let now = self.plan_left(states, |it| it.source);
        let words =
            || format!("course {} can't be turned back now; let its mover go on for a while", self.number);
        now.map(drop).trying(words)
    }

    /// Loads and forgets all that was given, or gives it back: the plan of where the keys are then.
    fn finish(&self, job: &Job) -> Done<Plan> {
        let mut before = Vec::new();
        loop {
            job.check()?;
            let mut partitions = self.partitions()?;
            let states = states(&mut partitions)?;
            let number = self.number;
            if let Some((part, _)) = states.iter().find(|(_, it)| it.number != number || !it.is_closed) {
                return Err(Fault::lost(format!("partition {part}: course {number} is not closed there")));
            }
            let left = self.unsettled(partitions, &states)?;
            if left.is_empty() {
                faults::stop_at("settled");
                return self.plan_left(&states, |it| it.dest).trying(|| {
                    format!(
                        "course {number} is closed; to go on with it, delete the key squall:closed at each partition, and \
                         start its mover"
                    )
                });
            } else if left == before {
                return Err(Fault::lost(format!("course {number}: what was given does not come to its end")));
            }
            for sub in left.iter().map(|it| it.sub).collect::<BTreeSet<_>>() {
                job.bus.tell(|router| router.opened(number, sub))?;
                sources(job, &left.iter().copied().filter(|it| it.sub == sub).collect::<Vec<_>>())?;
            }
            before = left;
        }
    }

    /// The moves of which something is between their ends.
    fn unsettled(&self, mut partitions: Vec<Partition>, states: &BTreeMap<u32, State>) -> Done<Vec<Move>> {
        let mut arrivals = BTreeSet::new();
        for it in &mut partitions {
            if it.ask(&["EXISTS", "squall:arrived"])?.text() != "0" {
                arrivals.insert(it.part);
            }
        }
        let mut left = Vec::new();
        for it in &self.moves {
            let (source, dest) = (self.stand(states, it.source, it)?, self.stand(states, it.dest, it)?);
            let at = partitions.iter_mut().find(|at| at.part == it.dest && arrivals.contains(&it.dest));
            let has_arrived = at.map(|at| at.has_arrived(it, dest.edge)).transpose()? == Some(true);
            if has_arrived || !is_settled(source, dest) {
                left.push(*it);
            }
        }
        Ok(left)
    }

    fn stand<'a>(&self, states: &'a BTreeMap<u32, State>, part: u32, it: &Move) -> Done<&'a Stand> {
        let stand = states.get(&part).and_then(|state| state.stand(self.number, it.lo));
        stand.ok_or_else(|| Fault::new(format!("partition {part}: no move begins at {}", it.lo)))
    }

    /// The plan of where the keys are, as one end of each move knows it.
    fn plan_left(&self, states: &BTreeMap<u32, State>, end: fn(&Move) -> u32) -> Done<Plan> {
        let mut spans = Vec::new();
        for it in &self.moves {
            // One that the course has not reached has given nothing.
            let Some(stand) = states.get(&end(it)).and_then(|state| state.stand(self.number, it.lo)) else {
                continue;
            };
            spans.push(Span { lo: it.lo, hi: stand.edge });
            let ahead = stand.pulled.keys().map(|&rank| alone(it, rank));
            spans.extend(ahead.map(|one| Span { lo: one.lo, hi: one.hi }));
        }
        spans.retain(|it| it.lo < it.hi);
        course::plan_left(self.number, &self.old, &self.new, &spans)
    }

    /// The next course, which begins from where the keys are.
    fn next(&self, left: Plan, to: &Plan) -> Done<Mover> {
        let number = self.number + 1;
        let (moves, issue) = course::issue(number, &left, to)?;
        Ok(Mover {
            number,
            old: left,
            new: to.clone(),
            moves,
            issue,
            servers: self.servers.clone(),
            secret: self.secret.clone(),
            accepted: self.accepted.clone(),
            left: &self.old.parts | &self.new.parts,
            diary: self.diary.clone(),
        })
    }

    /// A point at which a test may end the program: of a course that begins from where the keys are, or of another one.
    pub(super) fn stop_at(&self, point: &str) {
        let kind = if self.left.is_empty() { "usual" } else { "left" };
        faults::stop_at(&format!("{kind}-{point}"));
    }
}

/// What partitions say of themselves.
fn states(partitions: &mut [Partition]) -> Done<BTreeMap<u32, State>> {
    partitions.iter_mut().map(|it| Ok((it.part, it.state()?))).collect()
}

/// Whether all that was given is loaded and forgotten.
fn is_settled(source: &Stand, dest: &Stand) -> bool {
    source.edge == dest.edge
        && source.edge == source.forgot
        && source.pulled.values().all(|it| matches!(it, Pulled::Forgotten(_)))
        && source.pulled.keys().eq(dest.pulled.keys())
}

#[cfg(test)]
mod tests {
    use super::super::state::Role;
    use super::*;
    use crate::args::Usage;
    use crate::keymap::hex;
    use squall::Rank;

    const OLD: &str = r#"{"plan":[{"part":1,"from":[0,0],"to":"end"}]}"#;
    const NEW: &str = r#"{"plan":[{"part":1,"from":[0,0],"to":[2,0]},{"part":3,"from":[2,0],"to":"end"}]}"#;

    fn mover() -> Mover {
        let [old, new] = [OLD, NEW].map(|text| Plan::read(text.into()).unwrap());
        let (moves, issue) = course::issue(2, &old, &new).unwrap();
        let (servers, secret) = (BTreeMap::new(), String::new());
        let (accepted, left) = (BTreeSet::new(), BTreeSet::new());
        let diary = Default::default();
        Mover { number: 2, old, new, moves, issue, servers, secret, accepted, left, diary }
    }

    fn stand(role: Role, (edge, forgot): (u32, u32), pulled: &[(u32, Pulled)]) -> Stand {
        let rank = |second| Rank::new(2, second);
        let pulled = pulled.iter().map(|&(at, state)| (rank(at), state)).collect();
        let (lo, hi, edge, forgot) = (rank(0), Rank::END, rank(edge), rank(forgot));
        Stand { lo, hi, role, peer: 1, edge, forgot, gone: 0, pulled }
    }

    #[test]
    fn what_was_given_has_to_be_loaded_and_forgotten() {
        let (given, gone, loaded) = (Pulled::Given, Pulled::Forgotten(1), Pulled::Loaded);
        let settled = |source: ((u32, u32), &[(u32, Pulled)]), dest: (u32, &[(u32, Pulled)])| {
            is_settled(&stand(Role::Out, source.0, source.1), &stand(Role::In, (dest.0, 0), dest.1))
        };
        assert!(settled(((5, 5), &[]), (5, &[])) && settled(((0, 0), &[]), (0, &[])));
        assert!(!settled(((6, 5), &[]), (5, &[])) && !settled(((6, 5), &[]), (6, &[])));
        assert!(settled(((5, 5), &[(9, gone)]), (5, &[(9, loaded)])));
        assert!(!settled(((5, 5), &[(9, given)]), (5, &[(9, loaded)])));
        assert!(!settled(((5, 5), &[(9, gone)]), (5, &[])) && !settled(((5, 5), &[]), (5, &[(9, loaded)])));
    }

    #[test]
    fn the_next_course_begins_from_where_the_keys_are() {
        let it = mover();
        let state = |stand| State { number: 2, moves: vec![stand], ..State::default() };
        let dest = state(stand(Role::In, (5, 0), &[(9, Pulled::Loaded)]));
        let mut states = BTreeMap::from([(1, State::default()), (3, dest)]);
        let left = it.plan_left(&states, |it| it.dest).unwrap();
        let ends = [(2, 0), (2, 5), (2, 9), (2, 10)].map(|(root, second)| hex(Rank::new(root, second)));
        let [lo, edge, nine, ten] = ends;
        assert_eq!(left.ranges, format!("{lo} 1 {edge} 3 {nine} 1 {ten} 3 {} 1", hex(Rank::END)));
        // A partition that the course has not reached has given nothing.
        assert_eq!(it.plan_left(&states, |it| it.source).unwrap().ranges, it.old.ranges);
        states.get_mut(&3).unwrap().number = 1;
        assert_eq!(it.plan_left(&states, |it| it.dest).unwrap().ranges, it.old.ranges);
        let next = it.next(left, &it.new).unwrap();
        assert_eq!((next.number, next.moves.len(), next.left), (3, 2, BTreeSet::from([1, 3])));
    }

    #[test]
    fn words_have_to_go_together() {
        let usage = Usage { name: "test", help: "", options: &[TO, pull::OPTION], flags: &[FLAG] };
        let old = mover().old;
        let to = |words: &str| {
            let words: Vec<String> = words.split_whitespace().map(String::from).collect();
            to(&Args::parse(&words, &usage).unwrap(), &old)
        };
        assert!(to("").unwrap().is_none());
        assert_eq!(to("--turn-back").unwrap().map(|it| it.ranges), Some(old.ranges.clone()));
        assert!(to("--to x").is_err_and(|fault| fault.is_of_words()));
        assert!(to("--turn-back --pull 2:7").is_err_and(|fault| fault.is_of_words()));
        assert!(to("--turn-back --to /nowhere").is_err_and(|fault| !fault.is_of_words()));
    }
}
