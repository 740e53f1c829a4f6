//! How a course begins at all partitions. Before routers are let in anywhere, it is seen that none has come back
//! with less.

use super::losses::Loss;
use super::partition::{Beginning, Partition, Start};
use super::state::State;
use super::survey::Survey;
use super::Mover;
use crate::fault::{Done, Fault};
use crate::log;
use crate::resp::Value;
use std::collections::BTreeMap;

/// The partitions of a course that has begun at all of them, over the connections by which it was seen that none
/// has less.
pub struct Entered {
    /// All of them, those of the old plan first.
    pub partitions: Vec<Partition>,
    /// What they have said.
    pub survey: Survey,
}

impl Mover {
    /// Begins the course at each partition. Nobody is let in yet. If a partition refuses, nothing has begun, but
    /// for two movers at once.
    pub(super) fn enter(&self) -> Done<Entered> {
        let mut partitions = self.partitions()?;
        partitions.iter_mut().try_for_each(|it| it.prepare().and_then(|()| it.refuse_eviction()))?;
        self.keep_deeds(&mut partitions)?;
        let survey = Survey::of(partitions.iter_mut())?;
        let number = |part| survey.facts[&part].number;
        if let Some(later) = partitions.iter().find(|it| number(it.part) > self.number) {
            return Err(later.explain(&format!("SQUALL LATE {}", number(later.part))));
        }
        let losses = self.losses(&mut partitions, &survey)?;
        self.refuse(&mut partitions, &survey, &losses)?;
        self.begin(&mut partitions, &survey, &losses)?;
        Ok(Entered { partitions, survey })
    }

    /// Begins the course. Partitions whose losses are accepted go on with what they have.
    fn begin(&self, partitions: &mut [Partition], survey: &Survey, losses: &BTreeMap<u32, Loss>) -> Done<()> {
        let beginning = |part| self.beginning(part, survey);
        let is_known = |part| !losses.contains_key(&part) || survey.facts[&part].number == self.number;
        let mut known = partitions.iter_mut().filter(|it| is_known(it.part));
        known.try_for_each(|it| it.may_begin(&beginning(it.part)))?;
        self.stop_at("may-begin");
        for at in 0..partitions.len() {
            let part = partitions[at].part;
            if losses.contains_key(&part) {
                self.accept(partitions, at, survey, losses)?;
            } else {
                partitions[at].begin(&beginning(part))?;
            }
            self.stop_at("begun-at-one");
        }
        Ok(())
    }

    /// Nothing, unless a partition is closed in this course: then it is being turned back, and gives nothing more.
    pub(super) fn refuse_closed(&self, partitions: &[Partition], survey: &Survey) -> Done<()> {
        let is_closed = |it: &&Partition| {
            let state = &survey.facts[&it.part];
            state.number == self.number && state.is_closed
        };
        match partitions.iter().find(is_closed) {
            None => Ok(()),
            Some(closed) => Err(closed.explain(&format!("SQUALL CLOSED {}", self.number))),
        }
    }

    /// Whether a partition has said that the plans are the right ones: one that has lost nothing, or this one.
    pub(super) fn is_vouched(&self, part: u32, survey: &Survey, losses: &BTreeMap<u32, Loss>) -> bool {
        let is_in = |part: &u32| survey.facts[part].number == self.number;
        let knows = |it: &&u32| survey.facts[it].number > 0 && self.old.parts.contains(it);
        let mut others = survey.facts.keys().filter(knows);
        is_in(&part) || others.any(|it| !losses.contains_key(it))
    }

    pub(super) fn beginning<'a>(&'a self, part: u32, survey: &Survey) -> Beginning<'a> {
        // What one has done that has lost some of it is not known.
        let is_known = |(&it, state): &(&u32, &State)| it != part && state.generation >= survey.seen(it).0;
        let others = survey.facts.iter().filter(is_known);
        let start = if self.left.contains(&part) {
            Start::Left(others.map(|(&it, state)| (it, state.generation)).collect())
        } else if self.number == 1 || !self.old.parts.contains(&part) {
            Start::Fresh(survey.seen(part).0)
        } else {
            Start::Known
        };
        Beginning { old: &self.old.ranges, new: &self.new.ranges, start, moves: &self.moves }
    }

    /// What each partition has lost that should have keys.
    fn losses(&self, partitions: &mut [Partition], survey: &Survey) -> Done<BTreeMap<u32, Loss>> {
        let mut losses = BTreeMap::new();
        for partition in partitions.iter_mut().filter(|it| self.should_have_keys(it.part, survey)) {
            let signs = survey.signs(partition.part, self.number);
            if !signs.is_empty() {
                losses.insert(partition.part, Loss::new(partition, signs)?);
            }
        }
        Ok(losses)
    }

    /// Whether it should, as far as the plans say. One that the old plan does not name has none before the course
    /// has begun everywhere: it may be new, or may have been away. One of the course before, if that is turned back, has to
    /// know of it.
    fn should_have_keys(&self, part: u32, survey: &Survey) -> bool {
        let has_begun = survey.facts[&part].number == self.number || survey.fence() == self.number;
        self.old.parts.contains(&part)
            || self.left.contains(&part)
            || has_begun && self.new.parts.contains(&part)
    }

    /// Nothing, unless a partition has lost something and that was not accepted. Then the others are let in.
    fn refuse(
        &self,
        partitions: &mut [Partition],
        survey: &Survey,
        losses: &BTreeMap<u32, Loss>,
    ) -> Done<()> {
        for part in self.accepted.iter().filter(|part| !losses.contains_key(part)) {
            log::info(format!("partition {part} has lost nothing: --accept-loss {part} changes nothing"));
        }
        let refused: Vec<&Loss> = losses.values().filter(|it| !self.accepted.contains(&it.part)).collect();
        if refused.is_empty() {
            return Ok(());
        }
        refused.iter().for_each(|loss| log::fail(format!("{loss}")));
        for partition in partitions {
            let part = partition.part;
            if refused.iter().any(|it| it.part == part) {
                partition.shut(&survey.facts[&part])?;
            }
            let is_in = survey.facts[&part].number == self.number && !losses.contains_key(&part);
            if is_in && !(survey.is_restarted(part) && survey.awaits(part)) {
                partition.admit(&self.secret)?;
            }
        }
        let parts: Vec<String> = refused.iter().map(|it| it.part.to_string()).collect();
        Err(Fault::new(format!(
            "nobody is let in at partition {}: give it its data back, or go on without what is lost: --accept-loss {}",
            parts.join(", "),
            parts.join(" --accept-loss ")
        )))
    }
}

impl Partition {
    /// Nothing, unless the server would remove the partition's own keys when its memory is full.
    fn refuse_eviction(&mut self) -> Done<()> {
        let said = self.ask(&["CONFIG", "GET", "maxmemory-policy"])?.list().pop();
        let policy = said.map_or(String::new(), Value::text);
        if !policy.starts_with("allkeys-") {
            return Ok(());
        }
        Err(Fault::new(format!(
            "partition {}: maxmemory-policy is {policy}: a full server would remove the keys squall:*, without which \
             it does not know which keys it has; set it to noeviction, or to volatile-*, which removes only keys that end",
            self.part
        )))
    }
}
