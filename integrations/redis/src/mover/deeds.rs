//! What a mover writes down: in a file what it does as the leader, and in the list of each partition what it does for that.

use super::partition::Partition;
use super::{Job, Mover};
use crate::course::Move;
use crate::fault::Done;
use std::collections::BTreeSet;

impl Mover {
    /// Lets partitions write down what they do from now on, if that is wanted.
    pub(super) fn keep_deeds(&self, partitions: &mut [Partition]) -> Done<()> {
        if !self.diary.is_on() {
            return Ok(());
        }
        partitions.iter_mut().try_for_each(|it| it.write_down(&[]))
    }

    /// The course has begun. Another mover may have begun it from where the keys were, so its old plan is named in any case.
    pub(super) fn note_begin(&self) -> Done<()> {
        let (number, old, new) = (self.number, &self.old.ranges, &self.new.ranges);
        self.diary.write(|| format!("begin {number} {old} to {new}"))
    }

    /// A sub-plan is opened, and both ends of its moves hear of it.
    pub(super) fn note_open(&self, job: &Job, sub: u32) -> Done<()> {
        let of_sub = self.moves.iter().filter(|it| it.sub == sub);
        let ends = of_sub.flat_map(|it: &Move| [it.source, it.dest]).collect();
        self.diary.write(|| format!("open {} {sub}", self.number))?;
        self.tell_deed(job, &ends, &format!("opened {} {sub}", self.number))
    }

    /// A partition has all keys of a sub-plan, and the leader hears of it.
    pub(super) fn note_done(&self, job: &Job, sub: u32, dest: u32) -> Done<()> {
        self.tell_deed(job, &BTreeSet::from([dest]), &format!("done {} {sub}", self.number))?;
        self.diary.write(|| format!("heard done {} {sub} {dest}", self.number))
    }

    /// Adds a text to what these partitions write down.
    fn tell_deed(&self, job: &Job, parts: &BTreeSet<u32>, deed: &str) -> Done<()> {
        if !self.diary.is_on() {
            return Ok(());
        }
        parts.iter().try_for_each(|part| job.open(*part)?.write_down(&[deed]))
    }
}

impl Partition {
    /// Begins a list of what is done here, if there is none, and adds these texts to it.
    fn write_down(&mut self, deeds: &[&str]) -> Done<()> {
        let part = self.part.to_string();
        self.ask(&[&["FCALL", "squall_deeds", "0", &part], deeds].concat()).map(drop)
    }
}
