//! Pulls single keys to their new partitions at once, while a mover works its way to them.

use super::feeder::Job;
use super::index::is_own;
use super::pace::Pace;
use super::progress::Progress;
use super::pulls::alone;
use super::sizes::AllStuck;
use super::survey::Survey;
use super::{endure, patience, Mover};
use crate::args::Args;
use crate::bus::{Node, Options};
use crate::course::Move;
use crate::fault::{say, Done, Fault, Trying};
use crate::{keymap, stop};
use squall::Rank;
use std::collections::BTreeMap;
use std::sync::atomic::AtomicBool;
use std::sync::{Arc, Mutex};
use std::time::Duration;

/// The option that names such a key.
pub const OPTION: &str = "pull";

impl Mover {
    /// Pulls what the words name.
    pub(super) fn pull(&self, args: &Args) -> Done<()> {
        let ranks = self.ranks(args)?;
        let bus = Node::join(Options::of(args, "mover")?)?;
        let pace = Arc::new(Pace::default());
        let (progress, stuck) = (Progress::new(pace.clone()), AllStuck::default());
        let job = Job {
            number: self.number,
            servers: &self.servers,
            bus: &bus,
            progress: &progress,
            chunk: 1,
            pause: Duration::ZERO,
            pace: &pace,
            stuck: &stuck,
            is_closed: false,
            is_over: AtomicBool::new(false),
            runs: Mutex::default(),
        };
        stop::watch(|| ())?;
        endure(Some(&job), || self.try_pull(&job, &ranks))?;
        stuck.check(self.number)?;
        bus.wait_paid(patience::most()).trying(|| "all of them were pulled".to_string())
    }

    /// The ranks of the keys that the words name, and the move of each.
    fn ranks(&self, args: &Args) -> Done<BTreeMap<Rank, Move>> {
        let mut ranks = BTreeMap::new();
        for key in args.all(OPTION) {
            let rank = keymap::rank(key.as_bytes());
            let it = self.moves.iter().find(|it| it.lo <= rank && rank < it.hi);
            let (true, Some(it)) = (!is_own(key.as_bytes()), it) else {
                return Err(Fault::of_words(format!(
                    "--{OPTION} {key}: the key {rank} does not move in course {}",
                    self.number
                )));
            };
            ranks.insert(rank, *it);
        }
        Ok(ranks)
    }

    /// Pulls all of them once, if that may be.
    fn try_pull(&self, job: &Job, ranks: &BTreeMap<Rank, Move>) -> Done<()> {
        self.may_pull(ranks)?;
        job.bus.tell_frames(std::slice::from_ref(&self.issue))?;
        let mut pairs: BTreeMap<(u32, u32), Vec<(Move, Rank)>> = BTreeMap::new();
        for (&rank, it) in ranks {
            self.note_open(job, it.sub)?;
            job.bus.tell(|router| router.opened(self.number, it.sub))?;
            pairs.entry((it.source, it.dest)).or_default().push((*it, rank));
        }
        pairs.values().try_for_each(|ranks| job.pull(ranks))
    }

    /// Nothing, if all partitions are in the course and have shut out routers of others, none has lost anything, and the
    /// sub-plan of each rank is open.
    fn may_pull(&self, ranks: &BTreeMap<Rank, Move>) -> Done<()> {
        let mut partitions = self.partitions()?;
        let survey = Survey::of(partitions.iter_mut())?;
        let number = |part| survey.facts[&part].number;
        if let Some(later) = partitions.iter().find(|it| number(it.part) > self.number) {
            return Err(later.explain(&format!("SQUALL LATE {}", number(later.part))));
        }
        for it in &partitions {
            let signs = survey.signs(it.part, self.number);
            // One that the course has not reached yet may be new.
            if survey.fence() == self.number && !signs.is_empty() {
                let signs: Vec<String> = signs.iter().map(ToString::to_string).collect();
                return Err(Fault::new(format!(
                    "partition {} has come back with less: {}; the mover of the course says how to go on",
                    it.part,
                    signs.join("; ")
                )));
            }
            if survey.facts[&it.part].fence < self.number {
                return Err(it.explain("SQUALL EARLY"));
            }
        }
        self.refuse_closed(&partitions, &survey)?;
        // The course has begun at each of them, with these plans or others.
        partitions.iter_mut().try_for_each(|it| it.may_begin(&self.beginning(it.part, &survey)))?;
        ranks.iter().try_for_each(|(rank, it)| self.is_open(*rank, it, &survey))
    }

    /// Nothing, if all moves of the sub-plans before that of the rank are over: then it is open.
    fn is_open(&self, rank: Rank, it: &Move, survey: &Survey) -> Done<()> {
        let is_loaded = |other: &Move| {
            let stand = survey.facts[&other.dest].stand(self.number, other.lo);
            stand.is_some_and(|stand| stand.edge >= other.hi)
        };
        match self.moves.iter().find(|other| other.sub < it.sub && !is_loaded(other)) {
            None => Ok(()),
            Some(Move { lo, hi, source, dest, .. }) => Err(Fault::new(format!(
                "the key {rank} moves in sub-plan {}, which is not open yet: [{lo},{hi}) moves from {source} to {dest} \
                 before that",
                it.sub
            ))),
        }
    }
}

impl Job<'_> {
    /// Pulls ranks that have one source and one destination.
    fn pull(&self, ranks: &[(Move, Rank)]) -> Done<()> {
        let alone: Vec<Move> = ranks.iter().map(|(it, rank)| alone(it, *rank)).collect();
        let Some(first) = alone.first() else {
            return Ok(());
        };
        let mut feeder = self.feeder(&alone, first)?;
        let count = feeder.pull_all(ranks)?;
        let keys: Vec<String> = ranks.iter().map(|(_, rank)| rank.to_string()).collect();
        say(format!(
            "course {}: {} of partition {}: {count} rows have moved to partition {}",
            self.number,
            keys.join(", "),
            first.source,
            first.dest
        ))
    }
}
