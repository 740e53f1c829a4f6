//! The moves of one source in a sub-plan, chunk by chunk.

use super::ahead;
use super::disk::{Disk, Loaded};
use super::dumps::{dumped, next_block, split, Copied, Put};
use super::index::{Index, Ranked};
use super::pace::Pace;
use super::partition::Partition;
use super::progress::Progress;
use super::sizes::{AllStuck, Sizes, Why};
use super::state::State;
use super::steps::Step;
use crate::bus::Node;
use crate::conn::Server;
use crate::course::Move;
use crate::fault::{Done, Fault};
use crate::stop;
use squall::Rank;
use std::collections::BTreeMap;
use std::ops::Range;
use std::sync::atomic::{AtomicBool, Ordering::Relaxed};
use std::sync::{Mutex, PoisonError};
use std::time::{Duration, Instant};

/// What all sources of a course share.
pub struct Job<'a> {
    /// The course's number.
    pub number: u32,
    /// The addresses of the partitions.
    pub servers: &'a BTreeMap<u32, Server>,
    /// The bus, to which reports are sent.
    pub bus: &'a Node,
    /// What is shown.
    pub progress: &'a Progress,
    /// How many keys a chunk has.
    pub chunk: usize,
    /// The pause after each chunk, and how many keys a second may move.
    pub pause: Duration,
    pub pace: &'a Pace,
    /// The keys that can't be moved.
    pub stuck: &'a AllStuck,
    /// Whether the course is closed: then only what was given moves.
    pub is_closed: bool,
    /// Whether a source has lost a connection: all of them then begin again.
    pub is_over: AtomicBool,
    /// The runs of the servers in which the mover has looked at them.
    pub runs: Mutex<BTreeMap<u32, String>>,
}

/// How long the news of new keys may wait to be heard.
const NEWS: Duration = Duration::from_secs(1);
/// How many chunks are reported before the whole board is sent.
const CHUNKS: usize = 1000;

/// A source and its one destination.
pub struct Feeder<'a> {
    pub(super) job: &'a Job<'a>,
    pub(super) source: Partition,
    pub(super) dest: Partition,
    pub(super) disk: Disk,
    pub(super) index: Index,
    pub(super) sizes: Sizes,
    /// Below it the keys of the move were given, and whether it can't go on.
    pub(super) given: Rank,
    pub(super) is_stuck: bool,
    /// Whether the source may have back what the destination can't load.
    pub(super) may_give_back: bool,
    /// How many keys are copied at once.
    block: usize,
    chunks: usize,
}

impl Job<'_> {
    /// Moves what the moves say, which have one source and one destination.
    pub fn feed(&self, moves: &[Move]) -> Done<()> {
        let Some(first) = moves.first() else {
            return Ok(());
        };
        let mut feeder = self.feeder(moves, first)?;
        if !self.is_closed {
            self.progress.expect(feeder.index.len());
        }
        let left = ahead::left(moves, &feeder.source.state()?, self.number);
        feeder.pull_all(&left)?;
        let (given, loaded) = (feeder.source.state()?, feeder.dest.state()?);
        for it in moves {
            let stands = (given.stand(self.number, it.lo), loaded.stand(self.number, it.lo));
            let (Some(source), Some(dest)) = stands else {
                return Err(Fault::new(format!("no move begins at {}", it.lo)));
            };
            (feeder.given, feeder.is_stuck) = (source.edge, false);
            feeder.finish_back(it, dest.edge)?;
            feeder.report_ahead(it, dest)?;
            let step = Step { edge: dest.edge, generation: loaded.generation };
            let hi = if self.is_closed { feeder.given } else { it.hi };
            feeder.run(&Move { hi, ..*it }, source.forgot, step)?;
            if self.is_closed {
                feeder.clear(it)?;
            }
        }
        feeder.forget(true)
    }

    /// The same for the course of another number.
    pub fn of_course(&self, number: u32) -> Job<'_> {
        let Job { servers, bus, progress, chunk, pause, pace, stuck, .. } = *self;
        let (is_over, runs) = (AtomicBool::new(false), Mutex::default());
        Job { number, servers, bus, progress, chunk, pause, pace, stuck, is_closed: false, is_over, runs }
    }

    /// Loads what was given to the moves' one destination and is not loaded, before routers are let in there.
    pub fn catch_up(&self, moves: &[Move]) -> Done<()> {
        let Some(first) = moves.first() else {
            return Ok(());
        };
        let given = self.open(first.source)?.state()?;
        let loaded = self.open(first.dest)?.state()?;
        let edge = |state: &State, lo| state.stand(self.number, lo).map(|it| it.edge);
        let missing: Vec<(Move, Rank)> = moves
            .iter()
            .filter_map(|it| Some((Move { hi: edge(&given, it.lo)?, ..*it }, edge(&loaded, it.lo)?)))
            .filter(|(it, loaded)| it.hi > *loaded)
            .collect();
        let left = ahead::left(moves, &given, self.number);
        if missing.is_empty() && left.is_empty() {
            return Ok(());
        }
        let mut feeder = self.feeder(moves, first)?;
        // Routers may know of a load that the destination has lost.
        feeder.may_give_back = false;
        feeder.pull_all(&left)?;
        for (it, loaded) in missing {
            feeder.given = it.hi;
            if !feeder.finish_back(&it, loaded)? {
                feeder.carry(&it, loaded)?;
            }
        }
        // What is too large stays where it is, and nobody is let in at its destination.
        self.stuck.check(self.number)
    }

    /// A feeder of these moves, which have one source and one destination.
    pub(super) fn feeder(&self, moves: &[Move], first: &Move) -> Done<Feeder<'_>> {
        let (source, mut dest) = (self.open(first.source)?, self.open(first.dest)?);
        Ok(Feeder {
            job: self,
            disk: Disk::of(&mut dest, self.server(first.dest)?)?,
            sizes: Sizes::of(&mut dest)?,
            index: Index::new(self.server(first.source)?, moves)?,
            source,
            dest,
            given: first.lo,
            is_stuck: false,
            may_give_back: true,
            block: 1,
            chunks: 0,
        })
    }

    /// Connects to a partition. If it was restarted since the mover looked at it, it may have less now: then the mover
    /// begins again, and looks at it.
    pub(super) fn open(&self, part: u32) -> Done<Partition> {
        let mut partition = Partition::open(part, self.server(part)?, self.number)?;
        let runs = self.runs.lock().unwrap_or_else(PoisonError::into_inner);
        let is_known = runs.get(&part) == Some(&partition.life.run);
        drop(runs);
        if is_known || partition.ask(&["GET", "squall:run"])?.text() == partition.life.run {
            return Ok(partition);
        }
        Err(Fault::lost(format!("partition {part} was restarted")))
    }

    /// Nothing, unless the mover was asked to end, or begins again.
    pub(super) fn check(&self) -> Done<()> {
        stop::check()?;
        if self.is_over.load(Relaxed) {
            return Err(Fault::lost("another source has lost a connection"));
        }
        Ok(())
    }

    fn server(&self, part: u32) -> Done<&Server> {
        let server = self.servers.get(&part);
        server.ok_or_else(|| Fault::new(format!("partition {part} has no address")))
    }
}

impl Feeder<'_> {
    /// One move, from where an earlier run has stopped. If another mover is further by now, what it has
    /// done changes nothing.
    fn run(&mut self, it: &Move, forgot: Rank, mut loaded: Step) -> Done<()> {
        if loaded.edge > it.lo {
            self.report(it, it.lo..loaded.edge)?;
        }
        self.index.listen()?;
        loop {
            if loaded.edge > forgot {
                self.disk.add(Loaded { it: *it, step: loaded });
            }
            self.forget(false)?;
            if loaded.edge >= it.hi || self.is_stuck {
                return Ok(());
            }
            self.job.check()?;
            loaded = self.chunk(it, loaded)?;
            self.pause()?;
        }
    }

    /// Forgets at the source what is on the disk of the destination; in the end it waits for all of it.
    fn forget(&mut self, is_last: bool) -> Done<()> {
        let loads = if is_last { self.disk.rest()? } else { self.disk.take()? };
        for Loaded { it, step } in loads {
            // No new one comes to keys that were given, and those before are known.
            let keys = self.index.take(it.lo..step.edge);
            self.source.forget(&it, &keys, step.edge, step.generation)?;
            self.job.progress.forgot(keys.len());
        }
        Ok(())
    }

    /// Waits after a chunk, and until more keys may move. In a long pause it hears the news.
    fn pause(&mut self) -> Done<()> {
        let until = Instant::now() + self.job.pause;
        while self.job.check().is_ok() {
            let left = until.saturating_duration_since(Instant::now());
            let left = self.job.pace.wait().map_or(left, |wait| wait.max(left));
            if left.is_zero() {
                break;
            }
            stop::sleep(left.min(NEWS));
            self.index.keep_up()?;
        }
        Ok(())
    }

    /// How many keys the next chunk has. At a low rate it is a tenth of a second's, so that no keys wait for long.
    pub(super) fn chunk_size(&self) -> usize {
        match self.job.pace.rate() {
            0 => self.job.chunk,
            rate => self.job.chunk.min((rate / 10).max(1) as usize),
        }
    }

    /// Moves the next chunk, which begins where keys are loaded before: how far they are loaded now.
    fn chunk(&mut self, it: &Move, before: Step) -> Done<Step> {
        let Some((hi, loaded)) = self.carry(it, before.edge)? else {
            return Ok(before);
        };
        self.report(it, before.edge..hi)?;
        self.job.progress.step();
        if loaded.edge > hi {
            // Another mover has given and loaded more since: new keys may have come to that before.
            self.index.listen()?;
        }
        Ok(loaded)
    }

    /// Puts the keys of a span where they come to, which the source gave in that generation.
    pub(super) fn copy_all(&mut self, span: Range<Rank>, given: u64) -> Done<Put> {
        let keys = self.index.keys(span.start..span.end);
        self.job.pace.spend(keys.len());
        let mut rest = &keys[..];
        while !rest.is_empty() {
            let (block, later) = rest.split_at(self.block.min(rest.len()));
            let copied = self.copy(block, given)?;
            if let Some((at, why)) = copied.left {
                let (rank, key) = block[at].clone();
                return Ok(Put { end: rank, left: Some((key, why)) });
            }
            self.block = next_block(block.len(), copied.bytes);
            self.index.keep_up()?;
            rest = later;
        }
        Ok(Put { end: span.end, left: None })
    }

    pub(super) fn report(&mut self, it: &Move, keys: Range<Rank>) -> Done<()> {
        let (number, sub, dest) = (self.job.number, it.sub, it.dest);
        self.job.bus.tell(|router| router.loaded(number, sub, dest, keys))?;
        self.chunks += 1;
        if self.chunks % CHUNKS == 0 {
            self.job.bus.tell_all()?;
        }
        Ok(())
    }

    /// Puts keys where they come to. Their clients wait meanwhile.
    fn copy(&mut self, keys: &[Ranked], given: u64) -> Done<Copied> {
        loop {
            if let Some(copied) = self.try_copy(keys, given)? {
                return Ok(copied);
            }
        }
    }

    /// The same; none if a server refuses for a reason that passes. What was put then is put again.
    fn try_copy(&mut self, keys: &[Ranked], given: u64) -> Done<Option<Copied>> {
        for (_, key) in keys {
            self.source.conn.put(&[b"DUMP".as_slice(), key]);
            self.source.conn.put(&[b"PEXPIRETIME".as_slice(), key]);
        }
        let said = self.source.conn.hear_all(2 * keys.len())?;
        if !self.source.accepts(&said)? {
            return Ok(None);
        }
        let (mut put, mut copied) = (Vec::new(), Copied::default());
        for (at, ((rank, key), said)) in keys.iter().zip(said.chunks(2)).enumerate() {
            let dumped = dumped(said).ok_or_else(|| Fault::new("a dump of another form"))?;
            let Some((dump, ends)) = dumped else {
                continue;
            };
            if self.sizes.is_too_large(dump) {
                copied.left = Some((at, Why::TooLarge { size: dump.len() as u64, most: self.sizes.most }));
                break;
            }
            self.dest.put(key, *rank, (dump, ends), (self.source.part, given));
            copied.bytes += dump.len();
            put.push(at);
        }
        let (refused, rest) = split(self.dest.conn.hear_all(put.len())?);
        if !self.dest.accepts(&rest)? {
            return Ok(None);
        }
        if let Some((at, error)) = refused {
            copied.left = Some((put[at], Why::Refused(error)));
        }
        Ok(Some(copied))
    }
}
