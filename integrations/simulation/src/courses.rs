//! The events of courses: how they begin, what moves in them, and how one is turned back.

use crate::event::{Event, Frame};
use crate::failure::Why;
use crate::ground::{cells_of_chunk, site_of_part};
use crate::network::{Time, SECOND};
use crate::options::Fault;
use crate::plans::{CELLS, CHUNKS, OLD_PARTS, PARTS};
use crate::world::World;
use squall::Chunk;
use std::rc::Rc;

/// How long a source waits after each of its chunks, and how long the rows of a chunk take beside the way.
const PAUSE: Time = SECOND / 2;
const COPY: Time = 5_000;
/// The site of the leader.
const LEADER: usize = 0;

/// What the leader waits for.
#[derive(Clone, Copy, PartialEq, Eq)]
pub enum Stage {
    /// All partitions begin a course.
    Begins,
    /// The chunks of a sub-plan are given and loaded.
    Moves,
    /// All partitions close their course, and what was given is loaded.
    Closes,
}

impl World {
    /// The first course begins.
    pub fn begin(&mut self) -> Result<(), Why> {
        self.bytes_at[0] = self.bytes();
        let issue = self.ground.begin()?;
        self.issue(issue)
    }

    /// Sends the issue of a course to routers, and to all partitions, of which each answers.
    fn issue(&mut self, issue: Vec<u8>) -> Result<(), Why> {
        self.begun.push(self.now);
        let frame = Rc::new(Frame { bytes: issue, cells: 0..CELLS });
        self.ask_all(Stage::Begins, |part| Event::Tell(part, frame.clone()));
        self.report(LEADER, frame)
    }

    /// Asks all partitions. No message of these is lost.
    fn ask_all(&mut self, stage: Stage, event: impl Fn(u32) -> Event) {
        self.stage = stage;
        self.unanswered = PARTS;
        for part in 0..PARTS {
            let way = self.network.delay(LEADER, site_of_part(part));
            self.plan(way, event(part));
        }
    }

    fn answer_leader(&mut self, part: u32) {
        let way = self.network.delay(site_of_part(part), LEADER);
        self.plan(way, Event::Answered);
    }

    /// A partition begins a course.
    pub fn tell(&mut self, part: u32, issue: &Frame) -> Result<(), Why> {
        self.ground.hear(part, &issue.bytes)?;
        self.check.ground(0..CELLS, &self.ground)?;
        self.answer_leader(part);
        Ok(())
    }

    /// A partition closes its course.
    pub fn close(&mut self, part: u32) {
        if self.options.fault != Some(Fault::Open) {
            self.ground.close(part);
            self.giving.remove(&part);
        }
        self.answer_leader(part);
    }

    /// A partition has answered.
    pub fn answered(&mut self) -> Result<(), Why> {
        // Of a course that begins too early more answer than were asked for it.
        self.unanswered = self.unanswered.saturating_sub(1);
        self.go_on()
    }

    /// Opens the next sub-plan. Its sources begin spread over a pause.
    fn open_next(&mut self) -> Result<(), Why> {
        let Some(opened) = self.ground.open_next()? else {
            self.ground.look_at_the_end()?;
            return self.end();
        };
        self.report(LEADER, Rc::new(Frame { bytes: opened.frame, cells: 0..CELLS }))?;
        for &part in &opened.sources {
            let after = self.network.dice.below(PAUSE);
            self.plan(after, Event::Give(part));
        }
        self.giving.extend(opened.sources);
        Ok(())
    }

    /// A source gives its next chunk, unless it was closed.
    pub fn give(&mut self, part: u32) -> Result<(), Why> {
        if !self.giving.contains(&part) {
            return Ok(());
        }
        match self.ground.give(part, self.now)? {
            Some(chunk) => {
                self.check.ground(cells_of_chunk(&chunk)?, &self.ground)?;
                let way = self.network.delay(site_of_part(chunk.source), site_of_part(chunk.dest));
                self.on_the_way += 1;
                self.gives += 1;
                self.plan(COPY + way, Event::Load(chunk));
                self.plan(PAUSE, Event::Give(part));
                self.may_turn_back();
            }
            None => {
                self.giving.remove(&part);
            }
        }
        self.go_on()
    }

    /// Turns the first course back once that share of its chunks is given.
    fn may_turn_back(&mut self) {
        let all = f64::from(OLD_PARTS) * CHUNKS as f64;
        let is_due = |share: f64| self.gives as f64 >= share * all;
        if self.begun.len() == 1 && self.stage == Stage::Moves && self.options.turn_back.is_some_and(is_due) {
            self.ask_all(Stage::Closes, Event::Close);
        }
    }

    /// A chunk is loaded.
    pub fn load(&mut self, chunk: &Chunk) -> Result<(), Why> {
        self.on_the_way -= 1;
        self.loads += 1;
        let (site, cells) = (site_of_part(chunk.dest), cells_of_chunk(chunk)?);
        let loaded = self.ground.load(chunk)?;
        self.check.ground(cells.clone(), &self.ground)?;
        self.report(site, Rc::new(Frame { bytes: loaded.frame, cells }))?;
        if let Some(done) = loaded.done {
            self.report(site, Rc::new(Frame { bytes: done, cells: 0..CELLS }))?;
        }
        if self.options.fault == Some(Fault::Forgets) && self.loads == 100 {
            self.ground.forget(chunk.dest)?;
            self.check.ground(0..CELLS, &self.ground)?;
        }
        self.go_on()
    }

    /// Does the leader's next step, if all is there for which it waits.
    fn go_on(&mut self) -> Result<(), Why> {
        let is_early = self.options.fault == Some(Fault::Early);
        match self.stage {
            Stage::Closes if is_early => self.begin_back(),
            _ if self.unanswered > 0 => Ok(()),
            Stage::Begins => {
                self.stage = Stage::Moves;
                self.open_next()
            }
            Stage::Closes if self.on_the_way == 0 => self.begin_back(),
            Stage::Moves if self.giving.is_empty() && self.on_the_way == 0 && self.goal.is_none() => {
                self.open_next()
            }
            Stage::Moves | Stage::Closes => Ok(()),
        }
    }

    /// The next course begins from where the keys are.
    fn begin_back(&mut self) -> Result<(), Why> {
        let lacks = usize::from(self.options.fault == Some(Fault::Short));
        let issue = self.ground.begin_back(lacks)?;
        // Those that are not closed give once more before they hear of it.
        let open: Vec<u32> = self.giving.iter().copied().collect();
        open.into_iter().for_each(|part| self.plan(0, Event::Give(part)));
        self.issue(issue)
    }
}
