//! What moves: the partitions and their leader. Both are the library's.

use crate::failure::Why;
use crate::network::{Time, SITES};
use crate::plans::{self, key_of, part_of_cell, slots_of_cell, CELLS, OLD_PARTS, PARTS};
use squall::{frame, Chunk, Course, Errand, Error, Leader, Next, Part, Rank, Reply, Span};
use std::ops::Range;

/// The site of a partition.
pub fn site_of_part(part: u32) -> usize {
    part as usize % SITES
}

/// How a request went.
#[derive(Clone, Copy, Debug, PartialEq, Eq)]
pub struct Went {
    /// How many partitions were asked after the first one.
    pub hops: u32,
    /// Whether the key was on its way in the end, so that the request has to wait.
    pub waits: bool,
}

/// What has the keys of a cell.
#[derive(Clone, Copy, PartialEq, Eq)]
enum Carrier {
    At(u32),
    /// A chunk on its way from one partition to another one.
    Between(u32, u32),
}

/// A sub-plan that was opened.
pub struct Opened {
    /// The frame that says so.
    pub frame: Vec<u8>,
    /// The partitions that give in it.
    pub sources: Vec<u32>,
}

/// A chunk was loaded.
pub struct Loaded {
    /// The frame of that.
    pub frame: Vec<u8>,
    /// The frame of the completion, if it was the last chunk of its partition.
    pub done: Option<Vec<u8>>,
}

/// The partitions and their leader.
pub struct Ground {
    leader: Leader,
    parts: Vec<Part>,
    /// What has the keys of each cell, as chunks were given and loaded.
    carriers: Vec<Carrier>,
    /// When the keys of each cell were given last.
    given: Vec<Option<Time>>,
}

impl Ground {
    /// All keys lie as the old plan says.
    pub fn open() -> Result<Ground, Error> {
        let old = plans::old_plan();
        let course = Course::open(1, old.as_bytes(), old.as_bytes())?;
        let parts = (0..PARTS).map(|part| Part::open(part, &course));
        Ok(Ground {
            leader: Leader::open(old.as_bytes(), 1)?,
            parts: parts.collect::<Result<_, _>>()?,
            carriers: (0..CELLS).map(|cell| Carrier::At(part_of_cell(cell))).collect(),
            given: vec![None; CELLS],
        })
    }

    /// Begins the course: the frame that issues it.
    pub fn begin(&mut self) -> Result<Vec<u8>, Error> {
        self.leader.begin(plans::new_plan().as_bytes())?;
        self.issue()
    }

    /// Begins the course that leads back from where the keys are. The first loads are left out of that
    /// plan, as many as `lacks` says.
    pub fn begin_back(&mut self, lacks: usize) -> Result<Vec<u8>, Error> {
        if let Some(course) = self.leader.course()? {
            let loads = self.parts.iter().flat_map(|part| part.loaded(course.number()));
            let left = course.left(&loads.skip(lacks).collect::<Vec<Span>>())?;
            self.leader.begin_from(left.as_bytes(), plans::old_plan().as_bytes())?;
        }
        self.issue()
    }

    fn issue(&self) -> Result<Vec<u8>, Error> {
        self.leader.course()?.map_or(Ok(Vec::new()), |course| course.frame())
    }

    /// A partition hears a frame.
    pub fn hear(&mut self, part: u32, frame: &[u8]) -> Result<(), Error> {
        self.parts[part as usize].hear(frame)
    }

    /// A partition gives no more in its course.
    pub fn close(&mut self, part: u32) {
        self.parts[part as usize].close_course();
    }

    /// A partition has lost all that it had, but for the course.
    pub fn forget(&mut self, part: u32) -> Result<(), Error> {
        let old = plans::old_plan();
        let first = Course::open(1, old.as_bytes(), old.as_bytes())?;
        self.parts[part as usize] = Part::open(part, &first)?;
        let issue = self.issue()?;
        self.parts[part as usize].hear(&issue)
    }

    /// Opens the next sub-plan; none if the course is over.
    pub fn open_next(&mut self) -> Result<Option<Opened>, Error> {
        let Some(course) = self.leader.course()?.filter(|_| !self.leader.finished()) else {
            return Ok(None);
        };
        let sub = self.leader.open_next()?;
        let frame = frame::opened(course.number(), sub)?;
        self.parts.iter_mut().try_for_each(|part| part.hear(&frame))?;
        let mut sources: Vec<u32> =
            course.moves().iter().filter(|it| it.sub == sub).map(|it| it.source).collect();
        sources.sort_unstable();
        sources.dedup();
        Ok(Some(Opened { frame, sources }))
    }

    /// The partition gives its next chunk; none if it has no more of this sub-plan, or is closed.
    pub fn give(&mut self, part: u32, now: Time) -> Result<Option<Chunk>, Why> {
        let chunk = match self.parts[part as usize].give(plans::RANKS_OF_CHUNK) {
            Ok(chunk) => chunk,
            Err(Error::Part(_)) => return Ok(None),
            Err(error) => return Err(error.into()),
        };
        for cell in cells_of_chunk(&chunk)? {
            self.carriers[cell] = Carrier::Between(chunk.source, chunk.dest);
            self.given[cell] = Some(now);
        }
        Ok(Some(chunk))
    }

    /// The chunk is loaded: the frames of the reports. Once it was the last one of its partition, that
    /// reports that it has all, and the leader hears it.
    pub fn load(&mut self, chunk: &Chunk) -> Result<Loaded, Why> {
        let part = &mut self.parts[chunk.dest as usize];
        part.load(chunk)?;
        for cell in cells_of_chunk(chunk)? {
            self.carriers[cell] = Carrier::At(chunk.dest);
        }
        let frame = frame::loaded(chunk.number, chunk.sub, chunk.dest, chunk.lo..chunk.hi)?;
        let done = match part.finish(chunk.sub) {
            Ok(()) => Some(frame::done(chunk.number, chunk.sub, chunk.dest)?),
            Err(Error::Part(_)) => None,
            Err(error) => return Err(error.into()),
        };
        if let Some(done) = &done {
            self.leader.hear(done)?;
        }
        Ok(Loaded { frame, done })
    }

    /// When the keys of a cell were given last, if they were.
    pub fn given(&self, cell: usize) -> Option<Time> {
        self.given[cell]
    }

    /// Whether the keys of a cell are on their way.
    pub fn is_on_its_way(&self, cell: usize) -> bool {
        matches!(self.carriers[cell], Carrier::Between(..))
    }

    /// Whether the keys of a cell were sent to another partition than that of the old plan.
    pub fn is_away(&self, cell: usize) -> bool {
        let (Carrier::At(part) | Carrier::Between(_, part)) = self.carriers[cell];
        part != part_of_cell(cell)
    }

    /// How a request went that first asks that partition. The errand is made if it is refused.
    pub fn ask(
        &self,
        key: Rank,
        first: u32,
        errand: impl FnOnce() -> Result<Errand, Error>,
    ) -> Result<Went, Error> {
        let mut reply = self.parts[first as usize].serve(key, 0)?;
        let mut went = Went { hops: 0, waits: false };
        if reply == Reply::Held {
            return Ok(went);
        }
        let mut errand = errand()?;
        loop {
            match errand.heed(reply)? {
                Next::Served => return Ok(went),
                Next::Ask(part) => {
                    went.hops += 1;
                    reply = self.parts[part as usize].serve(key, errand.number())?;
                }
                Next::Again(_) | Next::Lost => {
                    went.waits = true;
                    return Ok(went);
                }
            }
        }
    }

    /// Follows a route to the partition: it has the keys of the cell, waits for them, or names another
    /// one, which does the same or has yet to hear of that course. How many are named so.
    pub fn follow(&self, cell: usize, first: u32) -> Result<u32, Why> {
        let slot = slots_of_cell(cell).start;
        let (mut part, mut number, mut hops) = (first, 0, 0);
        loop {
            let reply = self.parts[part as usize].serve(key_of(slot), number)?;
            let is_true = match reply {
                Reply::Held => self.carriers[cell] == Carrier::At(part),
                Reply::Pending { source } => {
                    [Carrier::At(source), Carrier::Between(source, part)].contains(&self.carriers[cell])
                }
                Reply::Behind if number > 0 => true,
                Reply::Moved { dest, number: later } if later > number => {
                    (part, number, hops) = (dest, later, hops + 1);
                    continue;
                }
                _ => return Err(Why::Unserved { slot, part, reply }),
            };
            return if is_true { Ok(hops) } else { Err(Why::Untrue { slot, part, reply }) };
        }
    }

    /// Looks whether each key is where the last plan has it, now that all courses are over.
    pub fn look_at_the_end(&self) -> Result<(), Why> {
        let plan = self.leader.course()?.map_or(Vec::new(), |course| course.new_plan());
        for cell in 0..CELLS {
            let slot = slots_of_cell(cell).start;
            let part = plan.iter().find(|leg| key_of(slot) < leg.hi).map_or(OLD_PARTS, |leg| leg.part);
            if self.carriers[cell] != Carrier::At(part) {
                return Err(Why::Misplaced { slot, part });
            }
            self.follow(cell, part)?;
        }
        Ok(())
    }
}

/// The cells of a chunk.
pub fn cells_of_chunk(chunk: &Chunk) -> Result<Range<usize>, Why> {
    plans::cells_of(chunk.lo, chunk.hi)
}

#[cfg(test)]
mod tests {
    use super::*;
    use crate::plans::{CHUNKS, MOVED_OF_ONE, SLOTS};

    /// Works off the course, but for the last sources, as many as `but` says. How many loads there were.
    fn work_off(ground: &mut Ground, but: usize) -> u64 {
        let mut loads = 0;
        while let Some(opened) = ground.open_next().unwrap() {
            let count = opened.sources.len() - but;
            for &part in &opened.sources[..count] {
                while let Some(chunk) = ground.give(part, 1).unwrap() {
                    ground.load(&chunk).unwrap();
                    loads += 1;
                }
            }
            if but > 0 {
                break;
            }
        }
        loads
    }

    fn tell(ground: &mut Ground, issue: &[u8]) {
        (0..PARTS).for_each(|part| ground.hear(part, issue).unwrap());
    }

    #[test]
    fn a_course_is_worked_off() {
        let mut ground = Ground::open().unwrap();
        let issue = ground.begin().unwrap();
        tell(&mut ground, &issue);
        assert_eq!(work_off(&mut ground, 0), u64::from(OLD_PARTS) * CHUNKS);
        assert!(ground.leader.finished());
        ground.look_at_the_end().unwrap();
        // The slots are those of the plans: a key is where the new plan has it.
        let new = plans::new_plan();
        let course = Course::open(1, new.as_bytes(), new.as_bytes()).unwrap();
        let mut moved = 0;
        for slot in 0..SLOTS {
            let (key, cell) = (key_of(slot), plans::cell_of(slot));
            let leg = course.old_plan().into_iter().find(|leg| key < leg.hi).unwrap();
            assert_eq!(ground.parts[leg.part as usize].serve(key, 2).unwrap(), Reply::Held, "{slot}");
            assert_eq!(ground.is_away(cell), leg.part >= OLD_PARTS, "{slot}");
            assert_eq!(ground.given(cell).is_some(), leg.part >= OLD_PARTS, "{slot}");
            moved += u64::from(ground.is_away(cell));
        }
        assert_eq!(moved, u64::from(OLD_PARTS) * MOVED_OF_ONE);
    }

    #[test]
    fn a_course_is_turned_back() {
        let mut ground = Ground::open().unwrap();
        let issue = ground.begin().unwrap();
        tell(&mut ground, &issue);
        assert_eq!(work_off(&mut ground, 10), u64::from(OLD_PARTS - 10) * CHUNKS);
        (0..PARTS).for_each(|part| ground.close(part));
        assert!(ground.give(OLD_PARTS - 1, 1).unwrap().is_none());
        let issue = ground.begin_back(0).unwrap();
        tell(&mut ground, &issue);
        assert_eq!(work_off(&mut ground, 0), u64::from(OLD_PARTS - 10) * CHUNKS);
        ground.look_at_the_end().unwrap();
        assert!((0..CELLS).all(|cell| !ground.is_away(cell)));
    }

    #[test]
    fn routes_that_are_not_served_are_found() {
        let mut ground = Ground::open().unwrap();
        let issue = ground.begin().unwrap();
        tell(&mut ground, &issue);
        work_off(&mut ground, 23);
        // The first partition has kept its first cell, and given the next one.
        assert_eq!(
            (ground.follow(0, 0), ground.follow(1, 0), ground.follow(1, OLD_PARTS)),
            (Ok(0), Ok(1), Ok(0))
        );
        let slot = slots_of_cell(1).start;
        let reply = Reply::Elsewhere { dest: 0 };
        assert_eq!(ground.follow(1, 1), Err(Why::Unserved { slot, part: 1, reply }));
        ground.forget(OLD_PARTS).unwrap();
        let reply = Reply::Pending { source: 0 };
        assert_eq!(ground.follow(1, 0), Err(Why::Untrue { slot, part: OLD_PARTS, reply }));
        assert_eq!(ground.look_at_the_end(), Err(Why::Untrue { slot, part: OLD_PARTS, reply }));
    }
}
