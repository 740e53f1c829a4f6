//! Leaders as a Rust program sees them, and a whole course. Expected values are those of the worked
//! examples.

use squall::{
    Course, Error, FrameFault, Frames, Leader, LeaderFault, Loaded, Part, PartFault, PlanFault,
    Rank, Reply, Router, Span, frame,
};
use std::io;

const OLD: &[u8] = include_bytes!("../../../examples/old.json");
const NEW: &[u8] = include_bytes!("../../../examples/new.json");
const GAP: &[u8] = br#"{"plan":[{"part":1,"from":[0,0],"to":[3,0]}]}"#;

fn key(root: u32) -> Rank {
    Rank::new(root, 0)
}

fn no<T>(fault: LeaderFault) -> Result<T, Error> {
    Err(Error::Leader(fault))
}

fn not_done<T>(part: u32, sub: u32) -> Result<T, Error> {
    no(LeaderFault::NotDone { part, sub })
}

#[test]
fn there_and_back() -> Result<(), Error> {
    let mut leader = Leader::open(OLD, 0)?;
    assert!(!leader.finished());
    assert_eq!(leader.open_next(), no(LeaderFault::Idle));
    assert!(leader.course()?.is_none());
    leader.begin(NEW)?;
    assert_eq!(leader.begin(OLD), no(LeaderFault::Running));
    assert_eq!(leader.open_next(), Ok(0));
    assert_eq!(leader.open_next(), not_done(3, 0));
    leader.hear(&frame::done(1, 0, 3)?)?;
    assert_eq!(leader.open_next(), not_done(4, 0));
    assert!(!leader.finished());
    leader.hear(&frame::done(1, 0, 4)?)?;
    assert!(leader.finished());
    assert_eq!(leader.open_next(), no(LeaderFault::NoMore));
    leader.begin(OLD)?;
    assert!(!leader.finished());
    let course = leader.course()?.expect("it has begun one");
    drop(leader);
    assert_eq!((course.number(), course.moves().len()), (2, 2));
    assert_eq!((course.moves()[0].source, course.moves()[0].dest), (3, 1));
    Ok(())
}

/// Between the plans of the examples: the keys of 2:0 have moved, and those of 6:0 to 8:0 have not.
const MIDDLE: &[u8] = br#"{"plan":[
    {"part":1,"from":[0,0],"to":[2,0]},
    {"part":3,"from":[2,0],"to":[3,0]},
    {"part":2,"from":[3,0],"to":[5,0]},
    {"part":3,"from":[5,0],"to":[9,0]},
    {"part":4,"from":[9,0],"to":"end"}]}"#;

#[test]
fn a_course_ends_early() -> Result<(), Error> {
    let (mut leader, mut router) = (Leader::open(OLD, 0)?, Router::open(1, OLD, NEW)?);
    leader.begin(NEW)?;
    assert_eq!(leader.open_next(), Ok(0));
    assert_eq!(leader.begin(OLD), no(LeaderFault::Running));
    leader.begin_from(MIDDLE, NEW)?;
    assert!(!leader.finished());
    let course = leader.course()?.expect("it has begun one");
    let moves = course.moves();
    assert_eq!((course.number(), moves.len()), (2, 1));
    assert_eq!((moves[0].source, moves[0].dest), (3, 4));
    assert_eq!((moves[0].lo, moves[0].hi), (key(6), key(9)));
    router.hear(&Course::open(1, OLD, NEW)?.frame()?)?;
    router.hear(&frame::opened(1, 0)?)?;
    router.hear(&course.frame()?)?;
    assert!(leader.board()?.eq(router.board()?));
    assert_eq!(leader.open_next(), Ok(0));
    assert_eq!(leader.open_next(), not_done(4, 0));
    leader.hear(&frame::done(2, 0, 4)?)?;
    assert!(leader.finished());
    leader.begin_from(NEW, OLD)?;
    leader.begin_from(NEW, NEW)?;
    assert_eq!(leader.course()?.map(|it| it.number()), Some(4));
    assert!(leader.finished());
    Ok(())
}

#[test]
fn numbers_end() -> Result<(), Error> {
    let mut leader = Leader::open(OLD, u32::MAX - 1)?;
    leader.begin(OLD)?;
    assert!(leader.finished());
    assert_eq!(leader.begin(NEW), no(LeaderFault::NoNumber));
    assert_eq!(leader.begin_from(OLD, NEW), no(LeaderFault::NoNumber));
    assert_eq!(leader.course()?.map(|it| it.number()), Some(u32::MAX));
    Ok(())
}

#[test]
fn a_course_is_resumed() -> Result<(), Error> {
    let course = Course::open(7, OLD, NEW)?;
    let mut leader = Leader::resume(&course)?;
    drop(course);
    assert_eq!(leader.begin(OLD), no(LeaderFault::Running));
    assert_eq!(leader.open_next(), Ok(0));
    leader.hear(&frame::done(7, 0, 3)?)?;
    leader.hear(&frame::done(7, 0, 4)?)?;
    leader.begin(OLD)?;
    assert_eq!(leader.course()?.map(|it| it.number()), Some(8));
    Ok(())
}

#[test]
fn texts_that_are_no_plans() -> Result<(), Error> {
    let gap = PlanFault::Gap(key(3));
    assert_eq!(Leader::open(GAP, 0).err(), Some(Error::OldPlan(gap)));
    let mut leader = Leader::open(OLD, 0)?;
    assert_eq!(leader.begin(GAP), Err(Error::NewPlan(gap)));
    assert_eq!(leader.begin(b""), Err(Error::NewPlan(PlanFault::Json)));
    leader.begin(NEW)?;
    assert_eq!(leader.begin_from(GAP, b""), Err(Error::OldPlan(gap)));
    let json = PlanFault::Json;
    assert_eq!(leader.begin_from(b"", GAP), Err(Error::OldPlan(json)));
    assert_eq!(leader.begin_from(OLD, GAP), Err(Error::NewPlan(gap)));
    assert_eq!(leader.begin_from(OLD, b""), Err(Error::NewPlan(json)));
    assert_eq!(leader.course()?.map(|it| it.number()), Some(1));
    leader.begin_from(OLD, NEW)
}

#[test]
fn a_standby_catches_up() -> Result<(), Error> {
    let (mut leader, mut standby) = (Leader::open(OLD, 0)?, Leader::open(OLD, 0)?);
    assert_eq!(leader.board()?.count(), 0);
    leader.begin(NEW)?;
    leader.open_next()?;
    leader.hear(&frame::done(1, 0, 3)?)?;
    assert!(leader.board()?.ne(standby.board()?));
    assert_eq!(leader.repair().err(), Some(Error::NoDigest));
    for digest in standby.digest()? {
        leader.hear(&digest)?;
    }
    for frame in leader.repair()? {
        standby.hear(&frame)?;
    }
    assert!(leader.board()?.eq(standby.board()?));
    Ok(())
}

#[test]
fn frames_within_a_limit() -> Result<(), Error> {
    let mut leader = Leader::open(OLD, 0)?;
    assert_eq!(leader.digest_within(15).err(), Some(Error::TooLong));
    leader.begin(NEW)?;
    assert_eq!(leader.board_within(49).err(), Some(Error::TooLong));
    assert_eq!(leader.repair_within(49).err(), Some(Error::NoDigest));
    assert_eq!(leader.board_within(98_337)?.count(), 1);
    Ok(())
}

#[test]
fn frames_of_a_stream() -> Result<(), Error> {
    let mut leader = Leader::open(OLD, 0)?;
    leader.begin(NEW)?;
    assert_eq!(leader.open_next(), Ok(0));
    let stream = [frame::done(1, 0, 3)?, frame::done(1, 0, 4)?].concat();
    let (first, last) = stream.split_at(stream.len() - 1);
    leader.feed(first)?;
    assert!(leader.waiting() > 0);
    assert_eq!(leader.open_next(), not_done(4, 0));
    leader.feed(last)?;
    assert_eq!(leader.waiting(), 0);
    assert!(leader.finished());
    assert_eq!(leader.feed(b"ST"), Err(Error::Frame(FrameFault::Magic)));
    assert_eq!(leader.feed(b""), Err(Error::Failed));
    leader.hear(&frame::done(1, 0, 3)?)?;
    Ok(())
}

#[test]
fn what_is_no_frame() -> Result<(), Error> {
    let mut leader = Leader::open(OLD, 0)?;
    let done = frame::done(1, 0, 3)?;
    let fault = |fault| Err(Error::Frame(fault));
    assert_eq!(leader.hear(b""), fault(FrameFault::Short));
    assert_eq!(leader.hear(&done.repeat(2)), fault(FrameFault::Spare));
    assert_eq!(leader.hear(b"ST"), fault(FrameFault::Magic));
    assert_eq!(leader.board()?.count(), 0);
    leader.hear(&done)?;
    assert_eq!(leader.board()?.count(), 1);
    Ok(())
}

#[test]
fn a_leader_is_rebuilt_from_its_calls() -> Result<(), Error> {
    let lead = || -> Result<Leader, Error> {
        let mut leader = Leader::open(OLD, 4)?;
        leader.begin(NEW)?;
        leader.open_next()?;
        leader.hear(&frame::done(5, 0, 4)?)?;
        Ok(leader)
    };
    let (mut leader, mut again) = (lead()?, lead()?);
    assert!(leader.board()?.eq(again.board()?));
    assert_eq!(again.open_next(), not_done(3, 0));
    Ok(())
}

#[test]
fn each_fault_has_its_words() {
    let faults = [
        (LeaderFault::Running, "the course begun last is not over"),
        (LeaderFault::NoNumber, "the greatest number is used"),
        (LeaderFault::Idle, "no course is begun"),
        (
            LeaderFault::NotDone { part: 3, sub: 1 },
            "partition 3 has not reported that it has all keys of sub-plan 1",
        ),
        (
            LeaderFault::NoMore,
            "all sub-plans are opened, and the last one is done",
        ),
    ];
    for (fault, words) in faults {
        let error = io::Error::from(Error::Leader(fault));
        assert_eq!(error.kind(), io::ErrorKind::Other);
        assert_eq!(error.to_string(), words);
    }
}

const FIRST: &[u8] = br#"{"plan":[
    {"part":1,"from":[0,0],"to":[5,0]},
    {"part":2,"from":[5,0],"to":"end"}]}"#;
const NEXT: &[u8] = br#"{"plan":[
    {"part":1,"from":[0,0],"to":[2,0]},
    {"part":2,"from":[2,0],"to":[7,0]},
    {"part":1,"from":[7,0],"to":"end"}]}"#;

/// A leader, partitions 1 and 2 and a router, which know the first plan and nothing else of one another
/// but what is in frames.
struct Nodes {
    leader: Leader,
    parts: [Part; 2],
    router: Router,
}

impl Nodes {
    fn new() -> Result<Nodes, Error> {
        let first = Course::open(1, FIRST, FIRST)?;
        Ok(Nodes {
            leader: Leader::open(FIRST, 1)?,
            parts: [Part::open(1, &first)?, Part::open(2, &first)?],
            router: Router::open(1, FIRST, FIRST)?,
        })
    }

    /// All hear the frames.
    fn hear(&mut self, frames: impl IntoIterator<Item = Vec<u8>>) -> Result<(), Error> {
        frames.into_iter().try_for_each(|frame| {
            self.leader.hear(&frame)?;
            self.router.hear(&frame)?;
            self.parts.iter_mut().try_for_each(|it| it.hear(&frame))
        })
    }

    /// All hear what the leader knows.
    fn hear_leader(&mut self) -> Result<(), Error> {
        let frames: Vec<Vec<u8>> = self.leader.board().map(Frames::collect)?;
        self.hear(frames)
    }

    /// The partition gives all that goes out, in chunks of at most so many keys, and the other one loads
    /// them. Each load is reported.
    fn give_all(&mut self, id: u32, max: u64) -> Result<(), Error> {
        loop {
            let chunk = match self.part(id).give(max) {
                Err(Error::Part(PartFault::NothingLeft)) => return Ok(()),
                given => given?,
            };
            assert_eq!(chunk.source, id);
            let dest = self.part(chunk.dest);
            assert_eq!(dest.load(&chunk)?, Loaded::Now);
            assert_eq!(dest.load(&chunk)?, Loaded::Before);
            let keys = chunk.lo..chunk.hi;
            self.hear([frame::loaded(chunk.number, chunk.sub, chunk.dest, keys)?])?;
        }
    }

    fn part(&mut self, id: u32) -> &mut Part {
        &mut self.parts[id as usize - 1]
    }
}

#[test]
fn a_whole_course_over_frames() -> Result<(), Error> {
    let mut nodes = Nodes::new()?;
    nodes.leader.begin(NEXT)?;
    let subplans = nodes.leader.course()?.map(|it| it.subplans());
    while !nodes.leader.finished() {
        let sub = nodes.leader.open_next()?;
        nodes.hear_leader()?;
        for id in [1, 2] {
            nodes.give_all(id, 1 << 60)?;
        }
        for id in [1, 2] {
            assert_eq!(nodes.leader.open_next(), not_done(id, sub));
            nodes.part(id).finish(sub)?;
            nodes.hear([frame::done(2, sub, id)?])?;
        }
    }
    assert_eq!(subplans, Some(1));
    let span = |lo, hi| Span { lo, hi };
    let ones = [span(key(0), key(2)), span(key(7), Rank::END)];
    assert_eq!(nodes.parts[0].held(), ones);
    assert_eq!(nodes.parts[1].held(), [span(key(2), key(7))]);
    let course = nodes.router.course()?;
    assert_eq!(course.number(), 2);
    assert_eq!(nodes.router.legs(key(0)..Rank::END), course.new_plan());
    for root in 0..10 {
        let asked = nodes.router.route(key(root)).expect("it is a key");
        assert_eq!(nodes.part(asked).serve(key(root), 0)?, Reply::Held);
    }
    Ok(())
}
