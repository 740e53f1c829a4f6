//! Partitions as a Rust program sees them. Expected values are those of the worked examples.

use squall::{
    Chunk, Course, Error, FrameFault, Loaded, Next, Part, PartFault, Rank, Reply, Router, Span,
    frame,
};

const OLD: &[u8] = include_bytes!("../../../examples/old.json");
const NEW: &[u8] = include_bytes!("../../../examples/new.json");

fn key(root: u32) -> Rank {
    Rank::new(root, 0)
}

fn span(lo: Rank, hi: Rank) -> Span {
    Span { lo, hi }
}

fn chunk(lo: Rank, hi: Rank) -> Chunk {
    Chunk {
        lo,
        hi,
        number: 1,
        sub: 0,
        source: 1,
        dest: 3,
    }
}

fn no<T>(fault: PartFault) -> Result<T, Error> {
    Err(Error::Part(fault))
}

fn fresh(id: u32) -> Part {
    Part::open(id, &Course::open(1, OLD, NEW).unwrap()).unwrap()
}

/// A partition that has heard that sub-plan 0 is opened.
fn opened(id: u32) -> Part {
    let mut part = fresh(id);
    part.hear(&frame::opened(1, 0).unwrap()).unwrap();
    part
}

#[test]
fn openings() -> Result<(), Error> {
    let course = Course::open(1, OLD, NEW)?;
    assert_eq!(Part::open(10000, &course).err(), Some(Error::Limit));
    let (one, none) = (Part::open(1, &course)?, Part::open(9999, &course)?);
    drop(course);
    assert_eq!(one.held(), [span(key(0), key(3))]);
    assert_eq!(none.held(), []);
    assert_eq!((one.given(1), one.loaded(1)), (vec![], vec![]));
    Ok(())
}

#[test]
fn gifts() -> Result<(), Error> {
    let mut part = fresh(1);
    let second = |second| Rank::new(2, second);
    assert_eq!(part.give(1), no(PartFault::NotOpen));
    assert_eq!(part.give_at(key(2)), no(PartFault::NotOpen));
    part.hear(&frame::opened(1, 0)?)?;
    assert_eq!(part.give(0), no(PartFault::ZeroMax));
    assert_eq!(part.give_at(Rank::END), Err(Error::Limit));
    assert_eq!(part.give_at(key(0)), no(PartFault::NotOutgoing));
    assert_eq!(part.give_at(second(1))?, chunk(second(1), second(2)));
    assert_eq!(part.give_at(second(1)), no(PartFault::Given));
    assert_eq!(part.give(9)?, chunk(second(0), second(1)));
    assert_eq!(part.give(u64::MAX)?, chunk(second(2), key(3)));
    assert_eq!(part.give(1), no(PartFault::NothingLeft));
    assert_eq!(part.held(), [span(key(0), key(2))]);
    assert_eq!(part.given(1), [span(key(2), key(3))]);
    assert_eq!(part.given(2), []);
    Ok(())
}

#[test]
fn loads() -> Result<(), Error> {
    let mut part = fresh(3);
    let all = chunk(key(2), key(3));
    assert_eq!(part.load(&all), no(PartFault::NotOpen));
    assert_eq!(
        part.fresh(&all).unwrap_err(),
        Error::Part(PartFault::NotOpen)
    );
    assert_eq!(part.finish(0), no(PartFault::NotOpen));
    part.hear(&frame::opened(1, 0)?)?;
    assert_eq!(part.finish(0), no(PartFault::NotAll));
    assert_eq!(
        part.load(&Chunk { source: 2, ..all }),
        no(PartFault::Stranger)
    );
    assert_eq!(part.load(&Chunk { number: 0, ..all }), Err(Error::Limit));
    assert_eq!(part.load(&Chunk { hi: all.lo, ..all }), Err(Error::Limit));
    assert_eq!(
        part.load(&chunk(Rank::new(2, 5), Rank::new(2, 9)))?,
        Loaded::Now
    );
    let apart = [span(key(2), Rank::new(2, 5)), span(Rank::new(2, 9), key(3))];
    assert_eq!(part.fresh(&all)?, apart);
    assert_eq!(part.load(&all)?, Loaded::Now);
    assert_eq!(part.load(&all)?, Loaded::Before);
    assert_eq!(part.fresh(&all)?, []);
    part.finish(0)?;
    part.finish(0)?;
    assert_eq!(part.held(), [span(key(2), key(3)), span(key(5), key(9))]);
    assert_eq!(part.loaded(1), [span(key(2), key(3))]);
    assert_eq!(opened(2).finish(0), no(PartFault::NothingDue));
    Ok(())
}

#[test]
fn a_key_that_was_not_loaded_is_not_held() -> Result<(), Error> {
    let mut part = opened(3);
    part.hear(&Course::open(2, NEW, OLD)?.frame()?)?;
    part.hear(&frame::opened(2, 0)?)?;
    assert_eq!(part.give_at(key(2)), no(PartFault::NotHeld));
    assert_eq!(part.load(&chunk(key(2), key(3)))?, Loaded::Now);
    let back = part.give_at(key(2))?;
    assert_eq!((back.number, back.source, back.dest), (2, 3, 1));
    assert_eq!(part.load(&chunk(key(2), Rank::new(2, 1)))?, Loaded::Before);
    Ok(())
}

#[test]
fn a_course_is_closed() -> Result<(), Error> {
    let mut part = opened(3);
    part.give_at(key(6))?;
    assert!(!part.course_closed(1));
    for _ in 0..2 {
        assert_eq!(part.close_course(), 1);
        assert!(part.course_closed(1) && !part.course_closed(0) && !part.course_closed(2));
        assert_eq!(part.give(1), no(PartFault::Ended));
        assert_eq!(part.give(0), no(PartFault::Ended));
        for root in [5, 6, 7] {
            assert_eq!(part.give_at(key(root)), no(PartFault::Ended));
        }
        assert_eq!(part.give_at(Rank::END), Err(Error::Limit));
    }
    assert_eq!(part.load(&chunk(key(2), key(3)))?, Loaded::Now);
    part.finish(0)?;
    assert_eq!(part.held()[0], span(key(2), key(3)));
    assert_eq!(part.given(1), [span(key(6), Rank::new(6, 1))]);
    Ok(())
}

#[test]
fn a_course_is_closed_before_it_opens() -> Result<(), Error> {
    let mut part = fresh(3);
    assert_eq!(part.close_course(), 1);
    assert_eq!(part.give(1), no(PartFault::Ended));
    assert_eq!(part.load(&chunk(key(2), key(3))), no(PartFault::NotOpen));
    part.hear(&frame::opened(1, 0)?)?;
    assert_eq!(part.give(1), no(PartFault::Ended));
    assert_eq!(part.load(&chunk(key(2), key(3)))?, Loaded::Now);
    // In a newer course it gives again, until that is closed too.
    part.hear(&Course::open(2, NEW, OLD)?.frame()?)?;
    part.hear(&frame::opened(2, 0)?)?;
    assert!(part.course_closed(1) && !part.course_closed(2));
    assert_eq!(part.give(1)?.number, 2);
    assert_eq!(part.close_course(), 2);
    assert_eq!(part.give(1), no(PartFault::Ended));
    assert!(part.course_closed(1) && part.course_closed(2));
    Ok(())
}

#[test]
fn more_spans_than_a_call_gives() -> Result<(), Error> {
    let (mut source, mut dest) = (opened(1), opened(3));
    for at in 0..200 {
        let given = source.give_at(Rank::new(2, 2 * at + 1))?;
        assert_eq!(dest.load(&given)?, Loaded::Now);
    }
    let given = source.given(1);
    assert_eq!(given.len(), 200);
    assert_eq!(given[199], span(Rank::new(2, 399), Rank::new(2, 400)));
    assert_eq!(dest.loaded(1), given);
    let held = source.held();
    assert_eq!(held.len(), 201);
    assert_eq!(held[1], span(Rank::new(2, 2), Rank::new(2, 3)));
    assert_eq!(held[200], span(Rank::new(2, 400), key(3)));
    Ok(())
}

#[test]
fn replies_for_errands() -> Result<(), Error> {
    let (mut source, mut dest) = (opened(1), opened(3));
    let mut errand = Router::open(1, OLD, NEW)?.errand(key(2))?;
    assert_eq!(errand.asked(), 1);
    assert_eq!(source.serve(key(2), 0)?, Reply::Held);
    let given = source.give(u64::MAX)?;
    let moved = source.serve(key(2), errand.number())?;
    assert_eq!(moved, Reply::Moved { dest: 3, number: 1 });
    assert_eq!(errand.heed(moved)?, Next::Ask(3));
    let pending = dest.serve(key(2), errand.number())?;
    assert_eq!(pending, Reply::Pending { source: 1 });
    assert_eq!(errand.heed(pending)?, Next::Again(3));
    assert_eq!(dest.load(&given)?, Loaded::Now);
    let held = dest.serve(key(2), errand.number())?;
    assert_eq!((held, errand.heed(held)?), (Reply::Held, Next::Served));
    assert_eq!(dest.serve(key(2), 2)?, Reply::Held);
    assert_eq!(dest.serve(key(6), 2)?, Reply::Held);
    assert_eq!(source.serve(key(6), 2)?, Reply::Behind);
    assert_eq!(source.serve(key(9), 0)?, Reply::Elsewhere { dest: 4 });
    assert_eq!(source.serve(Rank::END, 0), Err(Error::Limit));
    Ok(())
}

#[test]
fn frames_of_a_stream() -> Result<(), Error> {
    let (mut part, opening) = (fresh(1), frame::opened(1, 0)?);
    part.feed(&opening[..5])?;
    assert_eq!(part.waiting(), 5);
    assert_eq!(part.give(1), no(PartFault::NotOpen));
    part.hear(&frame::done(1, 0, 3)?)?;
    part.feed(&opening[5..])?;
    assert_eq!(part.waiting(), 0);
    assert_eq!(part.give(1), Ok(chunk(key(2), Rank::new(2, 1))));
    assert_eq!(part.feed(b"ST"), Err(Error::Frame(FrameFault::Magic)));
    assert_eq!(part.feed(b""), Err(Error::Failed));
    part.hear(&opening)?;
    Ok(())
}

#[test]
fn digests_and_repairs() -> Result<(), Error> {
    let (mut one, mut other) = (opened(3), fresh(1));
    let mut router = Router::open(1, OLD, NEW)?;
    assert_eq!(one.repair().err(), Some(Error::NoDigest));
    one.load(&chunk(key(2), key(3)))?;
    for digest in other.digest()? {
        one.hear(&digest)?;
    }
    for frame in one.repair()? {
        let short = &frame[..frame.len() - 1];
        assert_eq!(other.hear(short), Err(Error::Frame(FrameFault::Short)));
        other.hear(&frame)?;
        router.hear(&frame)?;
    }
    assert!(one.board()?.eq(other.board()?));
    assert_eq!(router.route(key(2)), Some(3));
    assert_eq!(other.give(1)?.lo, key(2));
    Ok(())
}

#[test]
fn frames_within_a_limit() -> Result<(), Error> {
    let mut part = opened(3);
    part.load(&chunk(key(2), key(3)))?;
    assert_eq!(part.board_within(48).err(), Some(Error::TooLong));
    assert_eq!(part.digest_within(56).err(), Some(Error::TooLong));
    assert_eq!(part.repair_within(0).err(), Some(Error::NoDigest));
    assert!(part.board_within(49)?.all(|frame| frame.len() <= 49));
    Ok(())
}

/// A call that a partition answered, as a log keeps it.
enum Call {
    Hear(Vec<u8>),
    Give(u64),
    GiveAt(Rank),
    Load(Chunk),
    Finish(u32),
    CloseCourse(u32),
}

/// Makes the call, and says which chunk was given.
fn call(part: &mut Part, call: &Call) -> Result<Option<Chunk>, Error> {
    match call {
        Call::Hear(frame) => part.hear(frame)?,
        Call::Give(max) => return part.give(*max).map(Some),
        Call::GiveAt(key) => return part.give_at(*key).map(Some),
        Call::Load(chunk) => assert_eq!(part.load(chunk)?, Loaded::Now),
        Call::Finish(sub) => part.finish(*sub)?,
        Call::CloseCourse(number) => assert_eq!(part.close_course(), *number),
    }
    Ok(None)
}

#[test]
fn a_partition_is_rebuilt_from_its_calls() -> Result<(), Error> {
    let log = [
        Call::Hear(frame::opened(1, 0)?),
        Call::GiveAt(Rank::new(7, 7)),
        Call::Load(chunk(key(2), Rank::new(2, 5))),
        Call::Give(40),
        Call::Hear(frame::done(1, 0, 4)?),
        Call::Load(chunk(key(2), key(3))),
        Call::Finish(0),
    ];
    let (mut part, mut again) = (fresh(3), fresh(3));
    for it in &log {
        let given = call(&mut part, it)?;
        // What answers no changes nothing, so it is in no log.
        assert_eq!(part.give(0), no(PartFault::ZeroMax));
        assert_eq!(call(&mut again, it)?, given);
    }
    assert_eq!(again.held(), part.held());
    assert_eq!(again.held().len(), 4);
    assert_eq!(again.given(1), part.given(1));
    assert_eq!(again.loaded(1), part.loaded(1));
    assert!(again.board()?.eq(part.board()?));
    assert_eq!(again.give(u64::MAX)?, part.give(u64::MAX)?);
    for part in [&mut part, &mut again] {
        call(part, &Call::CloseCourse(1))?;
        assert_eq!(part.give(1), no(PartFault::Ended));
    }
    Ok(())
}

#[test]
fn each_fault_has_its_words() {
    let faults = [
        PartFault::NotOpen,
        PartFault::NothingLeft,
        PartFault::ZeroMax,
        PartFault::NotOutgoing,
        PartFault::Given,
        PartFault::NotHeld,
        PartFault::Stranger,
        PartFault::NotAll,
        PartFault::NothingDue,
        PartFault::Ended,
    ];
    let mut words: Vec<String> = faults
        .map(|it| Error::Part(it).to_string())
        .into_iter()
        .collect();
    assert_eq!(
        words[3],
        "the key does not go out in the sub-plan opened last"
    );
    words.sort();
    words.dedup();
    assert_eq!(words.len(), faults.len());
}

#[test]
fn a_partition_passes_to_another_thread() {
    let mut part = opened(1);
    let given = std::thread::spawn(move || part.give(1)).join().unwrap();
    assert_eq!(given, Ok(chunk(key(2), Rank::new(2, 1))));
}
