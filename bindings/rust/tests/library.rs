//! The library as a Rust program sees it. Expected values are those of the worked examples.

use squall::{
    Course, Error, FrameFault, Leg, Move, Next, Place, PlanFault, Rank, Reply, Router, Span, View,
    frame, key_of,
};
use std::sync::Mutex;
use std::thread;

const OLD: &[u8] = include_bytes!("../../../examples/old.json");
const NEW: &[u8] = include_bytes!("../../../examples/new.json");

fn key(root: u32) -> Rank {
    Rank::new(root, 0)
}

fn leg(lo: Rank, hi: Rank, part: u32) -> Leg {
    Leg { lo, hi, part }
}

fn fresh() -> Router {
    Router::open(1, OLD, NEW).unwrap()
}

#[test]
fn the_worked_scenario() -> Result<(), Error> {
    let mut router = fresh();
    assert_eq!(router.route(key(2)), Some(1));
    router.loaded(1, 0, 3, key(2)..key(3))?;
    assert_eq!(router.route(key(2)), Some(3));
    router.done(1, 0, 4)?;
    router.opened(1, 0)?;
    assert_eq!(router.route(key(6)), Some(4));
    assert_eq!(router.route(key(3)), Some(2));
    assert_eq!(router.route(Rank::END), None);
    assert_eq!(router.number(), 1);
    Ok(())
}

#[test]
fn the_library_has_the_version_of_the_crate() {
    assert_eq!(squall::version(), env!("CARGO_PKG_VERSION"));
}

/// All that a view says of twelve keys.
#[derive(Debug, PartialEq)]
struct Said {
    number: u32,
    alone: Vec<Option<u32>>,
    parts: [u32; 12],
    places: [Place; 12],
    asked: Vec<u32>,
    legs: Vec<Leg>,
}

fn said_by(view: &View) -> Said {
    let keys: Vec<Rank> = (0..12).map(key).collect();
    let mut parts = [0; 12];
    let mut places = [Place::NO_KEY; 12];
    assert_eq!(view.routes(&keys, &mut parts), 12);
    assert_eq!(view.locate(&keys, &mut places), 12);
    let errand = |it: &Rank| view.errand(*it).unwrap();
    Said {
        number: view.number(),
        alone: keys.iter().map(|it| view.route(*it)).collect(),
        parts,
        places,
        asked: keys.iter().map(|it| errand(it).asked()).collect(),
        legs: view.legs(Rank(0)..Rank::END),
    }
}

#[test]
fn eight_threads_share_a_view() -> Result<(), Error> {
    let mut router = fresh();
    router.loaded(1, 0, 3, key(2)..key(3))?;
    let view = router.view()?;
    drop(router);
    let wanted = said_by(&view);
    assert_eq!(view.route(key(2)), Some(3));
    thread::scope(|scope| {
        for _ in 0..8 {
            scope.spawn(|| {
                for _ in 0..50 {
                    assert_eq!(said_by(&view), wanted);
                    assert_eq!(said_by(&view.clone()), wanted);
                }
            });
        }
    });
    Ok(())
}

#[test]
fn rows_have_the_keys_of_the_vectors() {
    let bytes = |hex: &str| -> Vec<u8> {
        let digits = hex.trim_start_matches('-');
        let byte = |at| u8::from_str_radix(&digits[at..at + 2], 16).unwrap();
        (0..digits.len()).step_by(2).map(byte).collect()
    };
    let vectors = include_str!("../../../integrations/keymap.txt");
    let lines: Vec<&str> = vectors.lines().filter(|it| !it.starts_with('#')).collect();
    assert!(lines.len() >= 50);
    for line in lines {
        let words: Vec<&str> = line.split_whitespace().collect();
        assert_eq!(key_of(&bytes(words[0])).to_string(), words[1], "{line}");
    }
}

#[test]
fn legs_of_any_number() -> Result<(), Error> {
    let mut router = fresh();
    router.loaded(1, 0, 3, key(2)..key(3))?;
    let all = router.legs(key(0)..key(4));
    let wanted = [
        leg(key(0), key(2), 1),
        leg(key(2), key(3), 3),
        leg(key(3), key(4), 2),
    ];
    assert_eq!(all, wanted);
    for second in 0..200 {
        router.loaded(
            1,
            0,
            4,
            Rank::new(6, 2 * second)..Rank::new(6, 2 * second + 1),
        )?;
    }
    let many = router.view()?.legs(key(6)..key(7));
    assert_eq!(many.len(), 400);
    assert_eq!(many[398], leg(Rank::new(6, 398), Rank::new(6, 399), 4));
    assert_eq!(many[399], leg(Rank::new(6, 399), key(7), 3));
    assert!(router.legs(key(5)..key(5)).is_empty());
    Ok(())
}

#[test]
fn routes_of_many_keys() -> Result<(), Error> {
    let mut router = fresh();
    router.loaded(1, 0, 3, key(2)..key(3))?;
    let view = router.view()?;
    let keys = [key(2), key(3), Rank::END, key(0)];
    let mut parts = [7; 4];
    assert_eq!(view.routes(&keys, &mut parts[..3]), 3);
    assert_eq!(parts, [3, 2, View::NOWHERE, 7]);
    assert_eq!(view.routes(&keys[3..], &mut parts), 1);
    assert_eq!(parts[0], 1);
    Ok(())
}

#[test]
fn whole_frames() -> Result<(), Error> {
    let (mut a, mut b) = (fresh(), fresh());
    a.loaded(1, 0, 3, key(2)..key(3))?;
    let frames: Vec<Vec<u8>> = a.board()?.collect();
    let frame = &frames[0];
    assert_eq!(
        b.hear(&frame[..frame.len() - 1]),
        Err(Error::Frame(FrameFault::Short))
    );
    assert_eq!(
        b.hear(&frame.repeat(2)),
        Err(Error::Frame(FrameFault::Spare))
    );
    assert_eq!(b.hear(b"ST"), Err(Error::Frame(FrameFault::Magic)));
    assert_eq!(b.route(key(2)), Some(1));
    b.hear(frame)?;
    assert_eq!(b.route(key(2)), Some(3));
    Ok(())
}

#[test]
fn frames_within_a_limit() -> Result<(), Error> {
    let (mut a, mut b) = (fresh(), fresh());
    for root in [2, 4, 6] {
        a.loaded(1, 0, 3, key(root)..key(root + 1))?;
    }
    let lengths: Vec<usize> = a.board_within(65)?.map(|frame| frame.len()).collect();
    assert_eq!(lengths, [65, 49]);
    assert_eq!(a.board_within(48).err(), Some(Error::TooLong));
    assert_eq!(a.digest_within(55).err(), Some(Error::TooLong));
    assert_eq!(a.digest_within(56)?.count(), 1);
    for digest in b.digest()? {
        a.feed(&digest)?;
    }
    assert_eq!(a.repair_within(0).err(), Some(Error::TooLong));
    for frame in a.repair_within(49)? {
        b.hear(&frame)?;
    }
    assert!(a.board()?.eq(b.board()?));
    Ok(())
}

#[test]
fn boards_digests_and_repairs() -> Result<(), Error> {
    let (mut a, mut b) = (fresh(), fresh());
    a.loaded(1, 0, 3, key(2)..key(3))?;
    b.done(1, 0, 4)?;
    b.issued(2, OLD)?;
    for digest in a.digest()? {
        b.feed(&digest)?;
    }
    for frame in b.repair()? {
        a.feed(&frame)?;
    }
    let frames: Vec<Vec<u8>> = a.board()?.collect();
    b.feed(&frames.concat())?;
    assert_eq!(a.number(), 2);
    assert!(a.board()?.eq(b.board()?));
    assert_eq!(fresh().board()?.count(), 0);
    Ok(())
}

#[test]
fn each_reader_has_a_view() -> Result<(), Error> {
    let mut router = fresh();
    let published: Mutex<View> = Mutex::new(router.view()?);
    thread::scope(|scope| {
        let readers = [(); 4].map(|()| {
            scope.spawn(|| {
                loop {
                    let mine = published.lock().unwrap().clone();
                    if mine.route(key(2)) == Some(3) {
                        break mine.route(key(6));
                    }
                }
            })
        });
        router.done(1, 0, 4)?;
        *published.lock().unwrap() = router.view()?;
        router.loaded(1, 0, 3, key(2)..key(3))?;
        *published.lock().unwrap() = router.view()?;
        drop(router);
        for reader in readers {
            assert_eq!(reader.join().unwrap(), Some(4));
        }
        Ok(())
    })
}

#[test]
fn errands_follow_replies() -> Result<(), Error> {
    let view = fresh().view()?;
    let mut errand = view.errand(key(2))?;
    assert_eq!((errand.asked(), errand.number()), (1, 0));
    assert_eq!(
        errand.heed(Reply::Moved {
            dest: 10000,
            number: 1
        }),
        Err(Error::Limit)
    );
    assert_eq!(
        errand.heed(Reply::Moved { dest: 3, number: 1 }),
        Ok(Next::Ask(3))
    );
    assert_eq!((errand.asked(), errand.number()), (3, 1));
    assert_eq!(
        errand.heed(Reply::Pending { source: 1 }),
        Ok(Next::Again(3))
    );
    assert_eq!(errand.heed(Reply::Behind), Ok(Next::Again(3)));
    assert_eq!(
        errand.heed(Reply::Moved { dest: 3, number: 1 }),
        Ok(Next::Lost)
    );
    assert_eq!(errand.heed(Reply::Held), Ok(Next::Lost));
    Ok(())
}

fn moving(lo: Rank, hi: Rank, source: u32, dest: u32) -> Move {
    Move {
        lo,
        hi,
        source,
        dest,
        sub: 0,
    }
}

#[test]
fn the_course_of_the_examples() -> Result<(), Error> {
    let course = Course::open(1, OLD, NEW)?;
    assert_eq!(course.number(), 1);
    assert_eq!(course.subplans(), 1);
    let moves = [moving(key(2), key(3), 1, 3), moving(key(6), key(9), 3, 4)];
    assert_eq!(course.moves(), moves);
    assert_eq!(course.receivers(0)?, [3, 4]);
    assert_eq!(course.receivers(1)?, []);
    assert_eq!(course.old_plan()[0], leg(key(0), key(3), 1));
    assert_eq!(course.old_plan().len(), 4);
    assert_eq!(course.new_plan()[4], leg(key(6), Rank::END, 4));
    assert_eq!(course.new_plan().len(), 5);
    let (old, new) = (course.old_text()?, course.new_text()?);
    assert!(
        old.starts_with(r#"{"plan":[{"from":[0,0],"part":1,"to":[3,0]},{"from":[3,0],"part":2,"#)
    );
    assert!(new.ends_with(r#"{"from":[6,0],"part":4,"to":"end"}]}"#));
    let again = Course::open(1, old.as_bytes(), new.as_bytes())?;
    assert_eq!(again.moves(), moves);
    assert_eq!(again.old_text()?, old);
    Ok(())
}

#[test]
fn where_a_course_leaves_the_keys() -> Result<(), Error> {
    let course = Course::open(1, OLD, NEW)?;
    let span = |lo, hi| Span { lo, hi };
    let loaded = [
        span(key(7), Rank::END),
        span(key(2), Rank::new(2, 5)),
        span(key(7), key(8)),
    ];
    let left = course.left(&loaded)?;
    let back = Course::open(2, left.as_bytes(), OLD)?;
    let moves = [
        moving(key(2), Rank::new(2, 5), 3, 1),
        moving(key(7), key(9), 4, 3),
    ];
    assert_eq!(back.moves(), moves);
    assert_eq!(course.left(&[])?, course.old_text()?);
    assert_eq!(
        course.left(&[span(Rank(0), Rank::END)])?,
        course.new_text()?
    );
    assert_eq!(course.left(&[span(key(2), key(2))]), Err(Error::Limit));
    // Each second key of one partition: no plan has so many ranges.
    let (one, two) = (striped(|_| 1), striped(|_| 2));
    let course = Course::open(1, one.as_bytes(), two.as_bytes())?;
    let odd: Vec<Span> = (0..2048)
        .map(|it| span(Rank(2 * it + 1), Rank(2 * it + 2)))
        .collect();
    assert_eq!(course.left(&odd), Err(Error::Limit));
    assert_eq!(
        Course::open(2, course.left(&odd[1..])?.as_bytes(), one.as_bytes())?
            .moves()
            .len(),
        2047
    );
    Ok(())
}

/// The plan that gives the key i:0 and those up to (i + 1):0 to `part(i)`, for 200 of them.
fn striped(part: impl Fn(u32) -> u32) -> String {
    let range = |i: u32| {
        let to = if i == 199 {
            "\"end\"".to_string()
        } else {
            format!("[{},0]", i + 1)
        };
        format!(r#"{{"part":{},"from":[{i},0],"to":{to}}}"#, part(i))
    };
    let ranges: Vec<String> = (0..200).map(range).collect();
    format!(r#"{{"plan":[{}]}}"#, ranges.join(","))
}

#[test]
fn courses_of_more_moves_than_a_call_gives() -> Result<(), Error> {
    let (old, new) = (striped(|i| i), striped(|i| i + 1));
    let course = Course::open(1, old.as_bytes(), new.as_bytes())?;
    let moves = course.moves();
    assert_eq!(moves.len(), 200);
    let alike = |i: u32| moves[i as usize].lo == key(i) && moves[i as usize].dest == i + 1;
    assert!((0..200).all(alike));
    assert_eq!(course.receivers(0)?, Vec::from_iter(1..=200));
    assert_eq!(course.old_plan().len(), 200);
    Ok(())
}

#[test]
fn courses_of_a_router() -> Result<(), Error> {
    let mut router = fresh();
    router.issued(5, OLD)?;
    let (first, newest) = (router.first_course()?, router.course()?);
    drop(router);
    assert_eq!((first.number(), newest.number()), (1, 5));
    assert_eq!(newest.moves()[0], moving(key(2), key(3), 3, 1));
    Ok(())
}

#[test]
fn courses_that_are_none() {
    assert_eq!(Course::open(0, OLD, NEW).err(), Some(Error::Limit));
    let fault = Some(Error::NewPlan(PlanFault::Json));
    assert_eq!(Course::open(1, OLD, b"").err(), fault);
}

#[test]
fn where_keys_stand() -> Result<(), Error> {
    let mut router = fresh();
    router.loaded(1, 0, 3, key(2)..Rank::new(2, 5))?;
    let view = router.view()?;
    let place = |rank: Rank| view.place(rank).unwrap();
    assert!(place(key(0)).is_settled() && place(key(0)).sub().is_none());
    assert!(place(key(2)).is_settled() && place(key(2)).sub() == Some(0));
    let waiting = place(key(6));
    assert!(!waiting.is_settled());
    assert_eq!((waiting.part, waiting.source, waiting.dest), (3, 3, 4));
    assert!(!Place::NO_KEY.is_settled());
    assert_eq!(view.place(Rank::END), None);
    let mut places = [Place::NO_KEY; 2];
    assert_eq!(view.locate(&[key(6), Rank::END, key(0)], &mut places), 2);
    assert_eq!(places, [waiting, Place::NO_KEY]);
    Ok(())
}

#[test]
fn a_stream_that_ends_within_a_frame() -> Result<(), Error> {
    let (mut router, opening) = (fresh(), frame::opened(1, 0)?);
    assert_eq!(router.waiting(), 0);
    router.feed(&opening[..5])?;
    assert_eq!(router.waiting(), 5);
    router.feed(&opening[5..])?;
    assert_eq!(router.waiting(), 0);
    Ok(())
}

#[test]
fn frames_that_a_router_hears() -> Result<(), Error> {
    let mut router = Router::open(1, OLD, OLD)?;
    router.hear(&Course::open(2, OLD, NEW)?.frame()?)?;
    assert_eq!((router.number(), router.route(key(2))), (2, Some(1)));
    router.hear(&frame::loaded(2, 0, 3, key(2)..key(3))?)?;
    assert_eq!(router.route(key(2)), Some(3));
    router.hear(&frame::opened(2, 0)?)?;
    router.hear(&frame::done(2, 0, 4)?)?;
    assert_eq!(router.route(key(6)), Some(4));
    assert_eq!(frame::loaded(2, 0, 3, key(3)..key(3)), Err(Error::Limit));
    assert_eq!(frame::opened(0, 0), Err(Error::Limit));
    assert_eq!(frame::done(1, 0, 10000), Err(Error::Limit));
    Ok(())
}
