//! The limit on what frames may tell a router, and how many of them it took.

use squall::{Counts, Course, Error, FrameFault, Rank, Router, frame};
use std::io;

const OLD: &[u8] = include_bytes!("../../../examples/old.json");
const NEW: &[u8] = include_bytes!("../../../examples/new.json");
/// The frame of a digest of nothing.
const DIGEST: [u8; 16] = [0x53, 0x51, 1, 2, 0, 0, 0, 8, 0, 0, 0, 0, 0, 0, 0, 0];

/// A way by which a router takes frames.
type Take = fn(&mut Router, &[u8]) -> Result<(), Error>;
const WAYS: [Take; 2] = [Router::feed, Router::hear];

fn fresh() -> Result<Router, Error> {
    Router::open(1, OLD, NEW)
}

fn load(lo: u64, hi: u64) -> Result<Vec<u8>, Error> {
    frame::loaded(1, 0, 3, Rank(lo)..Rank(hi))
}

fn issue(number: u32) -> Result<Vec<u8>, Error> {
    Course::open(number, OLD, NEW)?.frame()
}

/// A limit on one number, the frames that bring it to 1 and to 2, and how it is read.
struct Case {
    limit: fn(u64) -> Counts,
    frames: [Vec<u8>; 2],
    read: fn(Counts) -> u64,
}

fn cases() -> Result<[Case; 4], Error> {
    const NO_LIMIT: Counts = Counts::NO_LIMIT;
    Ok([
        Case {
            limit: |cells| Counts { cells, ..NO_LIMIT },
            frames: [frame::done(1, 0, 3)?, frame::done(1, 0, 4)?],
            read: |it| it.cells,
        },
        Case {
            limit: |spans| Counts { spans, ..NO_LIMIT },
            frames: [load(0, 1)?, load(2, 3)?],
            read: |it| it.spans,
        },
        Case {
            limit: |opened| Counts { opened, ..NO_LIMIT },
            frames: [frame::opened(1, 0)?, frame::opened(1, 1)?],
            read: |it| it.opened,
        },
        Case {
            limit: |issues| Counts { issues, ..NO_LIMIT },
            frames: [issue(2)?, issue(3)?],
            read: |it| it.issues,
        },
    ])
}

#[test]
fn each_number_has_its_limit() -> Result<(), Error> {
    for Case {
        limit,
        frames: [first, second],
        read,
    } in cases()?
    {
        for take in WAYS {
            let mut router = fresh()?;
            router.limit(limit(0));
            assert_eq!(take(&mut router, &first), Err(Error::Full));
            assert_eq!(router.counts()?, Counts::default());
            router.limit(limit(1));
            take(&mut router, &first)?;
            assert_eq!(take(&mut router, &second), Err(Error::Full));
            assert_eq!((read(router.counts()?), router.taken()), (1, 1));
            router.limit(limit(2));
            take(&mut router, &second)?;
            assert_eq!((read(router.counts()?), router.taken()), (2, 2));
        }
    }
    Ok(())
}

#[test]
fn a_limit_is_taken_away() -> Result<(), Error> {
    for take in WAYS {
        let mut router = fresh()?;
        router.limit(Counts::default());
        assert_eq!(take(&mut router, &load(0, 1)?), Err(Error::Full));
        router.limit(Counts::NO_LIMIT);
        take(&mut router, &load(0, 1)?)?;
        take(&mut router, &issue(2)?)?;
        assert_eq!(router.number(), 2);
    }
    Ok(())
}

#[test]
fn the_error_of_a_limit() {
    let error = io::Error::from(Error::Full);
    assert_eq!(error.kind(), io::ErrorKind::QuotaExceeded);
    assert_eq!(
        error.to_string(),
        "the router would hear of more than its limit"
    );
}

#[test]
fn own_reports_and_digests_pass() -> Result<(), Error> {
    for take in WAYS {
        let mut router = fresh()?;
        router.limit(Counts::default());
        router.loaded(1, 0, 3, Rank(0)..Rank(1))?;
        router.opened(1, 0)?;
        // It tells more than the limit, so a frame that brings nothing new is refused too.
        assert_eq!(take(&mut router, &load(0, 1)?), Err(Error::Full));
        take(&mut router, &DIGEST)?;
        assert_eq!((router.repair()?.count(), router.taken()), (1, 1));
    }
    Ok(())
}

#[test]
fn a_piece_comes_again() -> Result<(), Error> {
    let frame = frame::loaded(1, 0, 3, Rank::new(2, 0)..Rank::new(3, 0))?;
    for cut in 0..frame.len() {
        let (first, last) = frame.split_at(cut);
        let mut router = fresh()?;
        router.limit(Counts::default());
        router.feed(first)?;
        assert_eq!(router.feed(last), Err(Error::Full));
        assert_eq!(router.feed(last), Err(Error::Full));
        assert_eq!(router.route(Rank::new(2, 0)), Some(1));
        router.limit(Counts {
            cells: 1,
            spans: 1,
            ..Counts::default()
        });
        router.feed(last)?;
        assert_eq!(router.route(Rank::new(2, 0)), Some(3));
    }
    Ok(())
}

#[test]
fn frames_that_were_taken() -> Result<(), Error> {
    let mut router = fresh()?;
    assert_eq!(router.taken(), 0);
    let three = [load(0, 1)?, DIGEST.to_vec(), load(4, 5)?].concat();
    router.limit(Counts {
        spans: 1,
        ..Counts::NO_LIMIT
    });
    assert_eq!(router.feed(&three), Err(Error::Full));
    assert_eq!(router.repair().err(), Some(Error::NoDigest));
    assert_eq!(router.taken(), 0);
    router.limit(Counts::NO_LIMIT);
    router.feed(&three)?;
    assert_eq!(router.taken(), 3);
    // Those before a fault count, and nothing after it.
    let faulty = [load(6, 7)?, load(8, 9)?, b"ST".to_vec()].concat();
    assert_eq!(router.feed(&faulty), Err(Error::Frame(FrameFault::Magic)));
    assert_eq!(router.feed(&DIGEST), Err(Error::Failed));
    assert_eq!(router.taken(), 5);
    assert_eq!(router.hear(b"ST"), Err(Error::Frame(FrameFault::Magic)));
    router.hear(&DIGEST)?;
    assert_eq!(router.taken(), 6);
    Ok(())
}
