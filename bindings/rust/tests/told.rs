//! What a router says of itself, and what changes between two views, by the worked examples.

use squall::{Counts, Error, Rank, Router, Span};
use std::thread;

const OLD: &[u8] = include_bytes!("../../../examples/old.json");
const NEW: &[u8] = include_bytes!("../../../examples/new.json");

fn key(root: u32) -> Rank {
    Rank::new(root, 0)
}

#[test]
fn numbers_and_clashes() -> Result<(), Error> {
    let mut router = Router::open(1, OLD, NEW)?;
    assert_eq!(router.counts()?, Counts::default());
    router.loaded(1, 0, 3, key(2)..key(3))?;
    router.opened(1, 0)?;
    router.issued(2, OLD)?;
    assert!(!router.clashed()?);
    router.issued(2, NEW)?;
    assert!(router.clashed()?);
    let counts = Counts {
        cells: 1,
        spans: 1,
        opened: 1,
        issues: 1,
    };
    assert_eq!(router.counts()?, counts);
    Ok(())
}

#[test]
fn lines_and_a_picture() -> Result<(), Error> {
    let mut router = Router::open(1, OLD, NEW)?;
    router.done(1, 0, 3)?;
    let text = router.status_text()?;
    assert!(
        text.starts_with("course 1 moves 1 of 2 sub-plans 0 of 1 open none loaded 4294967296 of ")
    );
    assert!(text.ends_with("move [6:0,9:0) 3 to 4 sub 0 not started\n"));
    let picture = router.picture()?;
    assert!(picture.starts_with("<svg ") && picture.ends_with("</svg>\n"));
    Ok(())
}

#[test]
fn changes_of_views() -> Result<(), Error> {
    let mut router = Router::open(1, OLD, NEW)?;
    let before = router.view()?;
    assert_eq!(before.changes(&before, Rank(0)..Rank::END), []);
    for at in 0..100 {
        let (lo, hi) = (Rank::new(2, 2 * at), Rank::new(2, 2 * at + 1));
        router.loaded(1, 0, 3, lo..hi)?;
    }
    let after = router.view()?;
    assert_eq!(before.changes(&before.clone(), Rank(0)..Rank::END), []);
    let spans = before.changes(&after, Rank(0)..Rank::END);
    assert_eq!(spans.len(), 100);
    let last = Span {
        lo: Rank::new(2, 198),
        hi: Rank::new(2, 199),
    };
    assert_eq!(spans[99], last);
    assert_eq!(after.changes(&before, Rank::new(2, 197)..Rank::END), [last]);
    Ok(())
}

#[test]
fn changes_of_views_that_threads_share() -> Result<(), Error> {
    let mut router = Router::open(1, OLD, NEW)?;
    let before = router.view()?;
    router.loaded(1, 0, 3, key(2)..key(3))?;
    let after = router.view()?;
    let wanted = [Span {
        lo: key(2),
        hi: key(3),
    }];
    thread::scope(|scope| {
        for _ in 0..4 {
            scope.spawn(|| {
                for _ in 0..50 {
                    assert_eq!(before.changes(&after, Rank(0)..Rank::END), wanted);
                    assert_eq!(after.changes(&before, Rank(0)..Rank::END), wanted);
                    assert_eq!(before.clone().route(key(2)), Some(1));
                }
            });
        }
    });
    assert_eq!(before.changes(&after, key(3)..key(2)), []);
    assert_eq!(before.changes(&after, Rank(0)..Rank(u64::MAX)), wanted);
    assert_eq!(before.changes(&after, Rank::END..Rank(u64::MAX)), []);
    Ok(())
}
