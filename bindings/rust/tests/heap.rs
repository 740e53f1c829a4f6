//! Partitions and leaders with a heap of this program in the place of the library's, which refuses each
//! allocation of a call in turn.
//!
//! That takes the archive: a shared library has its own heap, and then nothing is refused.

use squall::{Chunk, Counts, Course, Error, Leader, Loaded, Part, Rank, Router, Span, frame};
use std::cell::Cell;
use std::fmt::Debug;
use std::ptr::NonNull;

const OLD: &[u8] = include_bytes!("../../../examples/old.json");
const NEW: &[u8] = include_bytes!("../../../examples/new.json");

thread_local! {
    /// How many allocations were asked for, of which the one with that number is refused.
    static ASKED: Cell<usize> = const { Cell::new(0) };
    static REFUSED: Cell<usize> = const { Cell::new(0) };
    /// How many blocks are allocated now.
    static BLOCKS: Cell<isize> = const { Cell::new(0) };
}

unsafe extern "C" {
    fn malloc(size: usize) -> *mut u8;
    fn realloc(block: *mut u8, size: usize) -> *mut u8;
    fn free(block: *mut u8);
}

#[repr(C)]
pub struct Tried {
    ok: bool,
    block: NonNull<u8>,
}

impl Tried {
    const REFUSED: Tried = Tried {
        ok: false,
        block: NonNull::<u128>::dangling().cast(),
    };

    fn of(block: *mut u8) -> Tried {
        NonNull::new(block).map_or(Tried::REFUSED, |block| Tried { ok: true, block })
    }
}

fn is_refused() -> bool {
    ASKED.set(ASKED.get() + 1);
    ASKED.get() == REFUSED.get()
}

#[unsafe(no_mangle)]
extern "C" fn rattle_alloc(size: usize, align: usize) -> Tried {
    if is_refused() {
        return Tried::REFUSED;
    }
    BLOCKS.set(BLOCKS.get() + 1);
    // SAFETY: any size may be asked for.
    Tried::of(unsafe { malloc(if size != 0 { size } else { align }) })
}

/// # Safety
///
/// The block is one of these functions.
#[unsafe(no_mangle)]
unsafe extern "C" fn rattle_realloc(
    block: *mut u8,
    _kept: usize,
    size: usize,
    align: usize,
) -> Tried {
    if is_refused() {
        return Tried::REFUSED;
    }
    // SAFETY: the caller keeps it.
    Tried::of(unsafe { realloc(block, if size != 0 { size } else { align }) })
}

/// # Safety
///
/// The block is one of these functions.
#[unsafe(no_mangle)]
unsafe extern "C" fn rattle_dealloc(block: *mut u8) {
    BLOCKS.set(BLOCKS.get() - 1);
    // SAFETY: the caller keeps it.
    unsafe { free(block) }
}

/// Whether the library allocates by the functions above: that of an archive does.
fn is_heap_in_use() -> bool {
    ASKED.set(0);
    drop(Course::open(1, OLD, NEW));
    ASKED.get() > 0
}

/// The answer of the call with the allocation of that number refused, and whether it made that one.
fn refusing<T>(number: usize, call: impl FnOnce() -> T) -> (T, bool) {
    ASKED.set(0);
    REFUSED.set(number);
    let answer = call();
    REFUSED.set(0);
    (answer, ASKED.get() >= number)
}

/// Makes the call once for each of its allocations, with that one refused, on a new value each time. After
/// [`Error::NoMemory`] nothing of what is seen has changed, and the same call succeeds. All is freed.
fn refuse_each<V, S: PartialEq + Debug, T>(
    new: impl Fn() -> Result<V, Error>,
    seen: impl Fn(&mut V) -> Result<S, Error>,
    call: impl Fn(&mut V) -> Result<T, Error>,
) -> Result<(), Error> {
    let before = BLOCKS.get();
    let mut refusals = 0;
    let mut number = 0;
    loop {
        number += 1;
        let mut value = new()?;
        let was = seen(&mut value)?;
        let (answer, made) = refusing(number, || call(&mut value).map(drop));
        if answer == Err(Error::NoMemory) {
            refusals += 1;
            assert_eq!(seen(&mut value)?, was);
            call(&mut value)?;
        } else {
            answer?;
        }
        drop(value);
        assert_eq!(BLOCKS.get(), before);
        if !made {
            assert!(refusals > 0 || !is_heap_in_use());
            return Ok(());
        }
    }
}

fn key(root: u32) -> Rank {
    Rank::new(root, 0)
}

/// Partition 3, which has heard that sub-plan 0 is opened and that another one knows nothing.
fn part() -> Result<Part, Error> {
    let course = Course::open(1, OLD, NEW)?;
    let mut part = Part::open(3, &course)?;
    let digest = Part::open(1, &course)?.digest()?.next().unwrap();
    part.hear(&frame::opened(1, 0)?)?;
    part.hear(&digest)?;
    Ok(part)
}

/// What is seen of a partition: the keys that it holds, gave and loaded, and its board.
type SeenPart = ([Vec<Span>; 3], Vec<Vec<u8>>);

fn seen_of_part(part: &mut Part) -> Result<SeenPart, Error> {
    let board = part.board()?.collect();
    Ok(([part.held(), part.given(1), part.loaded(1)], board))
}

#[test]
fn partitions() -> Result<(), Error> {
    let chunk = Chunk {
        lo: key(2),
        hi: key(3),
        number: 1,
        sub: 0,
        source: 1,
        dest: 3,
    };
    let loaded = || {
        let mut part = part()?;
        assert_eq!(part.load(&chunk)?, Loaded::Now);
        Ok(part)
    };
    let done = frame::done(1, 0, 4)?;
    refuse_each(part, seen_of_part, |it| it.hear(&done))?;
    refuse_each(part, seen_of_part, |it| it.feed(&done))?;
    refuse_each(part, seen_of_part, |it| it.give(2))?;
    refuse_each(part, seen_of_part, |it| it.give_at(Rank::new(6, 7)))?;
    refuse_each(part, seen_of_part, |it| it.load(&chunk))?;
    refuse_each(loaded, seen_of_part, |it| it.finish(0))?;
    refuse_each(loaded, seen_of_part, |it| it.board().map(drop))?;
    refuse_each(loaded, seen_of_part, |it| it.digest().map(drop))?;
    refuse_each(loaded, seen_of_part, |it| it.repair().map(drop))
}

#[test]
fn openings() -> Result<(), Error> {
    let course = || Course::open(1, OLD, NEW);
    let number = |it: &mut Course| Ok(it.number());
    refuse_each(course, number, |it| Part::open(3, it))?;
    refuse_each(course, number, |it| Leader::resume(it))?;
    refuse_each(|| Ok(()), |()| Ok(()), |()| Leader::open(OLD, 0))
}

/// A leader that has begun a course, and has heard that another one knows nothing.
fn leader() -> Result<Leader, Error> {
    let mut leader = Leader::open(OLD, 0)?;
    let digest = leader.digest()?.next().unwrap();
    leader.hear(&digest)?;
    leader.begin(NEW)?;
    Ok(leader)
}

/// What is seen of a leader: the number of its course, whether it is over, and its board.
type SeenLeader = (Option<u32>, bool, Vec<Vec<u8>>);

fn seen_of_leader(leader: &mut Leader) -> Result<SeenLeader, Error> {
    let number = leader.course()?.map(|it| it.number());
    Ok((number, leader.finished(), leader.board()?.collect()))
}

#[test]
fn leaders() -> Result<(), Error> {
    let idle = || Leader::open(OLD, 0);
    let done = frame::done(1, 0, 4)?;
    refuse_each(idle, seen_of_leader, |it| it.begin(NEW))?;
    refuse_each(idle, seen_of_leader, |it| it.begin_from(OLD, NEW))?;
    refuse_each(leader, seen_of_leader, |it| it.begin_from(OLD, NEW))?;
    refuse_each(leader, seen_of_leader, |it| it.open_next())?;
    refuse_each(leader, seen_of_leader, |it| it.hear(&done))?;
    refuse_each(leader, seen_of_leader, |it| it.feed(&done))?;
    refuse_each(leader, seen_of_leader, |it| it.board().map(drop))?;
    refuse_each(leader, seen_of_leader, |it| it.digest().map(drop))?;
    refuse_each(leader, seen_of_leader, |it| it.repair().map(drop))
}

/// Routers with a limit: far from it, and at it, so that what the frame joins is counted.
#[test]
fn routers_with_a_limit() -> Result<(), Error> {
    let frame = frame::loaded(1, 0, 3, Rank(1)..Rank(4))?;
    for most in [100, 1] {
        let router = || {
            let mut router = Router::open(1, OLD, NEW)?;
            router.hear(&frame::loaded(1, 0, 3, Rank(0)..Rank(2))?)?;
            router.limit(Counts {
                spans: most,
                ..Counts::NO_LIMIT
            });
            Ok(router)
        };
        let seen = |it: &mut Router| Ok((it.taken(), it.board()?.collect::<Vec<_>>()));
        refuse_each(router, seen, |it| it.hear(&frame))?;
        refuse_each(router, seen, |it| it.feed(&frame))?;
    }
    Ok(())
}

#[test]
fn what_a_router_says_of_itself() -> Result<(), Error> {
    let router = || {
        let mut router = Router::open(1, OLD, NEW)?;
        router.loaded(1, 0, 3, key(2)..key(3))?;
        router.issued(2, OLD)?;
        router.issued(2, NEW)?;
        Ok(router)
    };
    let seen = |it: &mut Router| it.board().map(Vec::from_iter);
    refuse_each(router, seen, |it| it.clashed())?;
    refuse_each(router, seen, |it| it.counts())?;
    refuse_each(router, seen, |it| it.status_text())?;
    refuse_each(router, seen, |it| it.picture())
}
