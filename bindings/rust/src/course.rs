//! Courses, and the partitions of a key in one.

use crate::error::Error;
use crate::ffi::{self, RawCourse};
use crate::frame;
use crate::key::{Leg, Rank, Span};
use crate::room::Room;

/// A numbered change from an old plan to a new one: which keys move, from which partition to which.
///
/// A source gives keys to at most one destination in each *sub-plan*. The sub-plans are worked off one
/// after the other, from 0.
///
/// ```
/// use squall::{Course, Rank};
///
/// let old = br#"{"plan":[{"part":1,"from":[0,0],"to":"end"}]}"#;
/// let new = br#"{"plan":[{"part":1,"from":[0,0],"to":[2,0]},{"part":3,"from":[2,0],"to":"end"}]}"#;
/// let course = Course::open(1, old, new)?;
/// let moves = course.moves();
/// assert_eq!((moves[0].lo, moves[0].hi), (Rank::new(2, 0), Rank::END));
/// assert_eq!((moves[0].source, moves[0].dest, moves[0].sub), (1, 3, 0));
/// assert_eq!(course.receivers(0)?, [3]);
/// # Ok::<(), squall::Error>(())
/// ```
pub struct Course {
    pub(crate) room: Room<RawCourse>,
}

/// The keys from `lo` on, below `hi`, move from a partition to another in a sub-plan.
#[repr(C)]
#[derive(Clone, Copy, Debug, PartialEq, Eq)]
pub struct Move {
    /// The first key.
    pub lo: Rank,
    /// Where the keys end.
    pub hi: Rank,
    /// The partition that gives the keys.
    pub source: u32,
    /// The partition that loads them.
    pub dest: u32,
    /// The sub-plan, from 0.
    pub sub: u32,
}

/// The partitions of a key, as [`View::locate`](crate::View::locate) says them.
#[repr(C)]
#[derive(Clone, Copy, Debug, PartialEq, Eq)]
pub struct Place {
    /// The partition to ask.
    pub part: u32,
    /// The partition of the key in the old plan.
    pub source: u32,
    /// The partition of the key in the new plan.
    pub dest: u32,
    sub: u32,
}

impl Place {
    /// What [`View::locate`](crate::View::locate) writes for a rank that is no key's.
    pub const NO_KEY: Place = Place {
        part: ffi::NOWHERE,
        source: ffi::NOWHERE,
        dest: ffi::NOWHERE,
        sub: ffi::NOWHERE,
    };

    /// The sub-plan in which the key moves. None if it does not move.
    pub fn sub(&self) -> Option<u32> {
        (self.sub != ffi::NOWHERE).then_some(self.sub)
    }

    /// Whether the key stays where it is until another course begins: it does not move, or its load
    /// is known. Not of [`Place::NO_KEY`].
    pub fn is_settled(&self) -> bool {
        self.part == self.dest && self.part != ffi::NOWHERE
    }
}

/// How many moves or ranges are asked for in one call.
const AT_ONCE: usize = 64;

impl Course {
    /// The course `number` from the old plan to the new one. The texts are JSON.
    ///
    /// # Errors
    ///
    /// [`Error::Limit`] if the number is 0, before any text is looked at; [`Error::OldPlan`] or else
    /// [`Error::NewPlan`] if a text is no plan; [`Error::NoMemory`].
    pub fn open(number: u32, old: &[u8], new: &[u8]) -> Result<Course, Error> {
        let (old, old_len) = (old.as_ptr(), old.len());
        let (new, new_len) = (new.as_ptr(), new.len());
        // SAFETY: it opens a course, both slices are readable, and their pointers are not null.
        unsafe {
            Course::open_by(|room| {
                ffi::squall_course_open(number, old, old_len, new, new_len, room);
            })
        }
    }

    /// The course that `open` opens.
    ///
    /// # Safety
    ///
    /// As for [`Room::new`].
    pub(crate) unsafe fn open_by(open: impl FnOnce(*mut RawCourse)) -> Result<Course, Error> {
        // SAFETY: the caller keeps it.
        unsafe { Course::open_if(open) }?.ok_or(Error::Unknown(ffi::CLOSED))
    }

    /// The course that `open` opens; none if there was nothing to open.
    ///
    /// # Safety
    ///
    /// As for [`Room::new`].
    pub(crate) unsafe fn open_if(
        open: impl FnOnce(*mut RawCourse),
    ) -> Result<Option<Course>, Error> {
        // SAFETY: the caller keeps it.
        let room = unsafe { Room::new(open) };
        // SAFETY: the course was opened.
        let (status, at) = unsafe {
            (
                ffi::squall_course_status(room.get()),
                ffi::squall_course_fault_at(room.get()),
            )
        };
        if status == ffi::CLOSED {
            return Ok(None);
        }
        Error::check(status, at)?;
        Ok(Some(Course { room }))
    }

    /// The number of the course, from 1 on.
    pub fn number(&self) -> u32 {
        // SAFETY: the course was opened.
        unsafe { ffi::squall_course_number(self.room.get()) }
    }

    /// How many sub-plans it has: 0 if nothing moves.
    pub fn subplans(&self) -> u32 {
        // SAFETY: the course was opened.
        unsafe { ffi::squall_course_subplans(self.room.get()) }
    }

    /// The moves by rising key. Each key that moves lies in exactly one, and no other key in any.
    pub fn moves(&self) -> Vec<Move> {
        let none = Move {
            lo: Rank::END,
            hi: Rank::END,
            source: 0,
            dest: 0,
            sub: 0,
        };
        all_of(none, |from, block| {
            // SAFETY: the course was opened, and the places are writable.
            unsafe {
                ffi::squall_course_moves(self.room.get(), from, block.as_mut_ptr(), block.len())
            }
        })
    }

    /// The ranges of the old plan by rising key: neighbours have different partitions.
    pub fn old_plan(&self) -> Vec<Leg> {
        all_of(NO_RANGE, |from, block| {
            // SAFETY: the course was opened, and the places are writable.
            unsafe {
                ffi::squall_course_old(self.room.get(), from, block.as_mut_ptr(), block.len())
            }
        })
    }

    /// The ranges of the new plan, likewise.
    pub fn new_plan(&self) -> Vec<Leg> {
        all_of(NO_RANGE, |from, block| {
            // SAFETY: the course was opened, and the places are writable.
            unsafe {
                ffi::squall_course_new(self.room.get(), from, block.as_mut_ptr(), block.len())
            }
        })
    }

    /// The old plan as a JSON text: its ranges by rising key, without spaces. It reads as the same plan.
    ///
    /// # Errors
    ///
    /// [`Error::NoMemory`].
    pub fn old_text(&self) -> Result<String, Error> {
        frame::text(Error::NoMemory, |out, room| {
            // SAFETY: the course was opened, and the places are writable.
            unsafe { ffi::squall_course_old_text(self.room.get(), out, room) }
        })
    }

    /// The new plan, as [`Course::old_text`] is the old one.
    ///
    /// # Errors
    ///
    /// [`Error::NoMemory`].
    pub fn new_text(&self) -> Result<String, Error> {
        frame::text(Error::NoMemory, |out, room| {
            // SAFETY: the course was opened, and the places are writable.
            unsafe { ffi::squall_course_new_text(self.room.get(), out, room) }
        })
    }

    /// The plan of where the course leaves the keys if it ends early, as a JSON text:
    /// [`Leader::begin_from`](crate::Leader::begin_from) begins the next course from it. A key of the spans
    /// is loaded, and at its new partition. Any other is at its old one. The spans may overlap, and come
    /// in any order.
    ///
    /// ```
    /// # use squall::{Course, Rank, Span};
    /// # let old = br#"{"plan":[{"part":1,"from":[0,0],"to":"end"}]}"#;
    /// # let new = br#"{"plan":[{"part":1,"from":[0,0],"to":[2,0]},{"part":3,"from":[2,0],"to":"end"}]}"#;
    /// // All keys from 2:0 on move from 1 to 3. Those below 4:0 are loaded.
    /// let course = Course::open(1, old, new)?;
    /// let loaded = Span { lo: Rank::new(2, 0), hi: Rank::new(4, 0) };
    /// let left = course.left(&[loaded])?;
    /// assert!(left.contains(r#"{"from":[2,0],"part":3,"to":[4,0]}"#));
    /// // They go back by course 2.
    /// let back = Course::open(2, left.as_bytes(), old)?;
    /// assert_eq!((back.moves()[0].source, back.moves()[0].dest), (3, 1));
    /// # Ok::<(), squall::Error>(())
    /// ```
    ///
    /// # Errors
    ///
    /// [`Error::Limit`] if a span has no keys or ends above [`Rank::END`], or if the plan would have more
    /// than 4096 ranges; [`Error::NoMemory`].
    pub fn left(&self, loaded: &[Span]) -> Result<String, Error> {
        frame::text(Error::Limit, |out, room| {
            let (spans, count) = (loaded.as_ptr(), loaded.len());
            // SAFETY: the course was opened, the spans are readable, and the places are writable.
            unsafe { ffi::squall_course_left(self.room.get(), spans, count, out, room) }
        })
    }

    /// The frame of the report that this course was issued: a router that hears it knows the course.
    ///
    /// # Errors
    ///
    /// [`Error::NoMemory`].
    pub fn frame(&self) -> Result<Vec<u8>, Error> {
        frame::written(Error::NoMemory, |out, room| {
            // SAFETY: the course was opened, and the places are writable.
            unsafe { ffi::squall_course_frame(self.room.get(), out, room) }
        })
    }

    /// The partitions to which keys move in the sub-plan, by rising number.
    ///
    /// # Errors
    ///
    /// [`Error::NoMemory`].
    pub fn receivers(&self, sub: u32) -> Result<Vec<u32>, Error> {
        let (mut parts, mut from) = (vec![0; AT_ONCE], 0);
        loop {
            let left = &mut parts[from..];
            let (out, room) = (left.as_mut_ptr(), left.len());
            // SAFETY: the course was opened, and the places are writable.
            let count =
                unsafe { ffi::squall_course_receivers(self.room.get(), sub, from, out, room) };
            if count == usize::MAX {
                return Err(Error::NoMemory);
            }
            from += count;
            if count < room {
                parts.truncate(from);
                return Ok(parts);
            }
            parts.resize(from * 2, 0);
        }
    }
}

const NO_RANGE: Leg = Leg {
    lo: Rank::END,
    hi: Rank::END,
    part: 0,
};

/// All items, by calls of `fill`, which writes as many as there is room for, from the place of its
/// argument on, and says how many.
pub(crate) fn all_of<T: Copy>(none: T, fill: impl Fn(usize, &mut [T; AT_ONCE]) -> usize) -> Vec<T> {
    let mut block = [none; AT_ONCE];
    let mut items = Vec::new();
    loop {
        let count = fill(items.len(), &mut block);
        items.extend_from_slice(&block[..count]);
        if count < AT_ONCE {
            return items;
        }
    }
}
