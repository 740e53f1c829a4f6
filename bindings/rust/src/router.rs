//! Routers.

use crate::course::Course;
use crate::errand::Errand;
use crate::error::Error;
use crate::ffi::{self, RawRouter};
use crate::frames::{Frames, NO_LIMIT};
use crate::key::{Leg, Rank, all_legs};
use crate::room::Room;
use crate::told::Counts;
use crate::view::View;
use std::ops::Range;

/// Says for each key which partition to ask, by an old and a new plan and the reports that it took.
///
/// Reports may come in any order and more than once: routers that took the same reports say the
/// same.
pub struct Router {
    pub(crate) room: Room<RawRouter>,
}

impl Router {
    /// A router of the course `number` from the old plan to the new one, which has taken no report.
    /// The texts are JSON.
    ///
    /// # Errors
    ///
    /// [`Error::Limit`] where the number is 0, before any text is looked at; [`Error::OldPlan`] or
    /// else [`Error::NewPlan`] where a text is no plan; [`Error::NoMemory`].
    pub fn open(number: u32, old: &[u8], new: &[u8]) -> Result<Router, Error> {
        // SAFETY: both slices are readable, and their pointers are not null.
        let room = unsafe {
            Room::new(|room| {
                ffi::squall_router_open(
                    number,
                    old.as_ptr(),
                    old.len(),
                    new.as_ptr(),
                    new.len(),
                    room,
                )
            })
        };
        let router = Router { room };
        // SAFETY: the router was opened.
        router.check(unsafe { ffi::squall_router_status(router.room.get()) })?;
        Ok(router)
    }

    /// The error of a status, if it is one.
    fn check(&self, status: u32) -> Result<(), Error> {
        // SAFETY: the router was opened.
        Error::check(status, unsafe {
            ffi::squall_router_fault_at(self.room.get())
        })
    }

    /// Takes the report that partition `part` has loaded the keys in sub-plan `sub` of course
    /// `number`.
    ///
    /// # Errors
    ///
    /// [`Error::Limit`] where there is no such report: a number 0, a sub-plan or partition above
    /// 9999, a rank above [`Rank::END`], or no keys; [`Error::NoMemory`].
    pub fn loaded(
        &mut self,
        number: u32,
        sub: u32,
        part: u32,
        keys: Range<Rank>,
    ) -> Result<(), Error> {
        let router = self.room.get_mut();
        let (lo, hi) = (keys.start.0, keys.end.0);
        // SAFETY: the router was opened.
        self.check(unsafe { ffi::squall_router_loaded(router, number, sub, part, lo, hi) })
    }

    /// Takes the report that the partition has all the keys that the sub-plan brings it.
    ///
    /// # Errors
    ///
    /// As [`Router::loaded`].
    pub fn done(&mut self, number: u32, sub: u32, part: u32) -> Result<(), Error> {
        let router = self.room.get_mut();
        // SAFETY: the router was opened.
        self.check(unsafe { ffi::squall_router_done(router, number, sub, part) })
    }

    /// Takes the report that the sub-plan has been opened, and all those before it. This changes no
    /// route.
    ///
    /// # Errors
    ///
    /// As [`Router::loaded`].
    pub fn opened(&mut self, number: u32, sub: u32) -> Result<(), Error> {
        let router = self.room.get_mut();
        // SAFETY: the router was opened.
        self.check(unsafe { ffi::squall_router_opened(router, number, sub) })
    }

    /// Takes the report that course `number` leads from the new plan of [`Router::open`] to this
    /// one.
    ///
    /// # Errors
    ///
    /// [`Error::Limit`] where the number is 0; [`Error::NewPlan`] where the text is no plan;
    /// [`Error::NoMemory`].
    pub fn issued(&mut self, number: u32, plan: &[u8]) -> Result<(), Error> {
        let router = self.room.get_mut();
        // SAFETY: the router was opened, and the slice is readable.
        let status =
            unsafe { ffi::squall_router_issued(router, number, plan.as_ptr(), plan.len()) };
        self.check(status)
    }

    /// Takes the next bytes of a stream of frames, which may be cut anywhere. Deltas are taken as
    /// reports; the last digest is kept for [`Router::repair`].
    ///
    /// # Errors
    ///
    /// [`Error::Frame`] where bytes are no frame: the messages before them were taken, and from now
    /// on the answer is [`Error::Failed`]. [`Error::Full`] if the router would tell more than
    /// [`Router::limit`] allows, and [`Error::NoMemory`]: after both the same bytes may be fed again.
    pub fn feed(&mut self, bytes: &[u8]) -> Result<(), Error> {
        let router = self.room.get_mut();
        // SAFETY: the router was opened, and the slice is readable.
        self.check(unsafe { ffi::squall_router_feed(router, bytes.as_ptr(), bytes.len()) })
    }

    /// How many bytes that [`Router::feed`] took wait for the rest of their frame: 0 if none do, or if a
    /// fault has ended the stream. If it is above 0 when the stream ends, the stream was cut within a frame.
    pub fn waiting(&self) -> usize {
        // SAFETY: the router was opened.
        unsafe { ffi::squall_router_waiting(self.room.get()) }
    }

    /// Takes one whole frame, no more and no less, for transports that keep messages apart. It has
    /// nothing to do with the stream of [`Router::feed`].
    ///
    /// # Errors
    ///
    /// [`Error::Frame`] if the bytes are no frame; [`Error::Full`] if the router would tell more than
    /// [`Router::limit`] allows; [`Error::NoMemory`]. Nothing has changed then, and the next frame may
    /// come.
    pub fn hear(&mut self, frame: &[u8]) -> Result<(), Error> {
        let router = self.room.get_mut();
        // SAFETY: the router was opened, and the slice is readable.
        self.check(unsafe { ffi::squall_router_hear(router, frame.as_ptr(), frame.len()) })
    }

    /// Sets the most that the router may tell after a frame, as [`Router::counts`] counts it. From
    /// then on [`Router::feed`] and [`Router::hear`] answer [`Error::Full`], and nothing changes, if
    /// it would tell more with the deltas that the bytes bring. That is so too if it tells more
    /// already, and they bring nothing new.
    ///
    /// Digests are never refused, and the reports of [`Router::loaded`] and its like are not limited.
    /// [`Counts::NO_LIMIT`] takes the limit away. At first there is none.
    ///
    /// ```
    /// use squall::{Counts, Error, Rank, Router, frame};
    ///
    /// let plan = br#"{"plan":[{"part":1,"from":[0,0],"to":"end"}]}"#;
    /// let mut router = Router::open(1, plan, plan)?;
    /// router.limit(Counts { spans: 1, ..Counts::NO_LIMIT });
    /// router.hear(&frame::loaded(1, 0, 3, Rank(0)..Rank(5))?)?;
    /// let more = frame::loaded(1, 0, 3, Rank(7)..Rank(9))?;
    /// assert_eq!(router.hear(&more), Err(Error::Full));
    /// router.limit(Counts::NO_LIMIT);
    /// router.hear(&more)?;
    /// # Ok::<(), Error>(())
    /// ```
    pub fn limit(&mut self, most: Counts) {
        let Counts {
            cells,
            spans,
            opened,
            issues,
        } = most;
        let router = self.room.get_mut();
        // SAFETY: the router was opened.
        let status = unsafe { ffi::squall_router_limit(router, cells, spans, opened, issues) };
        self.check(status)
            .expect("a router that is open takes any limit");
    }

    /// How many frames it has taken by [`Router::feed`] and [`Router::hear`], boards and digests. It
    /// stops at the greatest number.
    pub fn taken(&self) -> u64 {
        // SAFETY: the router was opened.
        unsafe { ffi::squall_router_taken(self.room.get()) }
    }

    /// The partition to ask for the key of that rank; none where the rank is no key's.
    pub fn route(&self, key: Rank) -> Option<u32> {
        // SAFETY: the router was opened.
        let part = unsafe { ffi::squall_router_route(self.room.get(), key.0) };
        (part != ffi::NOWHERE).then_some(part)
    }

    /// The legs of the keys, by rising key: neighbours have different partitions. None where there
    /// are no keys or a rank is above [`Rank::END`].
    pub fn legs(&self, keys: Range<Rank>) -> Vec<Leg> {
        let router = self.room.get();
        let hi = keys.end;
        all_legs(keys.start, hi, |lo, block| {
            // SAFETY: the router was opened, and the places are writable.
            unsafe { ffi::squall_router_legs(router, lo.0, hi.0, block.as_mut_ptr(), block.len()) }
        })
    }

    /// The number of the course by which routes go: the greatest for which one pair of plans is
    /// known.
    pub fn number(&self) -> u32 {
        // SAFETY: the router was opened.
        unsafe { ffi::squall_router_number(self.room.get()) }
    }

    /// The frames of all that the router was told.
    ///
    /// # Errors
    ///
    /// [`Error::NoMemory`].
    pub fn board(&mut self) -> Result<Frames<'_>, Error> {
        self.board_within(NO_LIMIT)
    }

    /// The same in frames of at most `limit` bytes each, for a transport that limits its messages.
    ///
    /// # Errors
    ///
    /// [`Error::TooLong`] if a single report needs a longer frame, and then the frames that waited still
    /// do. A limit of 98,337 bytes is enough for any report, and one of 49 for all but courses.
    /// [`Error::NoMemory`].
    pub fn board_within(&mut self, limit: usize) -> Result<Frames<'_>, Error> {
        let router = self.room.get_mut();
        // SAFETY: the router was opened.
        self.check(unsafe { ffi::squall_router_gather_board(router, limit) })?;
        Ok(Frames::of(&mut self.room))
    }

    /// The frame of a digest of all that the router was told, by which another one can tell what
    /// this one lacks.
    ///
    /// # Errors
    ///
    /// [`Error::TooLong`] if it has more rows than a frame holds; [`Error::NoMemory`].
    pub fn digest(&mut self) -> Result<Frames<'_>, Error> {
        self.digest_within(NO_LIMIT)
    }

    /// The same in a frame of at most `limit` bytes.
    ///
    /// # Errors
    ///
    /// [`Error::TooLong`] if it has more bytes, since a digest is not cut; [`Error::NoMemory`].
    pub fn digest_within(&mut self, limit: usize) -> Result<Frames<'_>, Error> {
        let router = self.room.get_mut();
        // SAFETY: the router was opened.
        self.check(unsafe { ffi::squall_router_gather_digest(router, limit) })?;
        Ok(Frames::of(&mut self.room))
    }

    /// The frames of what the digest that was fed last does not show.
    ///
    /// # Errors
    ///
    /// [`Error::NoDigest`] if none was fed; [`Error::NoMemory`].
    pub fn repair(&mut self) -> Result<Frames<'_>, Error> {
        self.repair_within(NO_LIMIT)
    }

    /// The same in frames of at most `limit` bytes each.
    ///
    /// # Errors
    ///
    /// [`Error::TooLong`] as of `board_within`; [`Error::NoDigest`] if none was fed;
    /// [`Error::NoMemory`].
    pub fn repair_within(&mut self, limit: usize) -> Result<Frames<'_>, Error> {
        let router = self.room.get_mut();
        // SAFETY: the router was opened.
        self.check(unsafe { ffi::squall_router_gather_repair(router, limit) })?;
        Ok(Frames::of(&mut self.room))
    }

    /// A view of what the router says now. This copies the router's table.
    ///
    /// # Errors
    ///
    /// [`Error::NoMemory`].
    pub fn view(&self) -> Result<View, Error> {
        // SAFETY: the router was opened.
        unsafe { View::open(|room| ffi::squall_view_open(self.room.get(), room)) }
    }

    /// The course by which its routes go: its newest. It stays as it is, whatever the router takes
    /// later. Nothing is copied.
    ///
    /// # Errors
    ///
    /// [`Error::NoMemory`] if the course has more owners than can be counted.
    pub fn course(&self) -> Result<Course, Error> {
        // SAFETY: it opens a course, of a router that was opened.
        unsafe { Course::open_by(|room| ffi::squall_course_newest(self.room.get(), room)) }
    }

    /// The course with which it was opened.
    ///
    /// # Errors
    ///
    /// As [`Router::course`].
    pub fn first_course(&self) -> Result<Course, Error> {
        // SAFETY: it opens a course, of a router that was opened.
        unsafe { Course::open_by(|room| ffi::squall_course_first(self.room.get(), room)) }
    }

    /// An errand for the key, which begins at the partition to which the router routes it now.
    ///
    /// # Errors
    ///
    /// [`Error::Limit`] where the rank is no key's.
    pub fn errand(&self, key: Rank) -> Result<Errand, Error> {
        // SAFETY: the router was opened.
        unsafe { Errand::open(|room| ffi::squall_errand_start(self.room.get(), key.0, room)) }
    }
}
