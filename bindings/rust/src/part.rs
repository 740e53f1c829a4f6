//! Partitions.

use crate::course::{Course, all_of};
use crate::errand::Reply;
use crate::error::Error;
use crate::ffi::{self, RawAnswer, RawPart};
use crate::frames::{Frames, NO_LIMIT};
use crate::key::{Rank, Span};
use crate::room::Room;

/// Keeps which keys a partition holds, gave and loaded, and not their rows: these stay with the host.
///
/// The source of a move gives its keys in chunks. The host sends each [`Chunk`] with its rows to the
/// destination, which loads it and finishes once it has all. Both reply to requests meanwhile.
///
/// **After a crash.** The host makes each call in the transaction in which it moves the rows, or keeps a
/// log of the calls that were answered [`Ok`]. The same calls, made of a new partition of the same course,
/// lead to the same partition.
///
/// ```
/// use squall::{Course, Loaded, Part, Rank, Reply, frame};
///
/// let old = br#"{"plan":[{"part":1,"from":[0,0],"to":"end"}]}"#;
/// let new = br#"{"plan":[{"part":1,"from":[0,0],"to":[2,0]},{"part":3,"from":[2,0],"to":"end"}]}"#;
/// let course = Course::open(1, old, new)?;
/// let (mut source, mut dest) = (Part::open(1, &course)?, Part::open(3, &course)?);
/// source.hear(&frame::opened(1, 0)?)?;
/// dest.hear(&frame::opened(1, 0)?)?;
///
/// let chunk = source.give(u64::MAX)?; // travels with its rows to partition `chunk.dest`
/// let key = Rank::new(2, 7);
/// assert_eq!(source.serve(key, 0)?, Reply::Moved { dest: 3, number: 1 });
/// assert_eq!(dest.load(&chunk)?, Loaded::Now);
/// assert_eq!(dest.serve(key, 1)?, Reply::Held);
/// dest.finish(0)?;
/// # Ok::<(), squall::Error>(())
/// ```
pub struct Part {
    room: Room<RawPart>,
}

/// The keys from `lo` on, below `hi`, on their way from a partition to another. The host sends their
/// rows and these numbers to `dest`.
#[repr(C)]
#[derive(Clone, Copy, Debug, PartialEq, Eq)]
pub struct Chunk {
    /// The first key.
    pub lo: Rank,
    /// Where the keys end.
    pub hi: Rank,
    /// The course's number.
    pub number: u32,
    /// The sub-plan, from 0.
    pub sub: u32,
    /// The partition that gave the keys.
    pub source: u32,
    /// The partition that is to load them.
    pub dest: u32,
}

/// What [`Part::load`] found.
#[derive(Clone, Copy, Debug, PartialEq, Eq)]
pub enum Loaded {
    /// Keys of the chunk were not loaded before. They are now: keep their rows.
    Now,
    /// Each key of the chunk was loaded before, even if it was given since: drop the rows. Nothing
    /// changed.
    Before,
}

/// What a call writes a chunk over.
const NO_CHUNK: Chunk = Chunk {
    lo: Rank::END,
    hi: Rank::END,
    number: 0,
    sub: 0,
    source: 0,
    dest: 0,
};

/// What a call writes a span over.
const NO_SPAN: Span = Span {
    lo: Rank::END,
    hi: Rank::END,
};

impl Part {
    /// Partition `id` with the keys that the old plan of the course gives it, and nothing heard. The
    /// course is shared.
    ///
    /// # Errors
    ///
    /// [`Error::Limit`] if the id is above 9999; [`Error::NoMemory`].
    pub fn open(id: u32, course: &Course) -> Result<Part, Error> {
        // SAFETY: it opens a partition, of a course that was opened.
        let room = unsafe { Room::new(|room| ffi::squall_part_open(id, course.room.get(), room)) };
        // SAFETY: the partition was opened.
        check(unsafe { ffi::squall_part_status(room.get()) })?;
        Ok(Part { room })
    }

    /// Takes the next bytes of a stream of frames, which may be cut anywhere. Deltas are taken as
    /// reports; the last digest is kept for [`Part::repair`].
    ///
    /// # Errors
    ///
    /// [`Error::Frame`] if bytes are no frame: the messages before them were taken, and from now on
    /// the answer is [`Error::Failed`]. Such a call belongs into a log too. [`Error::NoMemory`], after
    /// which the same bytes may be fed again.
    pub fn feed(&mut self, bytes: &[u8]) -> Result<(), Error> {
        let part = self.room.get_mut();
        // SAFETY: the partition was opened, and the slice is readable.
        check(unsafe { ffi::squall_part_feed(part, bytes.as_ptr(), bytes.len()) })
    }

    /// How many bytes that [`Part::feed`] took wait for the rest of their frame: 0 if none do, or if a
    /// fault has ended the stream. If it is above 0 when the stream ends, the stream was cut within a frame.
    pub fn waiting(&self) -> usize {
        // SAFETY: the partition was opened.
        unsafe { ffi::squall_part_waiting(self.room.get()) }
    }

    /// Takes one whole frame, no more and no less. A delta is taken as reports; a digest is kept for
    /// [`Part::repair`]. It has nothing to do with the stream of [`Part::feed`].
    ///
    /// # Errors
    ///
    /// [`Error::Frame`] if the bytes are no frame: the next frame may come. [`Error::NoMemory`].
    pub fn hear(&mut self, frame: &[u8]) -> Result<(), Error> {
        let part = self.room.get_mut();
        // SAFETY: the partition was opened, and the slice is readable.
        check(unsafe { ffi::squall_part_hear(part, frame.as_ptr(), frame.len()) })
    }

    /// Gives the first keys, at most `max`, of those that go out in the sub-plan opened last and that the
    /// partition still holds. It holds them no longer.
    ///
    /// # Errors
    ///
    /// [`Error::Part`]: [`Ended`](crate::PartFault::Ended) if its newest course was closed by
    /// [`close_course`](Self::close_course); [`NotOpen`](crate::PartFault::NotOpen) if no sub-plan of it
    /// is opened; [`NothingLeft`](crate::PartFault::NothingLeft) if it holds no such key;
    /// [`ZeroMax`](crate::PartFault::ZeroMax) if `max` is 0. [`Error::NoMemory`].
    pub fn give(&mut self, max: u64) -> Result<Chunk, Error> {
        let mut chunk = NO_CHUNK;
        // SAFETY: the partition was opened, and the place is writable.
        check(unsafe { ffi::squall_part_give(self.room.get_mut(), max, &mut chunk) })?;
        Ok(chunk)
    }

    /// Gives the key of that rank, likewise.
    ///
    /// # Errors
    ///
    /// [`Error::Limit`] if the rank is no key's. [`Error::Part`] with the first of these that is so:
    /// [`Ended`](crate::PartFault::Ended); [`NotOpen`](crate::PartFault::NotOpen);
    /// [`NotOutgoing`](crate::PartFault::NotOutgoing) if the key does not go out in the sub-plan opened
    /// last; [`Given`](crate::PartFault::Given) if it was given before;
    /// [`NotHeld`](crate::PartFault::NotHeld) if it is not held. [`Error::NoMemory`].
    pub fn give_at(&mut self, key: Rank) -> Result<Chunk, Error> {
        let mut chunk = NO_CHUNK;
        // SAFETY: the partition was opened, and the place is writable.
        check(unsafe { ffi::squall_part_give_at(self.room.get_mut(), key.0, &mut chunk) })?;
        Ok(chunk)
    }

    /// Takes a chunk. Its keys that were not loaded under its number are loaded and held now, and the
    /// partition reports the load of the whole chunk, of which [`frame::loaded`](crate::frame::loaded)
    /// makes the frame.
    ///
    /// # Errors
    ///
    /// [`Error::Part`]: [`NotOpen`](crate::PartFault::NotOpen) if its sub-plan is not opened under its
    /// course; [`Stranger`](crate::PartFault::Stranger) if its course is not known, or does not bring
    /// these keys from `source` to this partition in that sub-plan. [`Error::Limit`] if there is no such
    /// chunk: a number 0, a sub-plan or partition above 9999, a rank above [`Rank::END`], or no keys.
    /// [`Error::NoMemory`].
    pub fn load(&mut self, chunk: &Chunk) -> Result<Loaded, Error> {
        // SAFETY: the partition was opened, and the chunk is readable.
        match unsafe { ffi::squall_part_load(self.room.get_mut(), chunk) } {
            ffi::LOADED_BEFORE => Ok(Loaded::Before),
            status => check(status).map(|()| Loaded::Now),
        }
    }

    /// The spans of the keys of the chunk that are new here, by rising key: neither loaded under its
    /// number nor held. Put the chunk's rows of these keys in place before [`load`](Self::load), and no
    /// others: the partition may have changed the row of any other key since.
    ///
    /// # Errors
    ///
    /// As [`load`](Self::load) refuses the chunk.
    pub fn fresh(&self, chunk: &Chunk) -> Result<Vec<Span>, Error> {
        let mut spans = Vec::new();
        let mut from = 0;
        loop {
            let mut span = NO_SPAN;
            // SAFETY: the partition was opened, the chunk is readable, and the place is writable.
            check(unsafe { ffi::squall_part_fresh(self.room.get(), chunk, from, &mut span) })?;
            if span.lo == span.hi {
                return Ok(spans);
            }
            from = span.hi.0;
            spans.push(span);
        }
    }

    /// Reports that the partition has all keys that the sub-plan of its newest course brings it.
    /// [`frame::done`](crate::frame::done) makes the frame of that. A repeat reports the same.
    ///
    /// # Errors
    ///
    /// [`Error::Part`] with the first of these that is so: [`NotOpen`](crate::PartFault::NotOpen) if the
    /// sub-plan is not opened; [`NotAll`](crate::PartFault::NotAll) if keys are missing;
    /// [`NothingDue`](crate::PartFault::NothingDue) if no key comes in. [`Error::NoMemory`].
    pub fn finish(&mut self, sub: u32) -> Result<(), Error> {
        // SAFETY: the partition was opened.
        check(unsafe { ffi::squall_part_finish(self.room.get_mut(), sub) })
    }

    /// Ends what the partition gives in the newest course that it knows, and says the number of that
    /// course. [`give`](Self::give) and [`give_at`](Self::give_at) answer
    /// [`Ended`](crate::PartFault::Ended) then, until it hears of a newer course. It loads as before. A
    /// repeat changes nothing. Write the call to the log before the number is passed on.
    pub fn close_course(&mut self) -> u32 {
        // SAFETY: the partition was opened.
        unsafe { ffi::squall_part_close_course(self.room.get_mut()) }
    }

    /// Whether the partition gives no more under the number. Not if it has not heard of that course.
    pub fn course_closed(&self, number: u32) -> bool {
        // SAFETY: the partition was opened.
        unsafe { ffi::squall_part_course_closed(self.room.get(), number) == 1 }
    }

    /// The reply to a request for the key, which [`Errand::heed`](crate::Errand::heed) takes. `after` is
    /// what [`Errand::number`](crate::Errand::number) says: the number of the [`Reply::Moved`] that the
    /// request followed to this partition, or 0.
    ///
    /// # Errors
    ///
    /// [`Error::Limit`] if the rank is no key's.
    pub fn serve(&self, key: Rank, after: u32) -> Result<Reply, Error> {
        let mut answer = RawAnswer::default();
        // SAFETY: the partition was opened, and the place is writable.
        check(unsafe { ffi::squall_part_serve(self.room.get(), key.0, after, &mut answer) })?;
        Reply::of(answer)
    }

    /// The spans of the keys that the partition holds, by rising key: neighbours do not touch.
    pub fn held(&self) -> Vec<Span> {
        all_of(NO_SPAN, |from, block| {
            // SAFETY: the partition was opened, and the places are writable.
            unsafe { ffi::squall_part_held(self.room.get(), from, block.as_mut_ptr(), block.len()) }
        })
    }

    /// The spans of the keys that it gave under the number, likewise: none if it does not know the
    /// course.
    pub fn given(&self, number: u32) -> Vec<Span> {
        all_of(NO_SPAN, |from, block| {
            let (out, room) = (block.as_mut_ptr(), block.len());
            // SAFETY: the partition was opened, and the places are writable.
            unsafe { ffi::squall_part_given(self.room.get(), number, from, out, room) }
        })
    }

    /// The spans of the keys that it loaded under the number, likewise.
    pub fn loaded(&self, number: u32) -> Vec<Span> {
        all_of(NO_SPAN, |from, block| {
            let (out, room) = (block.as_mut_ptr(), block.len());
            // SAFETY: the partition was opened, and the places are writable.
            unsafe { ffi::squall_part_loaded(self.room.get(), number, from, out, room) }
        })
    }

    /// The frames of all that the partition knows and reports.
    ///
    /// # Errors
    ///
    /// [`Error::NoMemory`].
    pub fn board(&mut self) -> Result<Frames<'_>, Error> {
        self.board_within(NO_LIMIT)
    }

    /// The same in frames of at most `limit` bytes each, for a transport that limits its messages.
    ///
    /// # Errors
    ///
    /// [`Error::TooLong`] if a single report needs a longer frame, and then the frames that waited still
    /// do. A limit of 98,337 bytes is enough for any report, and one of 49 for all but courses.
    /// [`Error::NoMemory`].
    pub fn board_within(&mut self, limit: usize) -> Result<Frames<'_>, Error> {
        // SAFETY: the partition was opened.
        check(unsafe { ffi::squall_part_gather_board(self.room.get_mut(), limit) })?;
        Ok(Frames::of(&mut self.room))
    }

    /// The frame of a digest of that, by which another one can tell what this one lacks.
    ///
    /// # Errors
    ///
    /// [`Error::TooLong`] if it has more rows than a frame holds; [`Error::NoMemory`].
    pub fn digest(&mut self) -> Result<Frames<'_>, Error> {
        self.digest_within(NO_LIMIT)
    }

    /// The same in a frame of at most `limit` bytes.
    ///
    /// # Errors
    ///
    /// [`Error::TooLong`] if it has more bytes, since a digest is not cut; [`Error::NoMemory`].
    pub fn digest_within(&mut self, limit: usize) -> Result<Frames<'_>, Error> {
        // SAFETY: the partition was opened.
        check(unsafe { ffi::squall_part_gather_digest(self.room.get_mut(), limit) })?;
        Ok(Frames::of(&mut self.room))
    }

    /// The frames of what the digest that was heard last does not show.
    ///
    /// # Errors
    ///
    /// [`Error::NoDigest`] if none was heard; [`Error::NoMemory`].
    pub fn repair(&mut self) -> Result<Frames<'_>, Error> {
        self.repair_within(NO_LIMIT)
    }

    /// The same in frames of at most `limit` bytes each.
    ///
    /// # Errors
    ///
    /// [`Error::TooLong`] as of `board_within`; [`Error::NoDigest`] if none was heard;
    /// [`Error::NoMemory`].
    pub fn repair_within(&mut self, limit: usize) -> Result<Frames<'_>, Error> {
        // SAFETY: the partition was opened.
        check(unsafe { ffi::squall_part_gather_repair(self.room.get_mut(), limit) })?;
        Ok(Frames::of(&mut self.room))
    }
}

/// The error of a status, if it is one. No call of a partition reads a plan.
fn check(status: u32) -> Result<(), Error> {
    Error::check(status, u64::MAX)
}
