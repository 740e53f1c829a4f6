//! Leaders.

use crate::course::Course;
use crate::error::{Error, LeaderFault};
use crate::ffi::{self, RawLeader};
use crate::frames::{Frames, NO_LIMIT};
use crate::room::Room;

/// Begins one course after another and opens their sub-plans, one at a time. It hears from partitions
/// what is done, and sends all that it knows.
///
/// Only one leader may run at a time: to choose it is the host's task.
///
/// **After a crash.** The host keeps a log of the calls that were answered [`Ok`], and writes each before
/// its frames are sent. The same calls, made of a new leader of the same plan and number, lead to the
/// same leader. Without a log, [`Leader::resume`] goes on from a course that a router knows.
///
/// ```
/// use squall::{Error, Leader, LeaderFault, frame};
///
/// let old = br#"{"plan":[{"part":1,"from":[0,0],"to":"end"}]}"#;
/// let new = br#"{"plan":[{"part":1,"from":[0,0],"to":[2,0]},{"part":3,"from":[2,0],"to":"end"}]}"#;
/// let mut leader = Leader::open(old, 0)?;
/// leader.begin(new)?;
/// assert_eq!(leader.open_next()?, 0); // send the frames of `leader.board()?`
/// let waits = LeaderFault::NotDone { part: 3, sub: 0 };
/// assert_eq!(leader.open_next(), Err(Error::Leader(waits)));
/// leader.hear(&frame::done(1, 0, 3)?)?;
/// assert!(leader.finished());
/// # Ok::<(), squall::Error>(())
/// ```
pub struct Leader {
    room: Room<RawLeader>,
}

impl Leader {
    /// A leader that has begun no course: the keys lie as the plan says. Its first course has the number
    /// `last` plus 1; give 0 if no number was used before. The text is JSON.
    ///
    /// # Errors
    ///
    /// [`Error::OldPlan`] if the text is no plan; [`Error::NoMemory`].
    pub fn open(plan: &[u8], last: u32) -> Result<Leader, Error> {
        // SAFETY: it opens a leader, and the slice is readable.
        unsafe {
            Leader::open_by(|room| {
                ffi::squall_leader_open(plan.as_ptr(), plan.len(), last, room);
            })
        }
    }

    /// A leader that has begun this course. It is as if [`Leader::begin`] had just begun it, and it has
    /// heard nothing else. The course is shared.
    ///
    /// # Errors
    ///
    /// [`Error::NoMemory`].
    pub fn resume(course: &Course) -> Result<Leader, Error> {
        // SAFETY: it opens a leader, of a course that was opened.
        unsafe { Leader::open_by(|room| ffi::squall_leader_resume(course.room.get(), room)) }
    }

    /// The leader that `open` opens.
    ///
    /// # Safety
    ///
    /// As for [`Room::new`].
    unsafe fn open_by(open: impl FnOnce(*mut RawLeader)) -> Result<Leader, Error> {
        // SAFETY: the caller keeps it.
        let room = unsafe { Room::new(open) };
        let leader = Leader { room };
        // SAFETY: the leader was opened.
        leader.check(unsafe { ffi::squall_leader_status(leader.room.get()) })?;
        Ok(leader)
    }

    /// The error of a status, if it is one.
    fn check(&self, status: u32) -> Result<(), Error> {
        // SAFETY: the leader was opened.
        Error::check(status, unsafe {
            ffi::squall_leader_fault_at(self.room.get())
        })
    }

    /// Takes the next bytes of a stream of frames, which may be cut anywhere. Deltas are taken as
    /// reports; the last digest is kept for [`Leader::repair`].
    ///
    /// # Errors
    ///
    /// [`Error::Frame`] if bytes are no frame: the messages before them were taken, and from now on
    /// the answer is [`Error::Failed`]. Such a call belongs into a log too. [`Error::NoMemory`], after
    /// which the same bytes may be fed again.
    pub fn feed(&mut self, bytes: &[u8]) -> Result<(), Error> {
        let leader = self.room.get_mut();
        // SAFETY: the leader was opened, and the slice is readable.
        self.check(unsafe { ffi::squall_leader_feed(leader, bytes.as_ptr(), bytes.len()) })
    }

    /// How many bytes that [`Leader::feed`] took wait for the rest of their frame: 0 if none do, or if a
    /// fault has ended the stream. If it is above 0 when the stream ends, the stream was cut within a frame.
    pub fn waiting(&self) -> usize {
        // SAFETY: the leader was opened.
        unsafe { ffi::squall_leader_waiting(self.room.get()) }
    }

    /// Takes one whole frame, no more and no less. A delta is taken as reports; a digest is kept for
    /// [`Leader::repair`]. It has nothing to do with the stream of [`Leader::feed`].
    ///
    /// # Errors
    ///
    /// [`Error::Frame`] if the bytes are no frame: the next frame may come. [`Error::NoMemory`].
    pub fn hear(&mut self, frame: &[u8]) -> Result<(), Error> {
        let leader = self.room.get_mut();
        // SAFETY: the leader was opened, and the slice is readable.
        self.check(unsafe { ffi::squall_leader_hear(leader, frame.as_ptr(), frame.len()) })
    }

    /// Begins the course from the newest plan to this one. Its number is the last one plus 1, and its
    /// plan is the newest one then. The leader takes the report of it, which is in [`Leader::board`].
    ///
    /// # Errors
    ///
    /// [`Error::NewPlan`] if the text is no plan. [`Error::Leader`]: [`LeaderFault::Running`] if the
    /// course begun last is not over; [`LeaderFault::NoNumber`] if the greatest number is used.
    /// [`Error::NoMemory`].
    pub fn begin(&mut self, plan: &[u8]) -> Result<(), Error> {
        let leader = self.room.get_mut();
        // SAFETY: the leader was opened, and the slice is readable.
        self.check(unsafe { ffi::squall_leader_begin(leader, plan.as_ptr(), plan.len()) })
    }

    /// Begins the course from the old plan to the new one, whether or not the course begun last is over,
    /// which may end early so. Its number is the last one plus 1, and the new plan is the newest one
    /// then. The leader takes the report of it, which is in [`Leader::board`].
    ///
    /// The old plan has to say where the keys are. Each partition holds the keys that it gives it, and has
    /// closed the course before ([`Part::close_course`](crate::Part::close_course)) if such a key was to
    /// leave it. What was given is loaded.
    ///
    /// # Errors
    ///
    /// [`Error::OldPlan`] if the old text is no plan; or else [`Error::NewPlan`] if the new one is none.
    /// [`Error::Leader`]: [`LeaderFault::NoNumber`] if the greatest number is used. [`Error::NoMemory`].
    pub fn begin_from(&mut self, old: &[u8], new: &[u8]) -> Result<(), Error> {
        let leader = self.room.get_mut();
        // SAFETY: the leader was opened, and the slices are readable.
        self.check(unsafe {
            ffi::squall_leader_begin_from(leader, old.as_ptr(), old.len(), new.as_ptr(), new.len())
        })
    }

    /// The course that the leader began last; none if it has begun none. It stays as it is, whatever the
    /// leader does later. Nothing is copied.
    ///
    /// # Errors
    ///
    /// [`Error::NoMemory`] if the course has more owners than can be counted.
    pub fn course(&self) -> Result<Option<Course>, Error> {
        // SAFETY: it opens a course, of a leader that was opened.
        unsafe { Course::open_if(|room| ffi::squall_leader_course(self.room.get(), room)) }
    }

    /// Opens the next sub-plan of the course begun last, and says which, from 0. The leader takes the
    /// report of it, which is in [`Leader::board`].
    ///
    /// # Errors
    ///
    /// [`Error::Leader`]: [`LeaderFault::NotDone`] while a partition has not reported that it has all
    /// keys of the sub-plan opened last; [`LeaderFault::NoMore`] if all are opened and the last one is
    /// done; [`LeaderFault::Idle`] if no course is begun. [`Error::NoMemory`].
    pub fn open_next(&mut self) -> Result<u32, Error> {
        let mut out = [0; 2];
        let (leader, room) = (self.room.get_mut(), out.len());
        // SAFETY: the leader was opened, and the places are writable.
        let status = unsafe { ffi::squall_leader_open_next(leader, out.as_mut_ptr(), room) };
        let [sub, part] = out;
        if status == ffi::NOT_DONE {
            return Err(Error::Leader(LeaderFault::NotDone { part, sub }));
        }
        self.check(status).map(|()| sub)
    }

    /// Whether all sub-plans of the course begun last are opened and the last one is done. Not if no
    /// course is begun.
    pub fn finished(&self) -> bool {
        // SAFETY: the leader was opened.
        unsafe { ffi::squall_leader_finished(self.room.get()) == 1 }
    }

    /// The frames of all that the leader heard and reported itself.
    ///
    /// # Errors
    ///
    /// [`Error::NoMemory`].
    pub fn board(&mut self) -> Result<Frames<'_>, Error> {
        self.board_within(NO_LIMIT)
    }

    /// The same in frames of at most `limit` bytes each, for a transport that limits its messages.
    ///
    /// # Errors
    ///
    /// [`Error::TooLong`] if a single report needs a longer frame, and then the frames that waited still
    /// do. A limit of 98,337 bytes is enough for any report, and one of 49 for all but courses.
    /// [`Error::NoMemory`].
    pub fn board_within(&mut self, limit: usize) -> Result<Frames<'_>, Error> {
        let leader = self.room.get_mut();
        // SAFETY: the leader was opened.
        self.check(unsafe { ffi::squall_leader_gather_board(leader, limit) })?;
        Ok(Frames::of(&mut self.room))
    }

    /// The frame of a digest of that, by which another one can tell what this one lacks.
    ///
    /// # Errors
    ///
    /// [`Error::TooLong`] if it has more rows than a frame holds; [`Error::NoMemory`].
    pub fn digest(&mut self) -> Result<Frames<'_>, Error> {
        self.digest_within(NO_LIMIT)
    }

    /// The same in a frame of at most `limit` bytes.
    ///
    /// # Errors
    ///
    /// [`Error::TooLong`] if it has more bytes, since a digest is not cut; [`Error::NoMemory`].
    pub fn digest_within(&mut self, limit: usize) -> Result<Frames<'_>, Error> {
        let leader = self.room.get_mut();
        // SAFETY: the leader was opened.
        self.check(unsafe { ffi::squall_leader_gather_digest(leader, limit) })?;
        Ok(Frames::of(&mut self.room))
    }

    /// The frames of what the digest that was heard last does not show.
    ///
    /// # Errors
    ///
    /// [`Error::NoDigest`] if none was heard; [`Error::NoMemory`].
    pub fn repair(&mut self) -> Result<Frames<'_>, Error> {
        self.repair_within(NO_LIMIT)
    }

    /// The same in frames of at most `limit` bytes each.
    ///
    /// # Errors
    ///
    /// [`Error::TooLong`] as of `board_within`; [`Error::NoDigest`] if none was heard;
    /// [`Error::NoMemory`].
    pub fn repair_within(&mut self, limit: usize) -> Result<Frames<'_>, Error> {
        let leader = self.room.get_mut();
        // SAFETY: the leader was opened.
        self.check(unsafe { ffi::squall_leader_gather_repair(leader, limit) })?;
        Ok(Frames::of(&mut self.room))
    }
}
