//! Errands.

use crate::error::Error;
use crate::ffi::{self, RawAnswer, RawErrand};
use crate::room::Room;

/// What a partition replies when it is asked for a key.
#[derive(Clone, Copy, Debug, PartialEq, Eq)]
pub enum Reply {
    /// It holds the key.
    Held,
    /// It gave the key to `dest` in the course of that number.
    Moved {
        /// The partition to which the key went.
        dest: u32,
        /// The course's number.
        number: u32,
    },
    /// The key is on its way to it.
    Pending {
        /// The partition from which the key comes.
        source: u32,
    },
    /// It has not heard of the course by which the key was sent to it.
    Behind,
    /// The partition neither has the key nor awaits it: the old plan has it at `dest`.
    Elsewhere {
        /// The key's partition in the old plan.
        dest: u32,
    },
}

impl Reply {
    /// The reply that a partition wrote.
    pub(crate) fn of(answer: RawAnswer) -> Result<Reply, Error> {
        match answer.reply {
            0 => Ok(Reply::Held),
            1 => Ok(Reply::Moved {
                dest: answer.part,
                number: answer.number,
            }),
            2 => Ok(Reply::Pending {
                source: answer.part,
            }),
            3 => Ok(Reply::Behind),
            4 => Ok(Reply::Elsewhere { dest: answer.part }),
            unknown => Err(Error::Unknown(unknown)),
        }
    }
}

/// What to do after a reply.
#[derive(Clone, Copy, Debug, PartialEq, Eq)]
pub enum Next {
    /// The key was found: nothing is left to do.
    Served,
    /// Ask this partition, to which the key went.
    Ask(u32),
    /// Ask this partition again, later.
    Again(u32),
    /// Replies contradict each other: start a new errand once the router has heard more.
    Lost,
}

/// The search for the partition that holds a key: it begins where a router or a view sends the key,
/// and follows the partitions' replies.
///
/// ```
/// # use squall::{Next, Rank, Reply, Router};
/// # let old = br#"{"plan":[{"part":1,"from":[0,0],"to":"end"}]}"#;
/// # let new = br#"{"plan":[{"part":3,"from":[0,0],"to":"end"}]}"#;
/// # let router = Router::open(1, old, new)?;
/// let mut errand = router.errand(Rank::new(2, 0))?;
/// assert_eq!(errand.asked(), 1);
/// let next = errand.heed(Reply::Moved { dest: 3, number: 1 })?;
/// assert_eq!(next, Next::Ask(3));
/// assert_eq!(errand.heed(Reply::Held)?, Next::Served);
/// # Ok::<(), squall::Error>(())
/// ```
pub struct Errand {
    room: Room<RawErrand>,
}

impl Errand {
    /// The errand that `open` opens.
    ///
    /// # Safety
    ///
    /// As for [`Room::new`].
    pub(crate) unsafe fn open(open: impl FnOnce(*mut RawErrand)) -> Result<Errand, Error> {
        // SAFETY: the caller keeps it.
        let room = unsafe { Room::new(open) };
        // SAFETY: the errand was opened.
        Error::check(unsafe { ffi::squall_errand_status(room.get()) }, u64::MAX)?;
        Ok(Errand { room })
    }

    /// The partition to ask.
    pub fn asked(&self) -> u32 {
        // SAFETY: the errand was opened.
        unsafe { ffi::squall_errand_asked(self.room.get()) }
    }

    /// The number of the last [`Reply::Moved`] that was followed, 0 before the first. The partition
    /// that is asked is told it.
    pub fn number(&self) -> u32 {
        // SAFETY: the errand was opened.
        unsafe { ffi::squall_errand_number(self.room.get()) }
    }

    /// Takes the reply of the partition that was asked, and says what to do. After
    /// [`Next::Served`] or [`Next::Lost`] it says the same for ever.
    ///
    /// # Errors
    ///
    /// [`Error::Limit`] where a partition that the reply names is above 9999.
    pub fn heed(&mut self, reply: Reply) -> Result<Next, Error> {
        let (kind, part, number) = match reply {
            Reply::Held => (0, 0, 0),
            Reply::Moved { dest, number } => (1, dest, number),
            Reply::Pending { source } => (2, source, 0),
            Reply::Behind => (3, 0, 0),
            Reply::Elsewhere { dest } => (4, dest, 0),
        };
        // SAFETY: the errand was opened.
        let next = unsafe { ffi::squall_errand_heed(self.room.get_mut(), kind, part, number) };
        match next {
            0 => Ok(Next::Served),
            1 => Ok(Next::Ask(self.asked())),
            2 => Ok(Next::Again(self.asked())),
            3 => Ok(Next::Lost),
            _ => Err(Error::Limit),
        }
    }
}
