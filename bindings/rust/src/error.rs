//! Why a call did not do what it was asked for.

use crate::ffi;
use crate::key::Rank;
use std::error;
use std::ffi::CStr;
use std::fmt;
use std::io;

/// Why a call did not do what it was asked for. If its documentation does not say otherwise, the
/// call has changed nothing.
#[derive(Clone, Copy, Debug, PartialEq, Eq)]
#[non_exhaustive]
pub enum Error {
    /// An allocation failed.
    NoMemory,
    /// A number or a rank lies outside its limits, or a span has no keys.
    Limit,
    /// A frame fault came earlier, and the stream is at its end.
    Failed,
    /// A frame would have more bytes than it may have: that of a digest, which is not cut, or of a
    /// single report.
    TooLong,
    /// No digest was fed that could be answered.
    NoDigest,
    /// A router would hear of more than the limit of [`Router::limit`](crate::Router::limit).
    Full,
    /// The text of the old plan is no plan, or the one with which a leader was to be opened.
    OldPlan(PlanFault),
    /// The text of the new plan is no plan.
    NewPlan(PlanFault),
    /// Bytes are no frame.
    Frame(FrameFault),
    /// A partition does not give, load or finish.
    Part(PartFault),
    /// A leader does not go on.
    Leader(LeaderFault),
    /// The library answered with a status that this version of the crate does not know.
    Unknown(u32),
}

/// Why a text is no plan. An index is that of an entry of the text, from 0.
#[derive(Clone, Copy, Debug, PartialEq, Eq)]
pub enum PlanFault {
    /// The bytes are no JSON, or no UTF-8.
    Json,
    /// The text is no object with a member `plan` that is an array, or the entry of that index does
    /// not have its form.
    Shape(Option<u64>),
    /// The partition of an entry is above 9999.
    BadPart(u64),
    /// A pair of an entry is no bound.
    BadBound(u64),
    /// The `from` of an entry is not below its `to`.
    EmptyRange(u64),
    /// There are more than 4096 entries.
    TooMany,
    /// Some key is in two ranges; the least such key.
    Overlap(Rank),
    /// Some key is in no range; the least such key.
    Gap(Rank),
}

/// Why bytes are no frame.
#[derive(Clone, Copy, Debug, PartialEq, Eq)]
pub enum FrameFault {
    /// The first two bytes are not those of a frame.
    Magic = 51,
    /// The version is not known.
    Version = 52,
    /// The kind is neither that of a delta nor that of a digest.
    Kind = 53,
    /// The body is to have more than 1,048,576 bytes.
    TooLong = 54,
    /// The bytes end within the frame. A stream waits for more instead.
    Short = 55,
    /// The body has too few bytes left for its next item.
    Count = 56,
    /// A field lies outside its limits, or a cell says nothing.
    Range = 57,
    /// An item does not come after the one before it.
    Order = 58,
    /// Bytes are left in the body after its last item, or follow a whole frame.
    Spare = 59,
}

/// Why a partition does not give, load or finish.
#[derive(Clone, Copy, Debug, PartialEq, Eq)]
#[non_exhaustive]
pub enum PartFault {
    /// As far as the partition knows, the sub-plan is not opened.
    NotOpen = 71,
    /// It holds no key that goes out in the sub-plan opened last.
    NothingLeft = 72,
    /// No key was asked for.
    ZeroMax = 73,
    /// The key does not go out in the sub-plan opened last.
    NotOutgoing = 74,
    /// The key was given under this course before.
    Given = 75,
    /// The key goes out, and is neither given nor held.
    NotHeld = 76,
    /// The course does not bring these keys to this partition so.
    Stranger = 77,
    /// Keys that come in are missing.
    NotAll = 78,
    /// No key comes in, in that sub-plan.
    NothingDue = 79,
    /// The partition gives no more in its newest course: [`Part::close_course`](crate::Part::close_course)
    /// ended that.
    Ended = 81,
}

/// Why a leader does not go on.
#[derive(Clone, Copy, Debug, PartialEq, Eq)]
#[non_exhaustive]
pub enum LeaderFault {
    /// The course begun last is not over.
    Running,
    /// The greatest number is used.
    NoNumber,
    /// No course is begun.
    Idle,
    /// A partition has not reported that it has all keys of the sub-plan opened last.
    NotDone {
        /// The least such partition.
        part: u32,
        /// The sub-plan, from 0.
        sub: u32,
    },
    /// All sub-plans are opened, and the last one is done.
    NoMore,
}

/// How far the statuses of a new plan's faults are above those of an old one's.
const NEW: u32 = 20;

impl Error {
    /// The error of a status, if it is one. `at` is where the last plan fault lies.
    pub(crate) fn check(status: u32, at: u64) -> Result<(), Error> {
        Err(match status {
            0 => return Ok(()),
            1 => Error::NoMemory,
            2 => Error::Limit,
            4 => Error::Failed,
            5 => Error::TooLong,
            6 => Error::NoDigest,
            7 => Error::Full,
            11..=18 => Error::OldPlan(PlanFault::of(status, at)),
            31..=38 => Error::NewPlan(PlanFault::of(status - NEW, at)),
            51 => Error::Frame(FrameFault::Magic),
            52 => Error::Frame(FrameFault::Version),
            53 => Error::Frame(FrameFault::Kind),
            54 => Error::Frame(FrameFault::TooLong),
            55 => Error::Frame(FrameFault::Short),
            56 => Error::Frame(FrameFault::Count),
            57 => Error::Frame(FrameFault::Range),
            58 => Error::Frame(FrameFault::Order),
            59 => Error::Frame(FrameFault::Spare),
            71 => Error::Part(PartFault::NotOpen),
            72 => Error::Part(PartFault::NothingLeft),
            73 => Error::Part(PartFault::ZeroMax),
            74 => Error::Part(PartFault::NotOutgoing),
            75 => Error::Part(PartFault::Given),
            76 => Error::Part(PartFault::NotHeld),
            77 => Error::Part(PartFault::Stranger),
            78 => Error::Part(PartFault::NotAll),
            79 => Error::Part(PartFault::NothingDue),
            81 => Error::Part(PartFault::Ended),
            91 => Error::Leader(LeaderFault::Running),
            92 => Error::Leader(LeaderFault::NoNumber),
            93 => Error::Leader(LeaderFault::Idle),
            95 => Error::Leader(LeaderFault::NoMore),
            _ => Error::Unknown(status),
        })
    }

    /// The status of the error, in `squall.h`.
    fn status(&self) -> u32 {
        match self {
            Error::NoMemory => 1,
            Error::Limit => 2,
            Error::Failed => 4,
            Error::TooLong => 5,
            Error::NoDigest => 6,
            Error::Full => 7,
            Error::OldPlan(fault) => fault.status(),
            Error::NewPlan(fault) => fault.status() + NEW,
            Error::Frame(fault) => *fault as u32,
            Error::Part(fault) => *fault as u32,
            Error::Leader(fault) => fault.status(),
            Error::Unknown(status) => *status,
        }
    }
}

impl PlanFault {
    /// The fault of a status from 11 to 18, and where it lies.
    fn of(status: u32, at: u64) -> PlanFault {
        match status {
            11 => PlanFault::Json,
            12 => PlanFault::Shape((at != u64::MAX).then_some(at)),
            13 => PlanFault::BadPart(at),
            14 => PlanFault::BadBound(at),
            15 => PlanFault::EmptyRange(at),
            16 => PlanFault::TooMany,
            17 => PlanFault::Overlap(Rank(at)),
            _ => PlanFault::Gap(Rank(at)),
        }
    }

    /// The status of the fault, of an old plan.
    fn status(&self) -> u32 {
        match self {
            PlanFault::Json => 11,
            PlanFault::Shape(_) => 12,
            PlanFault::BadPart(_) => 13,
            PlanFault::BadBound(_) => 14,
            PlanFault::EmptyRange(_) => 15,
            PlanFault::TooMany => 16,
            PlanFault::Overlap(_) => 17,
            PlanFault::Gap(_) => 18,
        }
    }
}

impl LeaderFault {
    /// The status of the fault.
    fn status(&self) -> u32 {
        match self {
            LeaderFault::Running => 91,
            LeaderFault::NoNumber => 92,
            LeaderFault::Idle => 93,
            LeaderFault::NotDone { .. } => ffi::NOT_DONE,
            LeaderFault::NoMore => 95,
        }
    }
}

/// What the library says of a status.
fn message(status: u32) -> &'static str {
    // SAFETY: the library answers a text that ends in a 0 byte, never changes and is never freed.
    let text = unsafe { CStr::from_ptr(ffi::squall_message(status)) };
    text.to_str().unwrap_or_default()
}

/// The same of a fault of a plan or a frame, without the words before it.
fn meaning(status: u32) -> &'static str {
    let text = message(status);
    text.split_once(": ").map_or(text, |(_, meaning)| meaning)
}

impl fmt::Display for Error {
    fn fmt(&self, f: &mut fmt::Formatter<'_>) -> fmt::Result {
        let means = meaning(self.status());
        match self {
            Error::OldPlan(fault) => write!(f, "the old text is no plan: {fault}: {means}"),
            Error::NewPlan(fault) => write!(f, "the new text is no plan: {fault}: {means}"),
            Error::Frame(fault) => write!(f, "no frame: {fault}: {means}"),
            Error::Leader(fault) => fmt::Display::fmt(fault, f),
            Error::Unknown(status) => write!(f, "{means}: {status}"),
            _ => f.write_str(means),
        }
    }
}

/// Its name in docs/FORMATS.md, and its place.
impl fmt::Display for PlanFault {
    fn fmt(&self, f: &mut fmt::Formatter<'_>) -> fmt::Result {
        match self {
            PlanFault::Json => f.write_str("Json"),
            PlanFault::Shape(None) => f.write_str("Shape"),
            PlanFault::Shape(Some(index)) => write!(f, "Shape {index}"),
            PlanFault::BadPart(index) => write!(f, "BadPart {index}"),
            PlanFault::BadBound(index) => write!(f, "BadBound {index}"),
            PlanFault::EmptyRange(index) => write!(f, "EmptyRange {index}"),
            PlanFault::TooMany => f.write_str("TooMany"),
            PlanFault::Overlap(bound) => write!(f, "Overlap {bound}"),
            PlanFault::Gap(bound) => write!(f, "Gap {bound}"),
        }
    }
}

/// Its name in docs/FORMATS.md.
impl fmt::Display for FrameFault {
    fn fmt(&self, f: &mut fmt::Formatter<'_>) -> fmt::Result {
        fmt::Debug::fmt(self, f)
    }
}

impl fmt::Display for PartFault {
    fn fmt(&self, f: &mut fmt::Formatter<'_>) -> fmt::Result {
        f.write_str(message(*self as u32))
    }
}

impl fmt::Display for LeaderFault {
    fn fmt(&self, f: &mut fmt::Formatter<'_>) -> fmt::Result {
        match self {
            LeaderFault::NotDone { part, sub } => write!(
                f,
                "partition {part} has not reported that it has all keys of sub-plan {sub}"
            ),
            _ => f.write_str(message(self.status())),
        }
    }
}

impl error::Error for Error {}

/// An error of the kind `OutOfMemory` for [`Error::NoMemory`], `QuotaExceeded` for [`Error::Full`], `Other`
/// for what a partition or a leader refuses, and else `InvalidData`, as bytes and texts from elsewhere are
/// its cause.
impl From<Error> for io::Error {
    fn from(error: Error) -> io::Error {
        let kind = match error {
            Error::NoMemory => io::ErrorKind::OutOfMemory,
            Error::Full => io::ErrorKind::QuotaExceeded,
            Error::Part(_) | Error::Leader(_) => io::ErrorKind::Other,
            _ => io::ErrorKind::InvalidData,
        };
        io::Error::new(kind, error)
    }
}
