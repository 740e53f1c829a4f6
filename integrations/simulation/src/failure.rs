//! Why a run has no outcome.

use crate::network::{Time, SECOND};
use squall::{Error, Reply};
use std::fmt;

/// Why a run has no outcome, and when that was found.
#[derive(Debug)]
pub struct Failure {
    pub time: Time,
    pub why: Why,
}

/// Why a run has no outcome.
#[derive(Clone, Copy, Debug, PartialEq, Eq)]
pub enum Why {
    /// A call of the library failed.
    Call(Error),
    /// A partition to which a router or a move sends the slot replies so, and may not.
    Unserved { slot: u64, part: u32, reply: Reply },
    /// A partition replies that it has the slot, or that it comes from another one, and that is not so.
    Untrue { slot: u64, part: u32, reply: Reply },
    /// The last plan has the slot at the partition, and it is not there once all is over.
    Misplaced { slot: u64, part: u32 },
    /// A range of keys ends within a chunk.
    Divided { slot: u64 },
    /// So many routers do not know all long after the last report: one may have reached no router.
    Apart { routers: usize },
}

impl From<Error> for Why {
    fn from(error: Error) -> Why {
        Why::Call(error)
    }
}

impl fmt::Display for Failure {
    fn fmt(&self, out: &mut fmt::Formatter<'_>) -> fmt::Result {
        write!(out, "at {:.3} s: {}", self.time as f64 / SECOND as f64, self.why)
    }
}

impl fmt::Display for Why {
    fn fmt(&self, out: &mut fmt::Formatter<'_>) -> fmt::Result {
        match self {
            Why::Call(error) => write!(out, "{error}"),
            Why::Unserved { slot, part, reply } => {
                write!(out, "slot {slot} is sent to partition {part}, which replies {reply:?}")
            }
            Why::Untrue { slot, part, reply } => {
                write!(out, "partition {part} replies {reply:?} for slot {slot}, which is not so")
            }
            Why::Misplaced { slot, part } => {
                write!(out, "slot {slot} is not at partition {part}, where the last plan has it")
            }
            Why::Apart { routers } => write!(out, "{routers} routers still do not know all reports"),
            Why::Divided { slot } => write!(out, "a range of keys ends in the chunk of slot {slot}"),
        }
    }
}
