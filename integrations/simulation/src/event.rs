//! What happens in a run, and in which order.

use crate::network::Time;
use squall::Chunk;
use std::cmp::Ordering;
use std::ops::Range;
use std::rc::Rc;

/// A frame for routers.
pub struct Frame {
    pub bytes: Vec<u8>,
    /// The cells that a router may send elsewhere once it has heard it.
    pub cells: Range<usize>,
}

/// What happens.
pub enum Event {
    /// The first course begins.
    Begin,
    /// A partition hears that a course begins.
    Tell(u32, Rc<Frame>),
    /// A partition hears that it is to close its course.
    Close(u32),
    /// A partition has answered the leader.
    Answered,
    /// A source gives its next chunk.
    Give(u32),
    /// A chunk has arrived with its rows.
    Load(Chunk),
    /// A report has arrived at the server of a site.
    Pass(usize, Rc<Frame>),
    /// A report or a repair has arrived at a router.
    Hear(u32, Rc<Frame>),
    /// A router shows its digest.
    Show(u32),
    /// The digest of the second one has arrived at the first one.
    Answer(u32, u32, Rc<[u8]>),
    /// A router has a request.
    Request(u32),
}

/// An event and its time. Of two at one time the one that was planned first comes first.
pub struct Planned {
    pub time: Time,
    pub order: u64,
    pub event: Event,
}

impl PartialEq for Planned {
    fn eq(&self, other: &Planned) -> bool {
        self.order == other.order
    }
}

impl Eq for Planned {}

impl PartialOrd for Planned {
    fn partial_cmp(&self, other: &Planned) -> Option<Ordering> {
        Some(self.cmp(other))
    }
}

impl Ord for Planned {
    fn cmp(&self, other: &Planned) -> Ordering {
        (self.time, self.order).cmp(&(other.time, other.order))
    }
}
