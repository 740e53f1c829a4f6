//! What a run is to be, and what it came to.

use crate::ground::Went;
use crate::network::Time;

/// What a run is to be.
#[derive(Clone, Copy)]
pub struct Options {
    /// How many routers there are.
    pub routers: usize,
    /// The share of messages that are lost.
    pub loss: f64,
    /// How many requests a router has each second.
    pub requests: u64,
    /// Whether each report is sent to all routers, or to one of each site.
    pub to_all: bool,
    /// The share of the chunks that are given when the course is turned back, if it is.
    pub turn_back: Option<f64>,
    /// What is done wrong, if anything is.
    pub fault: Option<Fault>,
    pub seed: u64,
}

/// What is done wrong, so that the run has to notice it.
#[derive(Clone, Copy, Debug, PartialEq, Eq)]
pub enum Fault {
    /// Sources are not closed, and give on while the next course begins.
    Open,
    /// The next course begins once one partition is closed, while chunks are on their way.
    Early,
    /// The plan of where the keys are lacks a load.
    Short,
    /// A new partition forgets in the course what it has loaded.
    Forgets,
}

impl Fault {
    /// All of them, by the names that the program has for them.
    pub const ALL: [(&'static str, Fault); 4] = [
        ("open", Fault::Open),
        ("early", Fault::Early),
        ("short", Fault::Short),
        ("forgets", Fault::Forgets),
    ];
}

/// How requests went, of the time from the beginning of the course on.
#[derive(Clone, Copy, Default)]
pub struct Requests {
    /// How many there were, how many partitions were asked in addition, and how many had to wait.
    pub count: u64,
    pub hops: u64,
    pub waits: u64,
    /// The most additional partitions of one request.
    pub most: u32,
}

impl Requests {
    /// Counts a request.
    pub fn add(&mut self, went: Went) {
        self.count += 1;
        self.hops += u64::from(went.hops);
        self.waits += u64::from(went.waits);
        self.most = self.most.max(went.hops);
    }
}

/// What a run came to.
pub struct Outcome {
    /// For each course when each router knew of it, after its beginning, by rising time.
    pub courses: Vec<Vec<Time>>,
    /// When each router knew all, after the last report, by rising time.
    pub agreed: Vec<Time>,
    /// How long the courses took, from the first beginning to the last report, and after which time the
    /// second one began.
    pub took: Time,
    pub turned: Option<Time>,
    /// How many reports there were.
    pub reports: usize,
    /// Bytes a second that a router sent and heard: before the courses, in them, and after them; and of
    /// the router with the most in them.
    pub before: f64,
    pub during: f64,
    pub most_during: f64,
    pub after: f64,
    /// Requests of routers of squall, of those that learn one slot, and of those that read the table.
    pub squall: Requests,
    pub by_slot: Requests,
    pub by_table: Requests,
    /// Of how many of the slots that were given a router of the second kind knows the place in the end, as
    /// a share, and how many tables those of the third kind have read.
    pub known_slots: f64,
    pub tables: u64,
    /// How many routes were followed when anything changed, and the most partitions that one of them named
    /// after its first.
    pub followed: u64,
    pub most: u32,
}
