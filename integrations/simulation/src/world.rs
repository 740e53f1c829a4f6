//! A run: events one after another in simulated time, and what routers do at theirs.

use crate::beside::{BySlot, ByTable};
use crate::check::Check;
use crate::courses::Stage;
use crate::event::{Event, Frame, Planned};
use crate::failure::{Failure, Why};
use crate::ground::Ground;
use crate::network::{Network, Time, SECOND, SITES};
use crate::options::{Options, Outcome, Requests};
use crate::plans::{self, key_of, CELLS, PARTS, SLOTS};
use squall::{Error, Router};
use std::cmp::Reverse;
use std::collections::{BTreeSet, BinaryHeap};
use std::rc::Rc;

/// When the first course begins.
const BEGIN: Time = 2 * SECOND;
/// How long a run goes on after all routers agree, and how long after the last report without that.
const AFTER: Time = 5 * SECOND;
const LONGEST: Time = 300 * SECOND;

/// A router, and what it has counted.
struct Node {
    router: Router,
    /// The bytes that it sent and heard.
    bytes: u64,
    /// When it first knew of each course, and of all reports.
    knows: Vec<Time>,
    agrees: Option<Time>,
}

/// A run.
pub struct World {
    pub options: Options,
    pub network: Network,
    pub now: Time,
    order: u64,
    events: BinaryHeap<Reverse<Planned>>,
    pub ground: Ground,
    nodes: Vec<Node>,
    /// The routers to which reports are sent.
    told: u32,
    /// What the leader waits for, and how many partitions have not answered it.
    pub stage: Stage,
    pub unanswered: u32,
    /// When each course began.
    pub begun: Vec<Time>,
    /// How many chunks are on their way, which sources have more, and how many chunks were given and
    /// loaded.
    pub on_the_way: usize,
    pub giving: BTreeSet<u32>,
    pub gives: u64,
    pub loads: u64,
    pub check: Check,
    /// A router that has heard each report, its digest, and when the last report was sent.
    all: Router,
    pub goal: Option<Vec<u8>>,
    last: Time,
    reports: usize,
    /// How many routers do not know all.
    lacking: usize,
    by_slot: BySlot,
    by_table: ByTable,
    requests: [Requests; 3],
    /// The bytes of all routers when the first course began, and when all routers agreed.
    pub bytes_at: [u64; 2],
    most: u64,
    agreed_at: Option<Time>,
}

impl World {
    /// A run of these options.
    pub fn new(options: Options) -> Result<World, Error> {
        let plan = plans::old_plan();
        let open = || Router::open(1, plan.as_bytes(), plan.as_bytes());
        let node = |_| Ok::<_, Error>(Node { router: open()?, bytes: 0, knows: Vec::new(), agrees: None });
        let mut world = World {
            network: Network::new(options.loss, options.seed),
            now: 0,
            order: 0,
            events: BinaryHeap::new(),
            ground: Ground::open()?,
            nodes: (0..options.routers).map(node).collect::<Result<_, _>>()?,
            told: if options.to_all { options.routers as u32 } else { SITES as u32 },
            stage: Stage::Begins,
            unanswered: 0,
            begun: Vec::new(),
            on_the_way: 0,
            giving: BTreeSet::new(),
            gives: 0,
            loads: 0,
            check: Check::new(options.routers),
            all: open()?,
            goal: None,
            last: 0,
            reports: 0,
            lacking: options.routers,
            by_slot: BySlot::new(options.routers),
            by_table: ByTable::new(options.routers),
            requests: [Requests::default(); 3],
            bytes_at: [0; 2],
            most: 0,
            agreed_at: None,
            options,
        };
        world.plan(BEGIN, Event::Begin);
        for at in 0..options.routers as u32 {
            let (show, request) = (world.network.dice.below(SECOND), world.network.dice.below(SECOND));
            world.plan(show, Event::Show(at));
            world.plan(request, Event::Request(at));
        }
        Ok(world)
    }

    /// Something happens after that time.
    pub fn plan(&mut self, after: Time, event: Event) {
        self.order += 1;
        self.events.push(Reverse(Planned { time: self.now + after, order: self.order, event }));
    }

    /// Goes on until all routers have agreed for some time.
    pub fn run(mut self) -> Result<Outcome, Failure> {
        while let Some(Reverse(planned)) = self.events.pop() {
            self.now = planned.time;
            if self.agreed_at.is_some_and(|at| self.now > at + AFTER) {
                break;
            }
            self.happen(planned.event)
                .and_then(|()| self.look_how_long())
                .map_err(|why| Failure { time: self.now, why })?;
        }
        Ok(self.outcome())
    }

    /// Ends a run in which the routers do not come to agree.
    fn look_how_long(&self) -> Result<(), Why> {
        let is_too_long = self.goal.is_some() && self.now > self.last + LONGEST;
        if is_too_long && self.lacking > 0 {
            Err(Why::Apart { routers: self.lacking })
        } else {
            Ok(())
        }
    }

    fn happen(&mut self, event: Event) -> Result<(), Why> {
        match event {
            Event::Begin => self.begin(),
            Event::Tell(part, issue) => self.tell(part, &issue),
            Event::Close(part) => {
                self.close(part);
                Ok(())
            }
            Event::Answered => self.answered(),
            Event::Give(part) => self.give(part),
            Event::Load(chunk) => self.load(&chunk),
            Event::Pass(site, frame) => {
                self.pass(site, &frame);
                Ok(())
            }
            Event::Hear(at, frame) => self.hear(at, &frame),
            Event::Show(at) => self.show(at),
            Event::Answer(at, to, digest) => self.answer(at, to, &digest),
            Event::Request(at) => self.request(at),
        }
    }

    /// The bytes that all routers have sent and heard.
    pub fn bytes(&self) -> u64 {
        self.nodes.iter().map(|node| node.bytes).sum()
    }

    /// All reports were sent: their digest is what all routers are to show.
    pub fn end(&mut self) -> Result<(), Why> {
        self.goal = Some(digest_of(&mut self.all)?);
        self.last = self.now;
        (0..self.nodes.len()).try_for_each(|at| self.look(at))
    }

    /// Sends a report from a site: its server passes it on to those of the other sites.
    pub fn report(&mut self, site: usize, frame: Rc<Frame>) -> Result<(), Why> {
        self.all.hear(&frame.bytes)?;
        self.reports += 1;
        for to in 0..SITES {
            let way = if to == site { Some(0) } else { self.network.carry(site, to) };
            if let Some(way) = way {
                self.plan(way, Event::Pass(to, frame.clone()));
            }
        }
        Ok(())
    }

    /// The server of a site sends a report to the routers of the site.
    fn pass(&mut self, site: usize, frame: &Rc<Frame>) {
        for at in (site as u32..self.told).step_by(SITES) {
            if let Some(way) = self.network.carry(site, site) {
                self.plan(way, Event::Hear(at, frame.clone()));
            }
        }
    }

    fn hear(&mut self, at: u32, frame: &Frame) -> Result<(), Why> {
        let node = &mut self.nodes[at as usize];
        node.bytes += frame.bytes.len() as u64;
        node.router.hear(&frame.bytes)?;
        self.check.router(at as usize, &node.router, frame.cells.clone(), &self.ground)?;
        self.look(at as usize)
    }

    /// Notes what a router knows now.
    fn look(&mut self, at: usize) -> Result<(), Why> {
        let node = &mut self.nodes[at];
        // The first of these courses has number 2.
        node.knows.resize(node.router.number() as usize - 1, self.now);
        let Some(goal) = self.goal.as_ref().filter(|_| node.agrees.is_none()) else {
            return Ok(());
        };
        if digest_of(&mut node.router)? == *goal {
            node.agrees = Some(self.now);
            self.lacking -= 1;
            if self.lacking == 0 {
                self.agreed_at = Some(self.now);
                self.bytes_at[1] = self.bytes();
                self.most = self.nodes.iter().map(|node| node.bytes).max().unwrap_or(0);
            }
        }
        Ok(())
    }

    /// A router shows its digest to another one, mostly one of its site.
    fn show(&mut self, at: u32) -> Result<(), Why> {
        let digest: Rc<[u8]> = digest_of(&mut self.nodes[at as usize].router)?.into();
        self.nodes[at as usize].bytes += digest.len() as u64;
        let count = self.options.routers as u64;
        let mut peer = self.network.dice.below(count) as u32;
        if !self.network.dice.happens(0.1) {
            // The one of the same three that is at the site of this router.
            peer = (peer - peer % SITES as u32 + at % SITES as u32).min(self.options.routers as u32 - 1);
        }
        let (from, to) = (at as usize % SITES, peer as usize % SITES);
        if let Some(way) = self.network.carry(from, to).filter(|_| peer != at) {
            self.plan(way, Event::Answer(peer, at, digest));
        }
        self.plan(SECOND, Event::Show(at));
        Ok(())
    }

    /// A router answers a digest with what it lacks.
    fn answer(&mut self, at: u32, to: u32, digest: &[u8]) -> Result<(), Why> {
        let node = &mut self.nodes[at as usize];
        node.bytes += digest.len() as u64;
        node.router.hear(digest)?;
        let repair: Vec<Vec<u8>> = match node.router.repair() {
            Ok(frames) => frames.collect(),
            Err(Error::NoDigest) => Vec::new(),
            Err(error) => return Err(error.into()),
        };
        let (from, site) = (at as usize % SITES, to as usize % SITES);
        for bytes in repair {
            self.nodes[at as usize].bytes += bytes.len() as u64;
            if let Some(way) = self.network.carry(from, site) {
                self.plan(way, Event::Hear(to, Rc::new(Frame { bytes, cells: 0..CELLS })));
            }
        }
        Ok(())
    }

    /// A request of a router of each kind, for the same key.
    fn request(&mut self, at: u32) -> Result<(), Why> {
        let pause = 1 + self.network.dice.wait(SECOND / self.options.requests);
        self.plan(pause, Event::Request(at));
        let slot = self.network.dice.below(SLOTS);
        if self.reports == 0 {
            return Ok(());
        }
        let (key, own) = (key_of(slot), at as usize);
        let router = &self.nodes[own].router;
        let first = router.route(key).unwrap_or(PARTS);
        let went = self.ground.ask(key, first, || router.errand(key))?;
        self.requests[0].add(went);
        self.requests[1].add(self.by_slot.ask(own, slot, &self.ground));
        self.requests[2].add(self.by_table.ask(own, slot, &self.ground, self.now));
        Ok(())
    }

    fn outcome(self) -> Outcome {
        let agreed_at = self.agreed_at.unwrap_or(self.now);
        let count = self.nodes.len() as f64;
        let [begun, ended] = self.bytes_at;
        let all = self.bytes();
        let rate = |bytes: u64, time: Time| bytes as f64 / (time as f64 / SECOND as f64);
        let sorted = |times: &mut dyn Iterator<Item = Option<Time>>, from: Time| {
            let mut times: Vec<Time> = times.map(|time| time.unwrap_or(Time::MAX) - from).collect();
            times.sort_unstable();
            times
        };
        let knows = |(course, &begun)| {
            sorted(&mut self.nodes.iter().map(|node| node.knows.get(course).copied()), begun)
        };
        let [squall, by_slot, by_table] = self.requests;
        Outcome {
            courses: self.begun.iter().enumerate().map(knows).collect(),
            agreed: sorted(&mut self.nodes.iter().map(|node| node.agrees), self.last),
            took: self.last - BEGIN,
            turned: self.begun.get(1).map(|begun| begun - BEGIN),
            reports: self.reports,
            before: rate(begun, BEGIN) / count,
            during: rate(ended - begun, agreed_at - BEGIN) / count,
            most_during: rate(self.most, agreed_at),
            after: rate(all - ended, AFTER) / count,
            squall,
            by_slot,
            by_table,
            known_slots: self.by_slot.share(&self.ground),
            tables: self.by_table.reads,
            followed: self.check.followed,
            most: self.check.most,
        }
    }
}

fn digest_of(router: &mut Router) -> Result<Vec<u8>, Error> {
    Ok(router.digest()?.next().unwrap_or_default())
}
