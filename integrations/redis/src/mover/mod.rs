//! The mover: begins a course at each partition, moves its keys chunk by chunk, and reports them.

mod ahead;
mod deeds;
mod disk;
mod dumps;
mod entry;
mod feeder;
mod gives;
mod index;
mod losses;
mod names;
mod numbers;
mod pace;
pub(crate) mod partition;
mod passed;
mod patience;
mod progress;
mod pull;
mod pulls;
mod refusals;
mod sizes;
pub(crate) mod state;
mod steps;
pub(crate) mod survey;
mod turn;

use crate::args::{self, Args, Usage};
use crate::bus::{Node, Options};
use crate::conn::{Conn, Server};
use crate::course::{self, Move, Plan};
use crate::diary::{self, Diary};
use crate::fault::{say, Done, Fault, Trying};
use crate::log;
use crate::{faults, keep_alive, keymap, metrics, stop, tls};
pub use index::is_own;

use entry::Entered;
use feeder::Job;
use pace::Pace;
use partition::Partition;
use patience::Endurance;
use progress::Progress;
use sizes::AllStuck;
use std::collections::{BTreeMap, BTreeSet};
use std::sync::atomic::{AtomicBool, Ordering::Relaxed};
use std::sync::{Arc, Mutex, PoisonError};
use std::thread;
use std::time::Duration;

/// What the program is.
pub const USAGE: Usage = Usage {
    name: "squall-redis-mover",
    help: include_str!("help.txt"),
    options: &[
        "number",
        "old",
        "new",
        "first",
        "bus",
        "bus-password-file",
        "streams",
        "part",
        "password-file",
        "secret-file",
        "accept-loss",
        "chunk",
        "pause",
        "settle",
        pull::OPTION,
        turn::TO,
        "rate",
        "rate-file",
        patience::OPTION,
        args::CONFIG,
        log::OPTION,
        metrics::OPTION,
        keep_alive::OPTION,
        diary::OPTION,
        tls::OPTIONS[0],
        tls::OPTIONS[1],
        tls::OPTIONS[2],
    ],
    flags: &["init", "dry-run", turn::FLAG, tls::FLAGS[0], tls::FLAGS[1]],
};

/// A pause between the issue and the fence, in which routers hear of the course.
const NOTICE: Duration = Duration::from_millis(30);

/// A course and its partitions.
struct Mover {
    number: u32,
    old: Plan,
    new: Plan,
    moves: Vec<Move>,
    /// The frame by which routers learn of the course.
    issue: Vec<u8>,
    servers: BTreeMap<u32, Server>,
    secret: String,
    /// Partitions that go on with what they have if they have come back with less.
    accepted: BTreeSet<u32>,
    /// The partitions that begin from where the keys are: those of the course before, if that is turned back.
    left: BTreeSet<u32>,
    /// What it does as the leader is written there.
    diary: Arc<Diary>,
}

/// Runs the program.
pub fn run(args: &Args) -> Done<()> {
    patience::set(args)?;
    if args.has("init") {
        let plans = (Plan::of(args, "first")?, Plan::of(args, "first")?);
        let mover = Mover::new(args, 1, plans)?;
        endure(None, || {
            let mut entered = mover.enter()?;
            mover.admit(&mut entered)?;
            mover.fence(&mut entered)
        })?;
        return say(format!("course 1 has begun at {} partitions", mover.servers.len()));
    }
    let plans = (Plan::of(args, "old")?, Plan::of(args, "new")?);
    args.need("number")?;
    let to = turn::to(args, &plans.0)?;
    let most = u64::from(u32::MAX - u32::from(to.is_some()));
    let number = args.number("number", 0, 2, most)? as u32;
    let mover = Mover::new(args, number, plans)?;
    match to {
        Some(to) if args.has("dry-run") => return mover.preview_turn(&to),
        Some(to) => return mover.turn_back(args, &to),
        None => {}
    }
    if args.has("dry-run") {
        return mover.preview();
    }
    if args.has(pull::OPTION) {
        return mover.pull(args);
    }
    mover.run(args)
}

impl Mover {
    fn new(args: &Args, number: u32, (old, new): (Plan, Plan)) -> Done<Mover> {
        let password = args.password("password-file")?;
        let servers = args.parts()?;
        need_addresses(&servers, &(&old.parts | &new.parts))?;
        let accepted = accepted(args, &servers)?;
        let (moves, issue) = course::issue(number, &old, &new)?;
        let with = |server| Server { password: password.clone(), ..server };
        let diary = if args.has("dry-run") { Diary::default() } else { Diary::of(args, "leader")? };
        Ok(Mover {
            number,
            old,
            new,
            moves,
            issue,
            servers: servers.into_iter().map(|(part, server)| (part, with(server))).collect(),
            secret: args.secret()?,
            accepted,
            left: BTreeSet::new(),
            diary: Arc::new(diary),
        })
    }

    /// Moves all, from wherever an earlier run has stopped.
    fn run(&self, args: &Args) -> Done<()> {
        self.work(args, self.number, |job| self.attempt(job))
    }

    /// Does work until it is done, of which course `last` is the end.
    fn work(&self, args: &Args, last: u32, work: impl Fn(&Job) -> Done<()>) -> Done<()> {
        let bus = Node::join(Options::of(args, "mover")?)?;
        let pace = Pace::of(args)?;
        let progress = Arc::new(Progress::new(pace.clone()));
        let stuck = Arc::new(AllStuck::default());
        numbers::show(args, &bus, &progress, &stuck)?;
        let job = Job {
            number: self.number,
            servers: &self.servers,
            bus: &bus,
            progress: &progress,
            chunk: args.number("chunk", 100, 1, 1_000_000)? as usize,
            pause: Duration::from_millis(args.number("pause", 5, 0, 3_600_000)?),
            pace: &pace,
            stuck: &stuck,
            is_closed: false,
            is_over: AtomicBool::new(false),
            runs: Mutex::default(),
        };
        let settle = Duration::from_millis(args.number("settle", 10_000, 0, 3_600_000)?);
        stop::watch(|| ())?;
        let moved = thread::scope(|scope| {
            scope.spawn(|| progress.show());
            let moved = endure(Some(&job), || work(&job));
            progress.finish();
            moved
        });
        if stuck.count() > 0 && bus.tell_all().is_ok() {
            // Whether all have followed is said by the run that ends the course.
            let _ = bus.settle(settle);
        }
        moved?;
        let (keys, took) = (progress.moved(), progress.took().as_secs_f64());
        let said = say(format!("course {last}: moved {keys} keys in {took:.1} s"));
        if let Err(names) = bus.settle(settle) {
            log::warn(format!("{}; run it again if they don't", unfollowed(&names)));
        }
        said
    }

    /// All of it once, from wherever an earlier one has stopped.
    fn attempt(&self, job: &Job) -> Done<()> {
        let entered = self.start(job)?;
        self.stop_at("started");
        self.refuse_closed(&entered.partitions, &entered.survey)?;
        drop(entered);
        self.sub_plans(job)?;
        job.bus.tell_all()?;
        let told = job.bus.wait_paid(patience::most());
        told.trying(|| "all keys have moved; start it again once the bus is up".to_string())
    }

    /// Begins the course everywhere, lets its routers in, and shuts out all others.
    fn start(&self, job: &Job) -> Done<Entered> {
        let mut entered = self.enter()?;
        self.note_begin()?;
        let runs = entered.partitions.iter().map(|it| (it.part, it.life.run.clone())).collect();
        *job.runs.lock().unwrap_or_else(PoisonError::into_inner) = runs;
        self.stop_at("begun");
        self.catch_up(job, &entered)?;
        self.admit(&mut entered)?;
        self.stop_at("admitted");
        job.bus.tell_frames(std::slice::from_ref(&self.issue))?;
        thread::sleep(NOTICE);
        self.fence(&mut entered)?;
        Ok(entered)
    }

    /// All partitions, those of the old plan first. The first one decides between two movers that
    /// draw one number.
    fn partitions(&self) -> Done<Vec<Partition>> {
        let (first, rest): (Vec<_>, Vec<_>) =
            self.servers.iter().partition(|(part, _)| self.old.parts.contains(part));
        let all = first.into_iter().chain(rest);
        all.map(|(&part, server)| Partition::open(part, server, self.number)).collect()
    }

    /// Loads what was given to partitions that were restarted. Routers may have heard of loads that were lost, and
    /// send plain commands there.
    fn catch_up(&self, job: &Job, entered: &Entered) -> Done<()> {
        let mut pairs: BTreeMap<(u32, u32), Vec<Move>> = BTreeMap::new();
        for it in self.moves.iter().filter(|it| entered.survey.is_restarted(it.dest)) {
            pairs.entry((it.source, it.dest)).or_default().push(*it);
        }
        pairs.values().try_for_each(|moves| job.catch_up(moves))
    }

    /// Lets in routers of the course. Those of the course before are let in too. Then partitions say the course to
    /// those that hear nothing from the bus.
    fn admit(&self, entered: &mut Entered) -> Done<()> {
        entered.partitions.iter_mut().try_for_each(|it| it.admit(&self.secret))?;
        // All routers know course 1, and one with another plan for it shall not hear of this one.
        let issue: &[u8] = if self.number == 1 { &[] } else { &self.issue };
        entered.partitions.iter_mut().try_for_each(|it| it.tell(&self.secret, issue))
    }

    /// Shuts out routers that have not heard of the course. Keys are given only after that.
    fn fence(&self, entered: &mut Entered) -> Done<()> {
        if faults::is_on("no-fence") {
            return Ok(());
        }
        let all = entered.partitions.iter_mut();
        let generations: Vec<(u32, u64)> =
            all.map(|it| Ok((it.part, it.state()?.generation))).collect::<Done<_>>()?;
        entered.partitions.iter_mut().try_for_each(|it| it.fence(&generations))
    }

    /// The sub-plans, one after another.
    fn sub_plans(&self, job: &Job) -> Done<()> {
        let subs: BTreeSet<u32> = self.moves.iter().map(|it| it.sub).collect();
        if faults::is_on("open-early") {
            subs.iter().try_for_each(|sub| self.note_open(job, *sub))?;
        }
        for sub in subs {
            self.note_open(job, sub)?;
            job.bus.tell(|router| router.opened(self.number, sub))?;
            let moves: Vec<Move> = self.moves.iter().copied().filter(|it| it.sub == sub).collect();
            sources(job, &moves)?;
            job.stuck.check(self.number)?;
            for dest in moves.iter().map(|it| it.dest).collect::<BTreeSet<_>>() {
                self.note_done(job, sub, dest)?;
                job.bus.tell(|router| router.done(self.number, sub, dest))?;
            }
        }
        Ok(())
    }

    /// Shows what would move, and changes nothing.
    fn preview(&self) -> Done<()> {
        let mut counts: BTreeMap<u64, usize> = BTreeMap::new();
        for source in self.moves.iter().map(|it| it.source).collect::<BTreeSet<_>>() {
            let moves: Vec<&Move> = self.moves.iter().filter(|it| it.source == source).collect();
            index::scan(&mut Conn::open(&self.servers[&source])?, |keys| {
                for key in keys.iter().filter(|key| !index::is_own(key)) {
                    let rank = keymap::rank(key);
                    if let Some(it) = moves.iter().find(|it| it.lo <= rank && rank < it.hi) {
                        *counts.entry(it.lo.0).or_default() += 1;
                    }
                }
                Ok(())
            })?;
        }
        for it in &self.moves {
            let count = counts.get(&it.lo.0).unwrap_or(&0);
            let Move { lo, hi, source, dest, sub } = it;
            say(format!("move [{lo},{hi}) {source} to {dest} sub {sub}: {count} keys"))?;
        }
        let total: usize = counts.values().sum();
        say(format!("course {}: {} moves, {total} keys", self.number, self.moves.len()))
    }
}

/// Which nodes of the bus have not heard all. `SQUALL INFO` of a proxy says its name.
fn unfollowed(names: &[String]) -> String {
    if names.is_empty() {
        return "it is not known whether all proxies have heard all".into();
    }
    format!("these have not heard all: {}", names.join(", "))
}

/// The moves of one sub-plan, those of each source in a thread of its own.
fn sources(job: &Job, moves: &[Move]) -> Done<()> {
    let sources: BTreeSet<u32> = moves.iter().map(|it| it.source).collect();
    thread::scope(|scope| {
        let threads: Vec<_> = sources
            .into_iter()
            .map(|source| {
                let own: Vec<Move> = moves.iter().copied().filter(|it| it.source == source).collect();
                scope.spawn(move || {
                    let fed = job.feed(&own);
                    job.is_over.fetch_or(fed.as_ref().is_err_and(Fault::is_lost), Relaxed);
                    fed
                })
            })
            .collect();
        let ended = || Err(Fault::new("a source's thread has ended"));
        let all: Vec<_> = threads.into_iter().map(|it| it.join().unwrap_or_else(|_| ended())).collect();
        let (lost, others): (Vec<_>, Vec<_>) =
            all.into_iter().partition(|it| it.as_ref().is_err_and(Fault::is_lost));
        // One that does not pass comes first.
        others.into_iter().chain(lost).collect()
    })
}

/// Does it again as long as connections are lost, and that is borne.
fn endure(job: Option<&Job>, mut work: impl FnMut() -> Done<()>) -> Done<()> {
    let mut endurance = Endurance::default();
    loop {
        match work() {
            Err(fault) if endurance.bears(&fault, job.map_or(0, |job| job.progress.steps())) => {}
            done => return done,
        }
        if let Some(job) = job {
            job.progress.restart();
            job.is_over.store(false, Relaxed);
        }
    }
}

/// Nothing, if all partitions have an address.
fn need_addresses(servers: &BTreeMap<u32, Server>, parts: &BTreeSet<u32>) -> Done<()> {
    match parts.iter().find(|part| !servers.contains_key(part)) {
        None => Ok(()),
        Some(part) => Err(Fault::new(format!(
            "a plan names partition {part}, which has no address: --part {part}=HOST:PORT is missing"
        ))),
    }
}

/// The partitions of `--accept-loss`.
fn accepted(args: &Args, servers: &BTreeMap<u32, Server>) -> Done<BTreeSet<u32>> {
    let part = |word: &str| {
        let part = word.parse().ok().filter(|part| servers.contains_key(part));
        part.ok_or_else(|| Fault::of_words(format!("--accept-loss {word}: no --part has that number")))
    };
    args.all("accept-loss").map(part).collect()
}
