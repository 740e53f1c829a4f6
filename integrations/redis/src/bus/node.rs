//! A node of the bus: a router that hears all others.

use super::agenda::{Agenda, Answer, AT_ONCE};
use super::carrier::{self, Bus};
use super::entry::{Entry, Heard};
use super::peers::Peers;
use super::reach::{Reach, Side};
use crate::args::Args;
use crate::course::{Plan, Progress};
use crate::diary::Diary;
use crate::dice::Dice;
use crate::fault::Done;
use crate::faults;
use crate::log;
use crate::secret::digits;
use squall::{Course, Error, Router, View};
use std::sync::atomic::{AtomicBool, AtomicU64, Ordering::Relaxed, Ordering::SeqCst};
use std::sync::{Arc, Mutex, MutexGuard, PoisonError};
use std::thread;
use std::time::{Duration, Instant};

/// Between two digests of a node.
pub const ROUND: Duration = Duration::from_secs(1);
/// The pause before the bus is tried again, at first and at most.
pub const FIRST: Duration = Duration::from_millis(50);
const LAST: Duration = Duration::from_secs(1);
/// A connection that has lasted for so long is no vain one.
const STEADY: Duration = Duration::from_secs(1);

/// What a node needs to join.
pub struct Options {
    /// What carries frames.
    pub bus: Box<dyn Bus>,
    /// What the node is, as `proxy`. Its name also has digits by chance.
    pub kind: &'static str,
    /// The text of the plan of course 1.
    pub plan: Vec<u8>,
    /// Frames that it knows from before.
    pub known: Vec<Vec<u8>>,
    /// Where it writes down what it hears.
    pub diary: Diary,
}

impl Options {
    /// What the words of the command line say of a node of that kind, which knows nothing from before.
    pub fn of(args: &Args, kind: &'static str) -> Done<Options> {
        // A mover waits for all to know what it has said.
        let bus = carrier::open(args, kind == "mover")?;
        let diary = Diary::of(args, "router")?;
        Ok(Options { bus, kind, plan: Plan::of(args, "first")?.text, known: Vec::new(), diary })
    }
}

/// What a node has counted.
#[derive(Default)]
pub struct Counts {
    /// Frames that were taken.
    pub taken: AtomicU64,
    /// Entries that hold no frame.
    pub refused: AtomicU64,
    /// Entries without the deployment's seal.
    pub foreign: AtomicU64,
    /// Frames of repairs that were sent.
    pub repairs: AtomicU64,
    /// Answers that were dropped, since another node answered.
    pub dropped: AtomicU64,
    /// Faults of the connection to the bus.
    pub faults: AtomicU64,
}

/// A node of the bus, which hears and answers in threads of its own.
pub struct Node {
    pub(super) bus: Box<dyn Bus>,
    pub(super) name: String,
    router: Mutex<Router>,
    /// The newest view. `views` is how many there were.
    view: Mutex<View>,
    views: AtomicU64,
    agenda: Agenda,
    wakers: Mutex<Vec<Box<dyn Fn() + Send>>>,
    /// Whether the bus can be reached.
    pub(super) reach: Reach,
    /// What other nodes have shown.
    pub(super) peers: Mutex<Peers>,
    /// When the node joined, or the bus has said anything last.
    heard: Mutex<Instant>,
    has_heard: AtomicBool,
    diary: Diary,
    /// What it has counted.
    pub counts: Counts,
}

/// Locks what no thread leaves half done.
pub(super) fn lock<T>(mutex: &Mutex<T>) -> MutexGuard<'_, T> {
    mutex.lock().unwrap_or_else(PoisonError::into_inner)
}

impl Node {
    /// Joins the bus. The node begins with course 1, which moves nothing, and with what the stream
    /// still has.
    ///
    /// # Errors
    ///
    /// The text is no plan, or one of the frames that it knows is none. That the bus can't be reached is none: the node tries on.
    pub fn join(options: Options) -> Done<Arc<Node>> {
        let mut router = Router::open(1, &options.plan, &options.plan)?;
        options.known.iter().try_for_each(|frame| router.hear(frame))?;
        let view = router.view()?;
        let node = Arc::new(Node {
            bus: options.bus,
            name: format!("{}-{:016x}", options.kind, Dice::fresh().draw()),
            router: Mutex::new(router),
            view: Mutex::new(view),
            views: AtomicU64::new(1),
            agenda: Agenda::new(),
            wakers: Mutex::default(),
            reach: Reach::default(),
            peers: Mutex::new(Peers::new(Instant::now())),
            heard: Mutex::new(Instant::now()),
            has_heard: AtomicBool::new(false),
            diary: options.diary,
            counts: Counts::default(),
        });
        node.run(Side::Hear, Node::hear);
        node.run(Side::Tell, Node::answer);
        Ok(node)
    }

    /// Does the work in a thread, and begins it again after a fault, later each time that it was in vain.
    fn run(self: &Arc<Node>, side: Side, work: fn(&Node) -> Done<()>) {
        let node = self.clone();
        thread::spawn(move || {
            let (mut began, mut pause) = (Instant::now(), FIRST);
            while let Err(fault) = work(&node) {
                node.counts.faults.fetch_add(1, Relaxed);
                node.reach.lose(side, fault);
                pause = if began.elapsed() < STEADY { LAST.min(pause * 2) } else { FIRST };
                thread::sleep(pause);
                node.ask();
                began = Instant::now();
            }
        });
    }

    /// Calls the function after each change of the view, in a thread of the node.
    pub fn on_news(&self, waker: impl Fn() + Send + 'static) {
        lock(&self.wakers).push(Box::new(waker));
    }

    /// Reads the files of certificates again.
    pub fn renew(&self, args: &Args) -> Done<()> {
        self.bus.renew(args)
    }

    /// Its name on the bus.
    pub fn name(&self) -> &str {
        &self.name
    }

    /// The number of the newest course.
    pub fn number(&self) -> u32 {
        lock(&self.view).number()
    }

    /// Whether the bus has ever said anything.
    pub fn has_heard(&self) -> bool {
        self.has_heard.load(Relaxed)
    }

    /// For how long the bus has said nothing.
    pub fn silence(&self) -> Duration {
        lock(&self.heard).elapsed()
    }

    /// How many views there were. It rises after a view was changed.
    pub fn views(&self) -> u64 {
        self.views.load(SeqCst)
    }

    /// The newest view, and how many there were.
    pub fn view(&self) -> (View, u64) {
        let view = lock(&self.view);
        (view.clone(), self.views())
    }

    /// How far the newest course is.
    ///
    /// # Errors
    ///
    /// There is no memory.
    pub fn progress(&self) -> Done<Progress> {
        self.course().map(|(_, progress)| progress)
    }

    /// The newest course, and how far it is.
    ///
    /// # Errors
    ///
    /// There is no memory.
    pub fn course(&self) -> Done<(Course, Progress)> {
        let router = lock(&self.router);
        let course = router.course()?;
        let progress = Progress::of(&course, |keys| router.legs(keys));
        Ok((course, progress))
    }

    /// The frames of all that this node knows.
    ///
    /// # Errors
    ///
    /// There is no memory.
    pub fn board(&self) -> Done<Vec<Vec<u8>>> {
        Ok(lock(&self.router).board()?.collect())
    }

    /// Shows at once what this node knows, for others to tell it the rest.
    pub fn ask(&self) {
        self.agenda.want();
    }

    /// Takes frames that did not come over the bus: whether there was any news.
    pub fn learn(&self, frames: &[Vec<u8>]) -> Done<bool> {
        let mut router = lock(&self.router);
        let before: Vec<Vec<u8>> = router.digest()?.collect();
        frames.iter().try_for_each(|frame| router.hear(frame))?;
        frames.iter().for_each(|frame| self.write_down(frame));
        let is_news = !router.digest()?.eq(before);
        if is_news {
            self.publish(&router)?;
        }
        Ok(is_news)
    }

    /// Frames that the bus takes. If a single report or a digest is too long for it, they are made without a
    /// limit: the bus leaves out what it does not take, and says so.
    pub(super) fn within(
        &self,
        most: usize,
        make: impl Fn(&mut Router, usize) -> Result<Vec<Vec<u8>>, Error>,
    ) -> Result<Vec<Vec<u8>>, Error> {
        let mut router = lock(&self.router);
        match make(&mut router, most) {
            Err(Error::TooLong) => make(&mut router, usize::MAX),
            frames => frames,
        }
    }

    /// The digest that this node shows.
    fn digest(&self) -> Result<Vec<Vec<u8>>, Error> {
        self.within(self.bus.most_shown(), |router, limit| Ok(router.digest_within(limit)?.collect()))
    }

    fn publish(&self, router: &Router) -> Done<()> {
        let view = router.view()?;
        if view.number() != self.number() {
            faults::stop_at("course-heard");
        }
        *lock(&self.view) = view;
        self.views.fetch_add(1, SeqCst);
        lock(&self.wakers).iter().for_each(|waker| waker());
        Ok(())
    }

    /// Hears others, for ever.
    fn hear(&self) -> Done<()> {
        let mut ears = self.bus.listen()?;
        let began = Instant::now();
        let mut dice = Dice::fresh();
        let misses = faults::misses();
        loop {
            let Heard { mut frames, mut digests, foreign, at } = ears.read()?;
            if began.elapsed() >= STEADY {
                self.reach.find(Side::Hear);
            }
            if let Some(at) = at {
                *lock(&self.heard) = at;
                self.has_heard.store(true, Relaxed);
            }
            self.pass_over(foreign);
            let mut is_heard = |entry: &Entry| entry.from != self.name && dice.below(100) >= misses;
            frames.retain(&mut is_heard);
            digests.retain(&mut is_heard);
            self.take(&frames)?;
            self.consider(&frames, digests, &mut dice);
        }
    }

    /// Counts entries that were passed over, and says once that there are some.
    fn pass_over(&self, foreign: u64) {
        if foreign > 0 && self.counts.foreign.fetch_add(foreign, Relaxed) == 0 {
            log::warn(
                "bus: an entry is passed over that no program with this --secret-file has written; \
                 SQUALL INFO and /metrics count all of them (entries_foreign)",
            );
        }
    }

    /// Takes frames. One that is none changes nothing.
    fn take(&self, frames: &[Entry]) -> Done<()> {
        if frames.is_empty() {
            return Ok(());
        }
        let mut router = lock(&self.router);
        for entry in frames {
            match router.hear(&entry.frame) {
                Ok(()) => {
                    self.write_down(&entry.frame);
                    self.counts.taken.fetch_add(1, Relaxed)
                }
                Err(Error::Frame(_)) => self.counts.refused.fetch_add(1, Relaxed),
                Err(error) => return Err(error.into()),
            };
        }
        self.publish(&router)
    }

    /// Writes down a frame that was taken.
    fn write_down(&self, frame: &[u8]) {
        self.diary.try_write(|| format!("heard {}", digits(frame)));
    }

    /// Plans the answers to digests, and drops those that others gave.
    fn consider(&self, frames: &[Entry], digests: Vec<Entry>, dice: &mut Dice) {
        let given: Vec<&String> = frames.iter().filter_map(|it| it.re.as_ref()).collect();
        if given.is_empty() && digests.is_empty() {
            return;
        }
        let now = Instant::now();
        let own = self.digest().unwrap_or_default();
        lock(&self.peers).take(&digests, &own, now);
        let dropped = self.agenda.take(digests, &given, dice);
        self.counts.dropped.fetch_add(dropped as u64, Relaxed);
    }

    /// Shows a digest each second and when it is wanted, and answers those of others, for ever.
    fn answer(&self) -> Done<()> {
        let mut shown = Instant::now();
        let mut pause = AT_ONCE;
        loop {
            let due = self.agenda.wait(shown, pause);
            if shown.elapsed() >= AT_ONCE && (due.is_none() || shown.elapsed() >= ROUND) {
                let digest = self.digest()?;
                self.bus.show(&self.name, &digest)?;
                (shown, pause) = (Instant::now(), ROUND);
                self.pay()?;
                self.reach.find(Side::Tell);
            }
            for answer in due.into_iter().flatten() {
                self.repair(&answer)?;
            }
        }
    }

    /// Answers a digest, if this node knows more.
    fn repair(&self, answer: &Answer) -> Done<()> {
        let repaired = self.within(self.bus.most(), |router, limit| {
            router.hear(&answer.digest)?;
            Ok(router.repair_within(limit)?.collect())
        });
        let repair = match repaired {
            Err(Error::Frame(_)) => {
                self.counts.refused.fetch_add(1, Relaxed);
                return Ok(());
            }
            Err(Error::NoDigest) => return Ok(()),
            repaired => repaired?,
        };
        self.counts.repairs.fetch_add(repair.len() as u64, Relaxed);
        self.bus.write(&self.name, &repair, Some(&answer.id))
    }
}
