//! A client: its commands in order, and their answers in the same order.

use super::plan::{Plan, Words};
use super::session::Session;
use super::slot::{join, Slot};
use super::socket::{drop_first, Out, Socket, KEPT_OF_CLIENT};
use super::task::{Deed, Queue, Task, Watch};
use super::topics::{Ending, Topic, Topics};
use crate::resp::{unfold, Broken, Parser};
use squall::{Errand, Reply};
use std::collections::VecDeque;
use std::time::{Duration, Instant};

/// No client has more commands that wait for answers.
pub const MOST_COMMANDS: usize = 4096;
/// How many bytes an answer is expected to have, of a client that had none yet, and at least.
const FIRST: usize = 1 << 15;
const LEAST: usize = 1 << 8;
/// If more bytes than these are answered, they are dropped before all are answered.
const ANSWERED: usize = 1 << 16;

/// A request that a partition has refused, to be done by an errand.
pub struct Diverted {
    /// The command's number, and the part of it.
    pub seq: u64,
    pub part: u32,
    /// The partition that was asked, and what it replied.
    pub said: Option<(u32, Reply)>,
}

/// The errand of the first request that was refused.
pub struct Chase {
    /// The errand, and whether it has ended without the key.
    pub errand: Errand,
    pub is_lost: bool,
    /// The partition to which the view routed the key when it was started, and that view's course.
    pub routed: Option<u32>,
    pub number: u32,
    /// When the request was refused, and when to ask again.
    pub since: Instant,
    pub again: Instant,
    /// The pause before it is asked again.
    pub pause: Duration,
}

/// A client of a worker.
pub struct Client {
    /// A number that no other client has or had, and what is known of it.
    pub id: u64,
    pub session: Session,
    /// The most bytes of an answer.
    most: usize,
    /// Its connection.
    pub stream: Socket,
    /// What it sent and is not answered, and the place of its first byte among all that it sent.
    pub input: Vec<u8>,
    base: u64,
    /// Where the next command begins in the input, and what was read of it.
    pub next: usize,
    pub parser: Parser,
    /// Whether more may have come than was read, and whether the other end sends nothing after that.
    pub is_unread: bool,
    pub has_closed: bool,
    /// What is to be sent to it.
    pub out: Out,
    window: VecDeque<Slot>,
    first: u64,
    /// The bytes of answers that wait for an earlier one.
    pub held: usize,
    /// How many bytes an answer is expected to have, by those before.
    expected: usize,
    /// How many bytes of memory are counted for it, and whether it waits for memory.
    pub counted: usize,
    pub is_back: bool,
    /// How many requests are in flight, and how many of them by a guard.
    pub in_flight: usize,
    pub guarded: usize,
    /// The view by which the last request was sent, and that view's course.
    pub sent_by: (u64, u32),
    /// The requests that were refused, by number and part once nothing is in flight.
    pub diverted: Vec<Diverted>,
    pub chase: Option<Chase>,
    /// Since when the next command waits for its partition.
    pub waits_since: Option<Instant>,
    /// What it has queued since MULTI, and which keys it watches.
    pub queue: Option<Queue>,
    pub watch: Option<Watch>,
    /// What it subscribes to, and what it waits to have.
    pub topics: Topics,
    pub awaited: Vec<Topic>,
    /// Subscriptions that it has ended, if they are not confirmed yet.
    pub ending: Option<Ending>,
    /// Its next command, if it is done on a connection of its own.
    pub task: Option<Task>,
    /// Whether it speaks RESP3.
    pub is_resp3: bool,
    /// Whether it sends no more, and whether it is closed after the last answer.
    pub is_shut: bool,
    pub is_ending: bool,
    /// Whether it is in the list of those that have answers, and of those that are to go on.
    pub is_dirty: bool,
    pub is_woken: bool,
    pub is_blocked: bool,
}

impl Client {
    /// A client that has sent nothing.
    pub fn new(session: Session, stream: Socket, most: usize) -> Client {
        Client {
            id: session.card.id,
            session,
            most,
            stream,
            input: Vec::new(),
            base: 0,
            next: 0,
            parser: Parser::default(),
            is_unread: false,
            has_closed: false,
            out: Out::keeping(KEPT_OF_CLIENT),
            window: VecDeque::new(),
            first: 0,
            held: 0,
            expected: FIRST,
            counted: 0,
            is_back: false,
            in_flight: 0,
            guarded: 0,
            sent_by: (0, 0),
            diverted: Vec::new(),
            chase: None,
            waits_since: None,
            queue: None,
            watch: None,
            topics: Topics::default(),
            awaited: Vec::new(),
            ending: None,
            task: None,
            is_resp3: false,
            is_shut: false,
            is_ending: false,
            is_dirty: false,
            is_woken: false,
            is_blocked: false,
        }
    }

    /// How many bytes it holds.
    pub fn memory(&self) -> usize {
        let queued = self.queue.as_ref().map_or(0, |queue| queue.bytes.len());
        self.input.len() + self.out.len() + self.held + queued + self.gathered()
    }

    /// How much memory it takes.
    pub fn footprint(&self) -> usize {
        let queued = self.queue.as_ref().map_or(0, |queue| queue.bytes.capacity());
        self.input.capacity() + self.out.bytes.capacity() + self.held + queued + self.gathered()
    }

    fn gathered(&self) -> usize {
        self.topics.held + self.task.as_ref().map_or(0, Task::held)
    }

    /// Whether it may have another command in flight: the answers that it has not taken and those that are expected
    /// leave room for one. It has room for one of any size.
    pub fn has_room(&self, most: usize) -> bool {
        let coming = self.in_flight * self.expected;
        self.window.len() < MOST_COMMANDS && self.out.len() + self.held + coming < most
    }

    /// Whether a request that is sent by a view and its course comes after those in flight.
    ///
    /// Guarded requests may be refused, and all requests of a course before. By another view a later
    /// request could go to another partition and be done before them.
    pub fn keeps_order(&self, views: u64, number: u32) -> bool {
        let (sent_views, sent_number) = self.sent_by;
        self.in_flight == 0 || sent_number == number && (self.guarded == 0 || sent_views == views)
    }

    /// Whether all its commands are answered.
    pub fn is_answered(&self) -> bool {
        self.window.is_empty()
    }

    /// Whether it waits for a key.
    pub fn waits(&self) -> bool {
        self.task.as_ref().is_some_and(|task| matches!(task.deed, Deed::Wait(_)))
    }

    /// Whether it has begun what goes on: a transaction, a wait or a subscription.
    pub fn is_amid(&self) -> bool {
        self.queue.is_some() || self.waits() || !self.topics.is_empty() || !self.awaited.is_empty()
    }

    /// The words of the command that was read.
    pub fn words(&self) -> Words<'_> {
        Words { bytes: &self.input[self.next..], places: self.parser.words() }
    }

    /// Whether that connection watches its keys.
    pub fn watches_on(&self, upstream: Option<usize>) -> bool {
        upstream.is_some() && self.watch.as_ref().is_some_and(|watch| watch.upstream == upstream)
    }

    /// Nothing, as an answer.
    pub fn nil(&self) -> &'static [u8] {
        if self.is_resp3 {
            b"_\r\n"
        } else {
            b"$-1\r\n"
        }
    }

    /// The answer to a transaction that was not done, since keys that are watched have changed.
    pub fn nil_list(&self) -> Vec<u8> {
        let nil: &[u8] = if self.is_resp3 { b"_\r\n" } else { b"*-1\r\n" };
        nil.to_vec()
    }

    /// The number of the next command.
    pub fn next_seq(&self) -> u64 {
        self.first + self.window.len() as u64
    }

    /// Adds the command that was read, which is done by the plan.
    pub fn add(&mut self, plan: Plan) {
        let left = plan.len();
        let replies = if left > 1 { vec![Vec::new(); left] } else { Vec::new() };
        self.push(Some(plan), left, replies);
    }

    /// Adds the command that was read, with its answer.
    pub fn add_answer(&mut self, answer: Vec<u8>) {
        if self.window.is_empty() {
            self.out.bytes.extend_from_slice(&answer);
            self.first += 1;
            self.pass();
            self.drop_answered();
        } else {
            self.held += answer.len();
            self.push(None, 0, vec![answer]);
        }
    }

    fn push(&mut self, plan: Option<Plan>, left: usize, replies: Vec<Vec<u8>>) {
        let begin = self.base + self.next as u64;
        let (len, is_resp3) = (self.parser.len(), self.is_resp3);
        let held = replies.iter().map(Vec::len).sum();
        self.window.push_back(Slot { begin, len, is_resp3, plan, left, replies, bytes: 0, held });
        self.pass();
    }

    /// Goes on to the next command.
    fn pass(&mut self) {
        self.next += self.parser.len();
        self.parser.reset();
    }

    /// Puts the next command into the form of RESP, and some after it, if it comes as a line: whether more of it can be
    /// read.
    ///
    /// # Errors
    ///
    /// It is no line of words.
    pub fn unfold(&mut self) -> Result<bool, Broken> {
        let rest = &self.input[self.next..];
        if !self.parser.is_empty() || rest.first().is_none_or(|&byte| byte == b'*') {
            return Ok(true);
        }
        let Some((len, commands)) = unfold(rest)? else {
            return Ok(false);
        };
        // Nothing refers to bytes that come later.
        self.input.splice(self.next..self.next + len, commands);
        Ok(true)
    }

    /// Speaks RESP3 from now on, or RESP2.
    pub fn speak(&mut self, is_resp3: bool) {
        let is_other = self.is_resp3 != is_resp3;
        if let Some(watch) = self.watch.as_mut().filter(|_| is_other) {
            // The connection that watches its keys speaks the other protocol.
            watch.is_broken = true;
        }
        self.is_resp3 = is_resp3;
    }

    /// Goes on after a command of no words.
    pub fn skip(&mut self) {
        self.pass();
        self.drop_answered();
    }

    /// Takes the answer of a part of a command.
    pub fn answer(&mut self, seq: u64, part: u32, reply: &[u8]) {
        self.expected = (self.expected - self.expected / 64).max(reply.len()).max(LEAST);
        let at = (seq - self.first) as usize;
        let slot = &mut self.window[at];
        slot.left -= 1;
        if slot.replies.is_empty() {
            if at == 0 {
                self.out.bytes.extend_from_slice(reply);
                self.window.pop_front();
                self.first += 1;
                self.flush_answers();
                return;
            }
            slot.replies.push(Vec::new());
        }
        let before = slot.held;
        slot.take(part as usize, reply, self.most);
        self.held = self.held + slot.held - before;
        self.flush_answers();
    }

    /// Moves the answers of the first commands to what is sent.
    fn flush_answers(&mut self) {
        while let Some(slot) = self.window.front() {
            if slot.left > 0 {
                break;
            }
            self.held -= slot.held;
            join(slot, &mut self.out.bytes);
            self.window.pop_front();
            self.first += 1;
        }
        self.drop_answered();
    }

    /// How many bytes at the beginning of the input are those of commands that are answered.
    fn answered(&self) -> usize {
        match self.window.front() {
            Some(slot) => (slot.begin - self.base) as usize,
            None => self.next,
        }
    }

    /// Drops the bytes of commands that are answered, if they are many.
    fn drop_answered(&mut self) {
        let answered = self.answered();
        if answered == self.input.len() || answered >= ANSWERED {
            self.make_room();
        }
    }

    /// Drops the bytes of commands that are answered.
    pub fn make_room(&mut self) {
        let answered = self.answered();
        drop_first(&mut self.input, answered, KEPT_OF_CLIENT);
        self.base += answered as u64;
        self.next -= answered;
    }

    /// Whether a command that is not answered is to be answered in RESP3.
    pub fn is_resp3_of(&self, seq: u64) -> bool {
        self.window.get((seq - self.first) as usize).is_some_and(|slot| slot.is_resp3)
    }

    /// Calls the function with a command that is not answered: its plan, its words, and how many bytes
    /// it has.
    pub fn with<T>(&self, seq: u64, see: impl FnOnce(&Plan, Words, usize) -> T) -> Option<T> {
        let slot = self.window.get((seq - self.first) as usize)?;
        let begin = (slot.begin - self.base) as usize;
        let bytes = &self.input[begin..begin + slot.len];
        let mut parser = Parser::default();
        parser.read(bytes, bytes.len()).ok()?;
        let words = Words { bytes, places: parser.words() };
        Some(see(slot.plan.as_ref()?, words, slot.len))
    }
}
