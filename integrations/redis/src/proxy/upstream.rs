//! A connection from a worker to a partition, which the commands of all its clients share.

use super::roles::{Role, Standing, Table, Tables};
use super::socket::{drop_first, receive, Out, Received, Socket, A_TURN, KEPT};
use crate::conn::Server;
use crate::fault::Done;
use crate::log;
use crate::resp::{push, Scan};
use crate::user;
use mio::net::TcpStream;
use squall::Rank;
use std::collections::VecDeque;
use std::sync::Arc;
use std::time::{Duration, Instant};

/// Between two attempts to connect or to log in, and the most between two log-ins that are refused one after the other.
const AGAIN: Duration = Duration::from_millis(20);
const LONGEST: Duration = Duration::from_secs(1);
/// Commands wait if more bytes than these are to be sent.
const MOST_OUT: usize = 4 << 20;

/// A request that was sent and is not answered.
#[derive(Clone, Copy)]
pub struct InFlight {
    /// The client's place, and its number.
    pub client: usize,
    pub id: u64,
    /// The command's number in the client, and the part of it.
    pub seq: u64,
    pub part: u32,
    /// Whether it was sent by the guard.
    pub is_guarded: bool,
    /// Whether an errand sent it.
    pub is_chased: bool,
    /// Whether its answer is a page of a walk over the members of a key.
    pub is_page: bool,
}

/// What a connection is at.
#[derive(Clone, Copy, PartialEq)]
pub enum State {
    /// There is none. Another one may be tried from then on.
    Down(Instant),
    /// It logs in: how many answers are still to come, and whether one was a refusal.
    Entering(u8, bool),
    /// The partition does not let it in. It may ask again from then on.
    Refused(Instant),
    /// It serves.
    Ready,
}

/// An answer that is due.
#[derive(Clone, Copy)]
pub enum Due {
    /// That to a request of a client.
    Request(InFlight),
    /// How far the partition is with its moves.
    Moves,
    /// That it is there.
    Beat,
}

/// A connection to a partition.
pub struct Upstream {
    /// The partition.
    pub part: u32,
    /// Whether it speaks RESP3.
    pub is_resp3: bool,
    /// Its address, and how to connect there.
    pub server: Server,
    /// The connection, if there is one.
    pub stream: Option<Socket>,
    /// What it is at.
    pub state: State,
    /// The pause after the next refusal, the view by which it was refused last, and from when on another view lets it
    /// try again.
    pause: Duration,
    refused_by: u64,
    least: Instant,
    /// The course by which it is let in.
    pub number: u32,
    /// The course whose refusal was shown last, and the fault of TLS that was.
    shown: u32,
    shown_fault: String,
    /// How the partition takes part in that course.
    pub table: Arc<Table>,
    /// What is to be sent.
    pub out: Out,
    /// What was heard and is not answered to clients yet.
    pub heard: Vec<u8>,
    /// The scan of the first reply in it, and how many bytes of that were dropped since it is too large.
    pub scan: Scan,
    pub dropped: usize,
    /// What was sent, in order.
    pub sent: VecDeque<Due>,
    /// When the last answer came, or the first question was sent.
    pub progress: Instant,
    /// Whether it is in the list of those that have something to send.
    pub is_dirty: bool,
    /// What it is to the client whose own it is, if it is no connection of all clients.
    pub own: Option<Own>,
    /// Whether it tells of messages.
    pub is_feed: bool,
}

/// A connection that serves one client at a time.
#[derive(Default)]
pub struct Own {
    /// The client's place and its number, if one has it.
    pub client: Option<(usize, u64)>,
    /// Whether the client's command is under way on it, or the client's keys are watched.
    pub is_held: bool,
    /// How many answers come first that nobody waits for.
    pub skip: usize,
    /// When the connection is given up, unless the client has its answers.
    pub due: Option<Instant>,
}

impl Upstream {
    /// A partition that is not connected.
    pub fn new(part: u32, server: Server, is_resp3: bool, now: Instant) -> Upstream {
        Upstream {
            part,
            is_resp3,
            server,
            stream: None,
            state: State::Down(now),
            pause: AGAIN,
            refused_by: 0,
            least: now,
            number: 0,
            shown: 0,
            shown_fault: String::new(),
            table: Arc::new(Table::new(0, now)),
            out: Out::default(),
            heard: Vec::new(),
            scan: Scan::default(),
            dropped: 0,
            sent: VecDeque::new(),
            progress: now,
            is_dirty: false,
            own: None,
            is_feed: false,
        }
    }

    /// Begins to connect. The caller registers the stream.
    pub fn connect(&mut self) -> Done<&mut TcpStream> {
        let stream = Socket::connect(&self.server)?;
        self.out.clear();
        self.heard.clear();
        (self.scan, self.dropped) = (Scan::default(), 0);
        Ok(self.stream.insert(stream).source())
    }

    /// Drops the connection: the requests whose answers are lost.
    pub fn drop_stream(&mut self, now: Instant) -> VecDeque<InFlight> {
        let stream = self.stream.take();
        if let Some(fault) = stream.as_ref().and_then(Socket::fault).filter(|it| *it != self.shown_fault) {
            log::warn(format!("partition {}: {fault}", self.part));
            self.shown_fault = fault.to_string();
        }
        self.state = State::Down(now + AGAIN);
        self.number = 0;
        if let Some(own) = &mut self.own {
            *own = Own { client: own.client, ..Own::default() };
        }
        let mut lost = VecDeque::new();
        for due in std::mem::take(&mut self.sent) {
            match due {
                Due::Request(sent) => lost.push_back(sent),
                Due::Moves => self.table.end_question(now),
                Due::Beat => {}
            }
        }
        lost
    }

    /// Logs in for a course, once nothing is in flight.
    pub fn enter(&mut self, (number, views): (u32, u64), secret: &str, first: &str) {
        let name = user(number);
        if self.is_resp3 {
            push(&mut self.out.bytes, &["HELLO", "3", "AUTH", &name, secret]);
        } else {
            push(&mut self.out.bytes, &["AUTH", &name, secret]);
        }
        let text = number.to_string();
        // No frame says what the plan of course 1 is.
        let plan = (number == 1).then_some(first);
        let words = ["FCALL", "squall_moves", "0", &text].into_iter().chain(plan);
        push(&mut self.out.bytes, &words.collect::<Vec<_>>());
        self.state = State::Entering(2, false);
        (self.number, self.refused_by) = (number, views);
    }

    /// Takes an answer of the log-in: whether it is over.
    pub fn entered(&mut self, reply: &[u8], now: Instant, tables: &Tables) -> bool {
        let State::Entering(left, was_refused) = self.state else {
            return false;
        };
        let is_refused = was_refused || reply.first() == Some(&b'-');
        if is_refused && !was_refused && self.shown != self.number {
            self.shown = self.number;
            let why = String::from_utf8_lossy(&reply[1..]);
            log::warn(format!("partition {} refuses course {}: {}", self.part, self.number, why.trim_end()));
        }
        if left > 1 {
            self.state = State::Entering(left - 1, is_refused);
            return false;
        }
        self.state = match Table::read(self.number, reply, now).filter(|_| !is_refused) {
            Some(said) => {
                self.table = tables.take(self.part, said);
                self.pause = AGAIN;
                State::Ready
            }
            None => {
                let again = now + self.pause;
                (self.least, self.pause) = (now + AGAIN, LONGEST.min(self.pause * 2));
                State::Refused(again)
            }
        };
        true
    }

    /// Whether it may log in by that course now: it is logged in by another one, or has been refused for long enough.
    /// News of the router may be why it is let in, so they make it try at once.
    pub fn may_enter(&self, number: u32, views: u64, now: Instant) -> bool {
        match self.state {
            State::Ready => self.number != number,
            State::Refused(again) => {
                let has_news = views != self.refused_by && now >= self.least;
                now >= again || has_news || self.number != number
            }
            _ => false,
        }
    }

    /// Asks how far the partition is with its moves, if it may be asked now: whether it was.
    pub fn ask_moves(&mut self, now: Instant) -> bool {
        let is_asked = self.state == State::Ready && self.table.may_ask(now);
        if is_asked {
            push(&mut self.out.bytes, &["FCALL_RO", "squall_moves", "0", &self.number.to_string()]);
            self.expect(Due::Moves, now);
        }
        is_asked
    }

    /// Takes the answer to that. If it is an error, all stays as it was said before.
    pub fn answered_moves(&mut self, reply: &[u8], now: Instant, tables: &Tables) {
        self.table.end_question(now);
        if let Some(said) = Table::read(self.number, reply, now) {
            self.table = tables.take(self.part, said);
        }
    }

    /// Whether it waits for answers that have to come before it may log in anew.
    pub fn is_held(&self) -> bool {
        !self.sent.is_empty() || self.own.as_ref().is_some_and(|own| own.is_held)
    }

    /// Whether answers are late.
    pub fn is_late(&self, now: Instant, most: Duration) -> bool {
        let is_asked = !self.sent.is_empty() || matches!(self.state, State::Entering(..));
        let is_due = self.own.as_ref().and_then(|own| own.due).is_some_and(|due| now > due);
        is_due || is_asked && now - self.progress > most
    }

    /// Where keys are that are asked for here together. Those that are routed elsewhere go.
    pub fn standing(&self, ranks: &[Rank], route: impl Fn(Rank) -> Option<u32>) -> Standing {
        let mut all = Standing::Stays;
        for &rank in ranks {
            match self.table.standing(rank) {
                Standing::Stays if route(rank) == Some(self.part) => {}
                Standing::Comes if route(rank) == Some(self.part) => all = Standing::Comes,
                _ => return Standing::Goes,
            }
        }
        all
    }

    /// Whether these keys can't be there together in this course: one is elsewhere, and no move brings
    /// it.
    pub fn are_apart(&self, ranks: &[Rank], route: impl Fn(Rank) -> Option<u32>) -> bool {
        let is_elsewhere = |&rank: &Rank| {
            let may_be_here = matches!(self.role(rank), Some(Role::Out | Role::In));
            !may_be_here && route(rank) != Some(self.part)
        };
        ranks.len() > 1 && ranks.iter().any(is_elsewhere)
    }

    /// Whether a command of that course may be sent.
    pub fn is_ready(&self, number: u32) -> bool {
        self.state == State::Ready && self.number == number && self.out.len() < MOST_OUT
    }

    /// How this partition takes part in the move of a key, if it moves.
    pub fn role(&self, rank: Rank) -> Option<Role> {
        self.table.role(rank)
    }

    /// Notes a question that was put.
    pub fn expect(&mut self, sent: Due, now: Instant) {
        if self.sent.is_empty() {
            self.progress = now;
        }
        self.sent.push_back(sent);
    }

    /// Reads what has come, but no more than a turn's part.
    pub fn receive(&mut self, block: &mut [u8], is_closed: bool) -> Received {
        let most = self.heard.len() + A_TURN;
        match &mut self.stream {
            Some(stream) => receive(stream, block, &mut self.heard, (is_closed, most)),
            None => Received::Lost,
        }
    }

    /// Whether its answers are ones of clients, which may hold no more than so much.
    pub fn has_limit(&self) -> bool {
        !matches!(self.state, State::Entering(..)) && !matches!(self.sent.front(), Some(Due::Moves))
    }

    /// Drops what was heard of a reply that is larger than that. The rest is dropped as it comes.
    pub fn drop_large(&mut self, most: usize) {
        if self.has_limit() && self.dropped + self.scan.least() > most {
            let count = self.scan.least().min(self.heard.len());
            drop_first(&mut self.heard, count, KEPT);
            self.scan.drop_first(count);
            self.dropped += count;
        }
    }

    /// Whether any event may let it read on.
    pub fn is_tls(&self) -> bool {
        self.stream.as_ref().is_some_and(|stream| !stream.is_plain())
    }

    /// Sends what it can: whether the connection is still open.
    pub fn flush(&mut self) -> bool {
        self.stream.as_mut().is_none_or(|stream| self.out.send(stream))
    }
}

#[cfg(test)]
mod tests {
    use super::*;

    #[test]
    fn roles_are_found() {
        let now = Instant::now();
        let mut upstream = Upstream::new(1, Server::plain("127.0.0.1:1".parse().unwrap()), false, now);
        upstream.state = State::Entering(2, false);
        let tables = Tables::default();
        assert!(!upstream.entered(b"+OK\r\n", now, &tables));
        let line = "0000000200000000 0000000300000000 out 3 0000000200000000 0000000200000000";
        let reply = format!("*1\r\n${}\r\n{line}\r\n", line.len());
        assert!(upstream.entered(reply.as_bytes(), now, &tables));
        assert!(upstream.state == State::Ready);
        assert_eq!(upstream.role(Rank::new(2, 0)), Some(Role::Out));
        let ranks = [Rank::new(1, 9), Rank::new(2, 0)];
        assert_eq!(upstream.standing(&ranks[..1], |_| Some(1)), Standing::Stays);
        assert_eq!(upstream.standing(&ranks, |_| Some(1)), Standing::Goes);
        assert_eq!(upstream.standing(&ranks[..1], |_| Some(2)), Standing::Goes);
    }

    #[test]
    fn a_refusal_is_noticed() {
        let now = Instant::now();
        let mut upstream = Upstream::new(1, Server::plain("127.0.0.1:1".parse().unwrap()), false, now);
        upstream.state = State::Entering(2, false);
        let tables = Tables::default();
        upstream.entered(b"-WRONGPASS invalid\r\n", now, &tables);
        assert!(upstream.entered(b"*0\r\n", now, &tables));
        assert!(matches!(upstream.state, State::Refused(_)));
        assert!(!upstream.may_enter(0, 0, now) && upstream.may_enter(0, 0, now + AGAIN));
        assert!(upstream.may_enter(1, 0, now));
    }

    #[test]
    fn refused_log_ins_pause() {
        let now = Instant::now();
        let mut upstream = Upstream::new(1, Server::plain("127.0.0.1:1".parse().unwrap()), false, now);
        let tables = Tables::default();
        for pause in [20, 40, 80, 160, 320, 640, 1000, 1000] {
            upstream.enter((7, 3), "", "");
            upstream.entered(b"-WRONGPASS invalid\r\n", now, &tables);
            upstream.entered(b"-NOPERM x\r\n", now, &tables);
            let after = |millis| now + Duration::from_millis(millis);
            assert!(!upstream.may_enter(7, 3, after(pause - 1)) && upstream.may_enter(7, 3, after(pause)));
            assert!(!upstream.may_enter(7, 4, after(19)) && upstream.may_enter(7, 4, after(20)));
        }
        upstream.enter((8, 4), "", "");
        upstream.entered(b"+OK\r\n", now, &tables);
        upstream.entered(b"*0\r\n", now, &tables);
        assert!(upstream.pause == AGAIN && upstream.is_ready(8));
    }
}
