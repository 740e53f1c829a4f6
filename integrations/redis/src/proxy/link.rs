//! A worker's connections to the partitions: they log in, and what they answer.

use super::slot::too_large;
use super::socket::{drop_first, Received, KEPT};
use super::upstream::{Due, State, Upstream};
use super::worker::{upstream_token, Worker};
use crate::resp::error;
use mio::Interest;
use squall::Rank;
use std::sync::atomic::Ordering::Relaxed;

impl Worker {
    /// The connection to a partition, if it can be used for a command of the view's course. Else it is
    /// made ready.
    pub(super) fn ready(&mut self, part: u32, is_resp3: bool) -> Option<usize> {
        let at = match self.by_part.get(&(part, is_resp3)) {
            Some(&at) => at,
            None => {
                let server = self.shared.setup.server(part)?;
                let at = self.upstreams.len();
                self.upstreams.push(Upstream::new(part, server, is_resp3, self.now));
                self.by_part.insert((part, is_resp3), at);
                at
            }
        };
        self.ready_at(at)
    }

    /// The first partition of these keys that can't be asked now.
    pub(super) fn unready(&self, ranks: &[Rank], is_resp3: bool) -> Option<u32> {
        let is_ready = |part: &u32| {
            let at = self.by_part.get(&(*part, is_resp3));
            at.is_some_and(|&at| self.upstreams[at].is_ready(self.view.number()))
        };
        ranks.iter().filter_map(|&rank| self.view.route(rank)).find(|part| !is_ready(part))
    }

    /// The same of a connection.
    pub(super) fn ready_at(&mut self, at: usize) -> Option<usize> {
        if self.upstreams[at].is_ready(self.view.number()) {
            return Some(at);
        }
        match self.upstreams[at].state {
            State::Down(again) if self.now >= again => self.connect(at),
            State::Refused(_) | State::Ready => self.enter(at),
            _ => {}
        }
        None
    }

    fn connect(&mut self, at: usize) {
        let now = self.now;
        let upstream = &mut self.upstreams[at];
        let interest = Interest::READABLE | Interest::WRITABLE;
        let registry = self.poll.registry();
        let connected = upstream
            .connect()
            .and_then(|stream| Ok(registry.register(stream, upstream_token(at), interest)?));
        if connected.is_err() {
            upstream.drop_stream(now);
            return;
        }
        upstream.state = State::Refused(now);
        self.enter(at);
    }

    /// Logs in by the view's course, if the connection is open, is not logged in by it, and nothing is
    /// in flight on it.
    pub(super) fn enter(&mut self, at: usize) {
        let (number, views) = (self.view.number(), self.views);
        let upstream = &mut self.upstreams[at];
        if self.feeds.holds(upstream, number) {
            return;
        }
        if upstream.may_enter(number, views, self.now) && !upstream.is_held() {
            upstream.enter((number, views), &self.shared.secret, &self.shared.first);
            upstream.progress = self.now;
            self.counts().logins.fetch_add(1, Relaxed);
            self.mark_upstream(at);
        }
    }

    pub(super) fn on_upstream(&mut self, at: usize, is_readable: bool, is_closed: bool) {
        let Some(upstream) = self.upstreams.get_mut(at) else {
            return;
        };
        if upstream.stream.is_none() {
            return;
        }
        let mut stands = true;
        if is_readable || is_closed || upstream.is_tls() {
            let received = upstream.receive(&mut self.block, is_closed);
            upstream.progress = self.now;
            stands = self.take_replies(at) && matches!(received, Received::All | Received::Some);
            if received == Received::Some {
                self.read_later(at, is_closed);
            }
        }
        if stands {
            self.mark_upstream(at);
        } else {
            self.lose(at);
        }
    }

    /// Takes the replies that are whole: whether they are replies.
    pub(super) fn take_replies(&mut self, at: usize) -> bool {
        let heard = std::mem::take(&mut self.upstreams[at].heard);
        let mut used = 0;
        let mut is_fine = true;
        loop {
            let reply = match self.upstreams[at].scan.read(&heard[used..]) {
                Ok(None) => break,
                Ok(Some(len)) => &heard[used..used + len],
                Err(_) => {
                    is_fine = false;
                    break;
                }
            };
            used += reply.len();
            if !self.take_sized(at, reply) {
                is_fine = false;
                break;
            }
        }
        let mut heard = heard;
        drop_first(&mut heard, used, KEPT);
        self.upstreams[at].heard = heard;
        self.upstreams[at].drop_large(self.shared.memory);
        is_fine
    }

    /// Takes one reply, or one that is too large instead: whether one was due.
    fn take_sized(&mut self, at: usize, reply: &[u8]) -> bool {
        let size = reply.len() + std::mem::take(&mut self.upstreams[at].dropped);
        if size == reply.len() && (size <= self.shared.memory || !self.upstreams[at].has_limit()) {
            return self.take_reply(at, reply);
        }
        self.counts().too_large.fetch_add(1, Relaxed);
        self.take_reply(at, &too_large(size, self.shared.memory))
    }

    /// Takes one reply: whether one was due.
    fn take_reply(&mut self, at: usize, reply: &[u8]) -> bool {
        let upstream = &mut self.upstreams[at];
        if upstream.is_feed && (reply.first() == Some(&b'>') || upstream.state == State::Ready) {
            return self.take_fed(at, reply);
        }
        if let Some(own) = upstream.own.as_mut().filter(|own| own.skip > 0) {
            own.skip -= 1;
            return true;
        }
        if matches!(upstream.state, State::Entering(..)) {
            if upstream.entered(reply, self.now, &self.shared.tables) {
                if upstream.state != State::Ready {
                    self.shared.node.ask();
                    self.shared.watch.hurry();
                }
                self.wake_blocked();
            }
            return true;
        }
        if upstream.own.is_some() {
            return self.take_own(at, reply);
        }
        match upstream.sent.pop_front() {
            None => return false,
            Some(Due::Request(sent)) => self.answered(at, sent, reply),
            Some(Due::Moves) => upstream.answered_moves(reply, self.now, &self.shared.tables),
            Some(Due::Beat) => {}
        }
        if self.upstreams[at].sent.is_empty() {
            self.enter(at);
        }
        true
    }

    /// Asks a partition how far it is: the bus has said of keys that they are loaded there, and it has not.
    pub(super) fn confirm(&mut self, part: u32, is_resp3: bool) {
        if let Some(at) = self.ready(part, is_resp3) {
            if self.upstreams[at].ask_moves(self.now) {
                self.mark_upstream(at);
            }
        }
    }

    /// Gives a connection up. Whether the requests on it were done is not known.
    pub(super) fn lose(&mut self, at: usize) {
        let part = self.upstreams[at].part;
        let sent = self.upstreams[at].drop_stream(self.now);
        self.counts().lost.fetch_add(1, Relaxed);
        self.lose_own(at);
        self.lose_feed(at);
        let unknown = unknown(part);
        for sent in sent {
            self.deliver(&sent, &unknown);
        }
        self.wake_blocked();
    }
}

/// What is answered if a command was not done in time, since a partition could not be asked.
pub fn unreached(part: u32) -> Vec<u8> {
    error(&format!("TRYAGAIN partition {part} can't be reached, or does not let this proxy in"))
}

/// What is answered if a connection was lost while a command was under way on it.
pub fn unknown(part: u32) -> Vec<u8> {
    error(&format!("ERR partition {part} did not answer: whether this was done is not known"))
}
