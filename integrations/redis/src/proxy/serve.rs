//! What becomes of a client's commands, one after another.

use super::client::Client;
use super::commands::Kind;
use super::follow::Targets;
use super::link::unreached;
use super::local;
use super::plan::{Plan, Words};
use super::socket::A_TURN;
use super::upstream::{Due, InFlight};
use super::worker::Worker;
use crate::resp::{error, Broken};
use std::sync::atomic::Ordering::Relaxed;

/// No word is longer of one who has to log in first.
const STRANGER: usize = 1 << 14;

/// What a client's next command came to.
#[derive(PartialEq)]
pub enum Flow {
    /// It was sent or answered.
    On,
    /// Its bytes are not all there.
    Hungry,
    /// It waits for answers, or until the client has taken some.
    Idle,
    /// It waits for time or news.
    Blocked,
}

impl Worker {
    /// Does as much of a client's commands as can be done now.
    pub(super) fn pump(&mut self, at: usize) {
        let Some(mut client) = self.clients[at].take() else {
            return;
        };
        let (mut stands, mut left) = (true, A_TURN);
        loop {
            let flow = if self.holds_back(at, &mut client) {
                Flow::Idle
            } else if client.task.is_some() {
                self.go_on_task(at, &mut client)
            } else if client.diverted.is_empty() {
                self.next_command(at, &mut client)
            } else {
                self.chase(at, &mut client)
            };
            match flow {
                Flow::On => {}
                Flow::Hungry => match self.feed(at, &mut client, &mut left) {
                    Some(true) => {}
                    Some(false) => break,
                    None => {
                        stands = false;
                        break;
                    }
                },
                Flow::Idle => break,
                Flow::Blocked => {
                    if !client.is_blocked {
                        client.is_blocked = true;
                        self.blocked.push(at);
                    }
                    break;
                }
            }
        }
        if client.out.len() > 0 {
            self.mark_client(at, &mut client);
        }
        self.put_back(at, client, stands);
    }

    /// Reads more of what a client has sent, as much as it may send in this turn: whether some came. None if it is gone.
    fn feed(&mut self, at: usize, client: &mut Client, left: &mut usize) -> Option<bool> {
        client.make_room();
        let before = client.input.len();
        if !client.is_unread || before >= self.shared.memory {
            return Some(false);
        }
        if *left == 0 {
            self.unread_clients.insert(at);
            return Some(false);
        }
        let stands = self.read_client(client, *left);
        let came = client.input.len() - before;
        *left = left.saturating_sub(came);
        stands.then_some(came > 0 || client.is_shut)
    }

    /// Follows the errand of the first request that was refused, once nothing else is in flight.
    fn chase(&mut self, at: usize, client: &mut Client) -> Flow {
        if client.in_flight > 0 {
            return Flow::Idle;
        }
        if self.follow(at, client) {
            Flow::Idle
        } else if client.diverted.is_empty() {
            Flow::On
        } else {
            Flow::Blocked
        }
    }

    /// Sends a client's next command, or answers it.
    fn next_command(&mut self, at: usize, client: &mut Client) -> Flow {
        if client.is_ending || !self.has_room(client) {
            return Flow::Idle;
        }
        let most = if client.session.is_stranger() { STRANGER } else { self.shared.memory };
        if !read_command(client, most) {
            return Flow::Hungry;
        }
        let words = Words { bytes: &client.input[client.next..], places: client.parser.words() };
        if words.count() == 0 {
            client.skip();
            return Flow::On;
        }
        if let Some(flow) = self.bound(client).or_else(|| self.session(at, client)) {
            return flow;
        }
        let words = Words { bytes: &client.input[client.next..], places: client.parser.words() };
        if client.queue.is_some() && !words.at(0).eq_ignore_ascii_case(b"QUIT") {
            return self.queue(client);
        }
        if let Some(flow) = self.subscription(at, client) {
            return flow;
        }
        let words = client.words();
        match Plan::of(words) {
            Ok(plan) => match plan.command().clock(words.count(), |at| words.at(at)) {
                Some(clock) => self.start_wait(client, &plan, clock),
                None => self.send(at, client, plan),
            },
            Err(refused) => match self.special(client) {
                Some(flow) => flow,
                None => self.answer_here(client, refused),
            },
        }
    }

    /// Answers a command that is not passed on.
    fn answer_here(&mut self, client: &mut Client, refused: Vec<u8>) -> Flow {
        let words = Words { bytes: &client.input[client.next..], places: client.parser.words() };
        let shared = self.shared.clone();
        let local = local::answer(words, &self.view, || shared.info());
        self.turn.count(Kind::Own);
        match local {
            None => {
                self.counts().refused.fetch_add(1, Relaxed);
                client.add_answer(refused);
            }
            Some(local) => {
                client.add_answer(local.answer);
                client.is_ending |= local.is_end;
            }
        }
        Flow::On
    }

    /// Sends all requests of a command, or none if one of them has to wait.
    fn send(&mut self, at: usize, client: &mut Client, plan: Plan) -> Flow {
        let kind = plan.command().kind;
        let targets = if client.keeps_order(self.views, self.view.number()) {
            self.targets(client, &plan)
        } else {
            Ok(None)
        };
        match targets {
            Err(refused) => client.add_answer(refused),
            Ok(None) => return self.wait(client, &plan),
            Ok(Some(Targets::Own)) => return self.start_one(client, &plan),
            Ok(Some(targets)) => {
                if let Some(since) = client.waits_since.take() {
                    self.counts().waited(self.now - since);
                }
                for (part, &target) in targets.as_slice().iter().enumerate() {
                    self.send_part(at, client, (&plan, part), target);
                }
                client.sent_by = (self.views, self.view.number());
                client.add(plan);
            }
        }
        self.turn.count(kind);
        Flow::On
    }

    /// Sends one request of the client's next command to its target.
    fn send_part(
        &mut self,
        at: usize,
        client: &mut Client,
        (plan, part): (&Plan, usize),
        (upstream, is_guarded): (usize, bool),
    ) {
        let words = Words { bytes: &client.input[client.next..], places: client.parser.words() };
        let to = &mut self.upstreams[upstream];
        if is_guarded {
            let course = (to.number, client.is_resp3);
            plan.put_guarded(&mut to.out.bytes, (part, to.part), words, course);
        } else {
            plan.put(&mut to.out.bytes, (part, to.part), words, client.parser.len());
        }
        let (seq, id, is_page) = (client.next_seq(), client.id, plan.is_page());
        let part = part as u32;
        let sent = InFlight { client: at, id, seq, part, is_guarded, is_chased: false, is_page };
        to.expect(Due::Request(sent), self.now);
        client.in_flight += 1;
        client.guarded += usize::from(is_guarded);
        self.mark_upstream(upstream);
    }

    /// Waits with a command, and refuses it once that took too long.
    fn wait(&mut self, client: &mut Client, plan: &Plan) -> Flow {
        let since = *client.waits_since.get_or_insert(self.now);
        if self.now - since < self.shared.wait {
            return Flow::Blocked;
        }
        client.waits_since = None;
        self.counts().gave_up.fetch_add(1, Relaxed);
        let part = self.unready(&plan.all_ranks(), client.is_resp3);
        let busy = || error("TRYAGAIN what was asked before is not answered yet");
        client.add_answer(part.map_or_else(busy, unreached));
        Flow::On
    }
}

/// Reads a client's next command: whether it is whole. If it is none, or none comes any more, the client is
/// ending.
fn read_command(client: &mut Client, most: usize) -> bool {
    let read = client.unfold().and_then(|is_there| {
        let rest = &client.input[client.next..];
        match is_there && client.parser.read(rest, most)? {
            false if rest.len() >= most => Err(Broken("too large a command")),
            is_whole => Ok(is_whole),
        }
    });
    match read {
        Ok(true) => true,
        Ok(false) => {
            client.is_ending = client.is_shut;
            false
        }
        Err(broken) => {
            client.add_answer(error(&format!("ERR Protocol error: {broken}")));
            client.is_ending = true;
            false
        }
    }
}
