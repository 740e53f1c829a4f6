//! A worker: an event loop over its own clients and its own connections to the partitions.
//!
//! No answer is waited for: what clients have sent is read, sent on to the partitions by one write
//! each, and what these answer is sent back in the same way.
//!
//! It is an event loop on mio, the crate below tokio, without unsafe code: the standard library has no
//! way to wait for many sockets. A passing proxy over tokio 1.24, with a task for each client and for
//! each partition, cost about the same with one thread (4.8 to 5.8 us of processor time a command, and
//! 5.0 to 8.6 us) and more with two (6.6 to 9.0 us, and 9.8 to 10.6 us), since its scheduler moves tasks
//! between threads. The order of one client's commands over refusals (PROTOCOL.md) is also easier to
//! see in one loop than over tasks.

use super::client::Client;
use super::counts::{Counts, Turn};
use super::feeds::Feeds;
use super::memory::Account;
use super::metrics::Shared;
use super::scan::Ground;
use super::session::Session;
use super::socket::{receive, Received, Socket};
use super::upstream::{InFlight, Upstream};
use mio::{Events, Interest, Poll, Token};
use squall::View;
use std::collections::{BTreeMap, BTreeSet, HashMap};
use std::io;
use std::sync::atomic::Ordering::SeqCst;
use std::sync::{Arc, PoisonError};
use std::time::{Duration, Instant};

/// The token of what wakes a worker.
pub const WAKE: Token = Token(0);
/// Between two looks at what waits, and at what does not.
const SOON: Duration = Duration::from_millis(5);
const LATER: Duration = Duration::from_millis(500);
/// How many bytes are read at once.
const BLOCK: usize = 1 << 16;
/// No more requests of a client are sent if its answers take as much as this.
const ROOM: usize = 1 << 20;

/// A worker of the proxy.
pub struct Worker {
    pub(super) poll: Poll,
    pub(super) shared: Arc<Shared>,
    own: usize,
    /// Whether it does what clients have sent, and reads no more.
    pub(super) is_ending: bool,
    pub(super) view: View,
    pub(super) views: u64,
    pub(super) readings: u64,
    pub(super) now: Instant,
    /// When it looked last at what waits for time.
    watched: Instant,
    /// The course as a walk over all keys sees it, and by which view that was found.
    pub(super) ground: Option<(u64, Arc<Ground>)>,
    pub(super) clients: Vec<Option<Box<Client>>>,
    free: Vec<usize>,
    last_id: u64,
    pub(super) upstreams: Vec<Upstream>,
    pub(super) by_part: HashMap<(u32, bool), usize>,
    /// Connections of clients' own that no client has.
    pub(super) spare: HashMap<(u32, bool), Vec<usize>>,
    /// Clients that are to go on, clients that wait for time or news, and what has something to send.
    woken: Vec<usize>,
    pub(super) blocked: Vec<usize>,
    dirty_clients: Vec<usize>,
    dirty_upstreams: Vec<usize>,
    /// What is read on in the next turn: connections to partitions, of which some have closed, and clients.
    unread: BTreeMap<usize, bool>,
    pub(super) unread_clients: BTreeSet<usize>,
    /// What its clients hold, and what they subscribe to.
    pub(super) account: Account,
    pub(super) feeds: Feeds,
    pub(super) block: Vec<u8>,
    /// Commands since the last turn of the loop.
    pub(super) turn: Turn,
}

/// The tokens of clients are even, and those of connections to partitions odd.
fn client_token(at: usize) -> Token {
    Token(2 + 2 * at)
}

pub(super) fn upstream_token(at: usize) -> Token {
    Token(1 + 2 * at)
}

impl Worker {
    /// The worker of that place.
    pub fn new(poll: Poll, shared: Arc<Shared>, own: usize) -> Worker {
        let (view, views) = shared.node.view();
        Worker {
            poll,
            shared,
            own,
            is_ending: false,
            view,
            views,
            readings: 0,
            now: Instant::now(),
            watched: Instant::now(),
            ground: None,
            clients: Vec::new(),
            free: Vec::new(),
            last_id: own as u64,
            upstreams: Vec::new(),
            by_part: HashMap::new(),
            spare: HashMap::new(),
            woken: Vec::new(),
            blocked: Vec::new(),
            dirty_clients: Vec::new(),
            dirty_upstreams: Vec::new(),
            unread: BTreeMap::new(),
            unread_clients: BTreeSet::new(),
            account: Account::default(),
            feeds: Feeds::default(),
            block: vec![0; BLOCK],
            turn: Turn::default(),
        }
    }

    pub(super) fn counts(&self) -> &Counts {
        &self.shared.counts[self.own]
    }

    /// Serves for ever.
    ///
    /// # Errors
    ///
    /// The system can't wait for events.
    pub fn run(mut self) -> io::Result<()> {
        let mut events = Events::with_capacity(1024);
        loop {
            if let Err(error) = self.poll.poll(&mut events, Some(self.pause())) {
                if error.kind() != io::ErrorKind::Interrupted {
                    return Err(error);
                }
            }
            self.now = Instant::now();
            self.refresh();
            self.take_setup();
            if self.shared.is_ending.load(SeqCst) && !self.is_ending {
                self.end();
            }
            self.read_on();
            self.take(&events);
            self.watch();
            self.settle();
            self.go_on();
            self.flush();
            self.weigh();
            self.shared.counts[self.own].add(&mut self.turn);
        }
    }

    fn take(&mut self, events: &Events) {
        for event in events {
            let token = event.token();
            let is_closed = event.is_read_closed() || event.is_error();
            if token == WAKE {
                self.accept();
            } else if token.0 % 2 == 0 {
                self.on_client(token.0 / 2 - 1, event.is_readable(), is_closed);
            } else {
                self.on_upstream(token.0 / 2, event.is_readable(), is_closed);
            }
        }
    }

    /// More has come over this connection to a partition than is read in a turn.
    pub(super) fn read_later(&mut self, at: usize, is_closed: bool) {
        *self.unread.entry(at).or_default() |= is_closed;
    }

    /// Reads on over all that had more than is read in a turn. No event tells of that.
    fn read_on(&mut self) {
        let (unread, clients) = (std::mem::take(&mut self.unread), std::mem::take(&mut self.unread_clients));
        unread.into_iter().for_each(|(at, is_closed)| self.on_upstream(at, true, is_closed));
        clients.into_iter().for_each(|at| self.pump(at));
    }

    /// Whether a client may have another command in flight.
    pub(super) fn has_room(&self, client: &Client) -> bool {
        client.has_room(ROOM.min(self.shared.memory))
    }

    /// How long it may wait for events.
    fn pause(&self) -> Duration {
        if !self.woken.is_empty() || !self.unread.is_empty() || !self.unread_clients.is_empty() {
            Duration::ZERO
        } else if self.blocked.is_empty()
            && !self.account.has_waiting()
            && !self.feeds.is_behind(self.view.number())
        {
            LATER
        } else {
            SOON
        }
    }

    /// Takes the newest view. Connections then log in anew if its course is another one, and all that
    /// waits goes on.
    pub(super) fn refresh(&mut self) {
        if self.shared.node.views() == self.views {
            return;
        }
        (self.view, self.views) = self.shared.node.view();
        for at in 0..self.upstreams.len() {
            self.enter(at);
        }
        self.wake_blocked();
    }

    /// Takes new clients.
    fn accept(&mut self) {
        let streams = {
            let mut arrived = self.shared.arrivals[self.own].lock().unwrap_or_else(PoisonError::into_inner);
            std::mem::take(&mut *arrived)
        };
        if self.is_ending {
            self.shared.clients.fetch_sub(streams.len(), SeqCst);
            return;
        }
        for mut stream in streams {
            let at = self.free.pop().unwrap_or(self.clients.len());
            let interest = Interest::READABLE | Interest::WRITABLE;
            if self.poll.registry().register(&mut stream, client_token(at), interest).is_err() {
                self.free.push(at);
                self.shared.clients.fetch_sub(1, SeqCst);
                continue;
            }
            let addr = stream.peer_addr().map_or(String::new(), |addr| addr.to_string());
            let Ok(stream) = Socket::accept(stream, self.shared.setup.now().tls.as_ref()) else {
                self.free.push(at);
                self.shared.clients.fetch_sub(1, SeqCst);
                continue;
            };
            self.last_id += self.shared.counts.len() as u64;
            let session = Session::new(self.last_id, addr, &self.shared);
            let client = Some(Box::new(Client::new(session, stream, self.shared.memory)));
            if at == self.clients.len() {
                self.clients.push(client);
            } else {
                self.clients[at] = client;
            }
        }
    }

    /// Reads what clients have sent until now, and closes them after their last answers. One that waits for a key has
    /// none.
    fn end(&mut self) {
        for at in 0..self.clients.len() {
            let Some(mut client) = self.clients[at].take() else {
                continue;
            };
            let stands = self.read_client(&mut client, usize::MAX) && !client.waits();
            (client.is_shut, client.is_unread) = (true, false);
            self.put_back(at, client, stands);
            if stands {
                self.pump(at);
            }
        }
        self.is_ending = true;
    }

    fn on_client(&mut self, at: usize, is_readable: bool, is_closed: bool) {
        let Some(mut client) = self.clients.get_mut(at).and_then(Option::take) else {
            return;
        };
        client.is_unread |= is_readable || is_closed || !client.stream.is_plain();
        client.has_closed |= is_closed;
        // What one has sent that sends no more is all there. Others are read when their next command is done.
        let stands = !is_closed || self.read_client(&mut client, usize::MAX);
        if stands && client.out.len() > 0 {
            self.mark_client(at, &mut client);
        }
        self.put_back(at, client, stands);
        if stands {
            self.pump(at);
        }
    }

    /// Reads what a client has sent, and no more than so many bytes: whether it is still there. One that sends no more
    /// gets the answers to what it has sent, but waits for no key: nobody might take the value.
    pub(super) fn read_client(&mut self, client: &mut Client, bytes: usize) -> bool {
        if self.is_ending {
            return true;
        }
        let most = (client.has_closed, self.shared.memory.min(client.input.len().saturating_add(bytes)));
        let received = receive(&mut client.stream, &mut self.block, &mut client.input, most);
        client.is_unread = received == Received::Some;
        client.is_shut |= received == Received::Shut;
        received != Received::Lost && !(client.is_shut && client.waits())
    }

    pub(super) fn put_back(&mut self, at: usize, mut client: Box<Client>, stands: bool) {
        let is_over = client.is_ending && client.is_answered() && client.out.len() == 0;
        if stands && !is_over && client.memory() <= self.shared.memory * 2 + BLOCK {
            self.account.note(&mut client);
            self.clients[at] = Some(client);
            return;
        }
        self.account.forget(&client);
        self.leave(at, &mut client);
        self.abandon(&mut client);
        drop(client);
        self.free.push(at);
        self.shared.clients.fetch_sub(1, SeqCst);
    }

    pub(super) fn mark_client(&mut self, at: usize, client: &mut Client) {
        if !client.is_dirty {
            client.is_dirty = true;
            self.dirty_clients.push(at);
        }
    }

    pub(super) fn mark_upstream(&mut self, at: usize) {
        if !self.upstreams[at].is_dirty {
            self.upstreams[at].is_dirty = true;
            self.dirty_upstreams.push(at);
        }
    }

    pub(super) fn wake_blocked(&mut self) {
        self.woken.append(&mut self.blocked);
    }

    /// Goes on with all clients that can.
    fn go_on(&mut self) {
        while let Some(at) = self.woken.pop() {
            if let Some(client) = self.clients.get_mut(at).and_then(Option::as_mut) {
                client.is_woken = false;
                client.is_blocked = false;
                self.pump(at);
            }
        }
    }

    /// Wakes those that may have waited long enough, and gives up connections that don't answer. Thousands may wait for
    /// a partition that is down, so this is not done in each turn.
    fn watch(&mut self) {
        if self.now - self.watched < SOON {
            return;
        }
        self.watched = self.now;
        if !self.blocked.is_empty() {
            self.wake_blocked();
        }
        self.watch_memory();
        for at in 0..self.upstreams.len() {
            self.beat(at);
            if self.upstreams[at].is_late(self.now, self.shared.answer) {
                self.lose(at);
            }
        }
    }

    /// The client of a request, if it is still there.
    pub(super) fn client_of(&mut self, sent: &InFlight) -> Option<&mut Client> {
        let client = self.clients.get_mut(sent.client)?.as_deref_mut();
        client.filter(|client| client.id == sent.id)
    }

    /// Goes on with a client later in this turn.
    pub(super) fn wake(&mut self, at: usize) {
        if let Some(client) = self.clients.get_mut(at).and_then(Option::as_mut) {
            if !client.is_dirty {
                client.is_dirty = true;
                self.dirty_clients.push(at);
            }
            if !client.is_woken {
                client.is_woken = true;
                self.woken.push(at);
            }
        }
    }

    /// Sends all that is to be sent. A client that had too many answers goes on once it has taken them: no
    /// event may tell of that.
    fn flush(&mut self) {
        while let Some(at) = self.dirty_upstreams.pop() {
            self.upstreams[at].is_dirty = false;
            if !self.upstreams[at].flush() {
                self.lose(at);
                self.go_on();
            }
        }
        while let Some(at) = self.dirty_clients.pop() {
            let Some(mut client) = self.clients.get_mut(at).and_then(Option::take) else {
                continue;
            };
            client.is_dirty = false;
            let had_room = self.has_room(&client);
            let stands = client.out.send(&mut client.stream);
            let goes_on = !had_room && self.has_room(&client);
            self.put_back(at, client, stands);
            if goes_on {
                self.wake(at);
            }
        }
    }
}
