//! What a worker's clients subscribe to.
//!
//! A message is published at the partition that a key of its channel's name would be asked for. So a channel is heard
//! there, and in a course that moves it at both ends of the move. A pattern is heard at all partitions of the course. Each
//! worker has one connection to a partition for all topics of its clients.
//!
//! A client that may miss a message is closed, as by a server that ends. When a course begins, a worker first asks for its
//! topics wherever that course has them, and only then logs in by it. If the fence comes before that, the server closes
//! the connection. No message is published at a new place before the fence.

use super::client::Client;
use super::scan::Ground;
use super::topics::{Sort, Topic};
use super::upstream::{Due, State, Upstream};
use super::worker::Worker;
use crate::keymap;
use crate::resp::{push, texts};
use std::collections::{BTreeMap, BTreeSet, HashMap};
use std::sync::atomic::Ordering::Relaxed;
use std::sync::Arc;
use std::time::Duration;

/// A connection that says nothing for so long is asked whether it is there.
const BEAT: Duration = Duration::from_secs(5);

/// The partitions at which the messages of a topic are published in a course, if the view routes its name to that one.
fn places_in(ground: &Ground, topic: &Topic, routed: Option<u32>) -> Vec<u32> {
    if topic.sort == Sort::Pattern {
        return ground.parts().collect();
    }
    let ends = ground.ends(keymap::rank(&topic.name));
    ends.map_or_else(|| routed.into_iter().collect(), Vec::from)
}

/// A connection over which a partition tells of messages.
struct Feed {
    at: usize,
    /// How many requests it was sent, and has answered.
    asked: u64,
    answered: u64,
    /// The topics that it was asked for, and by which request.
    topics: HashMap<Topic, u64>,
}

/// All that a worker's clients subscribe to.
#[derive(Default)]
pub struct Feeds {
    by_part: BTreeMap<u32, Feed>,
    /// The places of a topic's clients, and whether they were told that they have it.
    pub clients: HashMap<Topic, BTreeMap<usize, bool>>,
    /// The course in which all topics are heard, and that by which all connections have logged in.
    heard: u32,
    entered: u32,
    last: Option<Arc<Ground>>,
}

impl Feeds {
    /// Whether topics are not asked for as a course has them.
    pub fn is_behind(&self, number: u32) -> bool {
        self.entered != number && !self.clients.is_empty()
    }

    /// Whether a connection has to wait before it logs in by a course.
    pub fn holds(&self, upstream: &Upstream, number: u32) -> bool {
        let feed = self.by_part.get(&upstream.part).filter(|_| upstream.is_feed && self.heard != number);
        feed.is_some_and(|feed| !feed.topics.is_empty())
    }
}

impl Worker {
    fn places(&self, ground: &Ground, topic: &Topic) -> Vec<u32> {
        places_in(ground, topic, self.view.route(keymap::rank(&topic.name)))
    }

    /// A partition that does not tell of these topics yet; none if all do. Each one is asked.
    pub(super) fn deaf(&mut self, topics: &[Topic]) -> Option<u32> {
        let Some(ground) = self.ground() else {
            return self.shared.setup.now().parts.keys().next().copied();
        };
        let mut deaf = None;
        for topic in topics {
            for part in self.places(&ground, topic) {
                if !self.hears_at(part, topic) {
                    deaf = Some(part);
                }
            }
        }
        deaf
    }

    fn hears_at(&mut self, part: u32, topic: &Topic) -> bool {
        let Some(at) = self.feed_of(part) else {
            return false;
        };
        let Some(feed) = self.feeds.by_part.get_mut(&part) else {
            return false;
        };
        if let Some(&request) = feed.topics.get(topic) {
            return feed.answered >= request;
        }
        feed.asked += 1;
        feed.topics.insert(topic.clone(), feed.asked);
        self.ask_feed(at, topic, true);
        false
    }

    /// The connection over which a partition tells of messages, if it can be used. Else it is made ready.
    fn feed_of(&mut self, part: u32) -> Option<usize> {
        let at = match self.feeds.by_part.get(&part) {
            Some(feed) => feed.at,
            None => {
                let server = self.shared.setup.server(part)?;
                let at = self.upstreams.len();
                let mut upstream = Upstream::new(part, server, true, self.now);
                upstream.is_feed = true;
                self.upstreams.push(upstream);
                let feed = Feed { at, asked: 0, answered: 0, topics: HashMap::new() };
                self.feeds.by_part.insert(part, feed);
                at
            }
        };
        let (it, number) = (&self.upstreams[at], self.view.number());
        if it.state == State::Ready && (it.number == number || self.feeds.holds(it, number)) {
            return Some(at);
        }
        self.ready_at(at);
        None
    }

    /// A client has a topic no more. If none has it, it is heard no more: the requests for that, by partition.
    pub(super) fn drop_topic(&mut self, place: usize, topic: &Topic) -> Vec<(u32, u64)> {
        let Some(clients) = self.feeds.clients.get_mut(topic) else {
            return Vec::new();
        };
        clients.remove(&place);
        if !clients.is_empty() {
            return Vec::new();
        }
        self.feeds.clients.remove(topic);
        let parts: Vec<u32> = self.feeds.by_part.keys().copied().collect();
        parts.into_iter().filter_map(|part| Some((part, self.end_topic(part, topic)?))).collect()
    }

    fn end_topic(&mut self, part: u32, topic: &Topic) -> Option<u64> {
        let feed = self.feeds.by_part.get_mut(&part)?;
        feed.topics.remove(topic)?;
        feed.asked += 1;
        let (at, request) = (feed.at, feed.asked);
        self.ask_feed(at, topic, false);
        Some(request)
    }

    /// Whether partitions have confirmed these requests, or their connections were lost.
    pub(super) fn are_confirmed(&self, due: &[(u32, u64)]) -> bool {
        due.iter().all(|(part, request)| {
            let feed = self.feeds.by_part.get(part);
            feed.is_none_or(|feed| feed.answered >= *request || feed.asked < *request)
        })
    }

    /// Begins to hear a topic over a connection, or ends that.
    fn ask_feed(&mut self, at: usize, topic: &Topic, is_begin: bool) {
        let verb = topic.sort.verb(is_begin).as_bytes();
        push(&mut self.upstreams[at].out.bytes, &[verb, &topic.name]);
        self.mark_upstream(at);
    }

    /// A client has no topic any more, and waits for none.
    pub(super) fn leave(&mut self, place: usize, client: &mut Client) {
        let topics = std::mem::take(&mut client.topics);
        let awaited = std::mem::take(&mut client.awaited);
        topics.into_iter().chain(awaited).for_each(|topic| drop(self.drop_topic(place, &topic)));
    }

    /// Once a course has begun: asks for all topics where it has them, then logs in by it, and in the end forgets where
    /// neither it nor the one before has them.
    pub(super) fn settle(&mut self) {
        let number = self.view.number();
        if self.feeds.entered == number {
            return;
        }
        let Some(ground) = self.ground() else {
            return;
        };
        if self.feeds.heard != number {
            let topics: Vec<Topic> = self.feeds.clients.keys().cloned().collect();
            if self.deaf(&topics).is_some() {
                return;
            }
            self.feeds.heard = number;
        }
        let feeds = self.feeds.by_part.values().filter(|feed| !feed.topics.is_empty());
        let used: Vec<usize> = feeds.map(|feed| feed.at).collect();
        used.iter().for_each(|&at| self.enter(at));
        if used.iter().all(|&at| self.upstreams[at].is_ready(number)) {
            self.feeds.entered = number;
            self.end_old(ground);
        }
    }

    /// Hears no topic any more where neither this course nor the last one has it.
    fn end_old(&mut self, ground: Arc<Ground>) {
        let last = self.feeds.last.replace(ground.clone());
        let mut old: Vec<(u32, Topic)> = Vec::new();
        for (&part, feed) in &self.feeds.by_part {
            let is_old = |topic: &&Topic| {
                let before = last.as_ref().map_or(Vec::new(), |last| places_in(last, topic, None));
                !self.places(&ground, topic).contains(&part) && !before.contains(&part)
            };
            old.extend(feed.topics.keys().filter(is_old).map(|topic| (part, topic.clone())));
        }
        for (part, topic) in &old {
            self.end_topic(*part, topic);
        }
    }

    /// Takes what a partition tells: whether that was due. What it refuses ends the connection.
    pub(super) fn take_fed(&mut self, at: usize, reply: &[u8]) -> bool {
        if reply.first() != Some(&b'>') {
            return reply.first() == Some(&b'+') && self.upstreams[at].sent.pop_front().is_some();
        }
        match texts(reply)[..] {
            [b"message", name, _] => self.tell(&Topic::new(Sort::Channel, name), reply),
            [b"smessage", name, _] => self.tell(&Topic::new(Sort::Shard, name), reply),
            [b"pmessage", name, channel, _] if !Topic::is_own(channel) => {
                self.tell(&Topic::new(Sort::Pattern, name), reply);
            }
            [verb, _] if Sort::of(verb).is_some() => {
                let part = self.upstreams[at].part;
                if let Some(feed) = self.feeds.by_part.get_mut(&part) {
                    feed.answered += 1;
                }
                self.wake_blocked();
            }
            _ => {}
        }
        true
    }

    /// Gives a message to all clients of its topic. The two protocols differ in its first byte.
    fn tell(&mut self, topic: &Topic, message: &[u8]) {
        let all = self.feeds.clients.get(topic).into_iter().flatten();
        let told: Vec<usize> = all.filter(|(_, &is_told)| is_told).map(|(&place, _)| place).collect();
        self.counts().messages.fetch_add(told.len() as u64, Relaxed);
        for place in told {
            if let Some(mut client) = self.clients[place].take() {
                client.out.bytes.push(if client.is_resp3 { b'>' } else { b'*' });
                client.out.bytes.extend_from_slice(&message[1..]);
                self.mark_client(place, &mut client);
                self.clients[place] = Some(client);
            }
        }
    }

    /// A connection is lost: closes the clients that may miss messages.
    pub(super) fn lose_feed(&mut self, at: usize) {
        let Some(feed) = self.feeds.by_part.values_mut().find(|feed| feed.at == at) else {
            return;
        };
        (feed.asked, feed.answered) = (0, 0);
        let topics = std::mem::take(&mut feed.topics);
        let all = topics.keys().filter_map(|topic| self.feeds.clients.get(topic)).flatten();
        let told: BTreeSet<usize> = all.filter(|(_, &is_told)| is_told).map(|(&place, _)| place).collect();
        for place in told {
            if let Some(client) = self.clients[place].take() {
                self.put_back(place, client, false);
            }
        }
    }

    /// Asks a silent connection whether it is still there: else nobody would notice that it is gone.
    pub(super) fn beat(&mut self, at: usize) {
        let it = &mut self.upstreams[at];
        let is_silent = it.state == State::Ready && it.sent.is_empty() && self.now - it.progress > BEAT;
        if it.is_feed && is_silent {
            push(&mut it.out.bytes, &["PING"]);
            it.expect(Due::Beat, self.now);
            self.mark_upstream(at);
        }
    }
}

#[cfg(test)]
mod tests {
    use super::*;
    use squall::{Course, Rank};

    const OLD: &[u8] = br#"{"plan":[{"part":1,"from":[0,0],"to":"end"}]}"#;
    const NEW: &[u8] = br#"{"plan":[{"part":1,"from":[0,0],"to":[2,0]},{"part":3,"from":[2,0],"to":"end"}]}"#;

    #[test]
    fn a_channel_that_moves_is_heard_at_both_ends() {
        let ground = Ground::of(&Course::open(2, OLD, NEW).unwrap(), |_| false);
        let places = |sort, name: &str| places_in(&ground, &Topic::new(sort, name.as_bytes()), Some(1));
        for sort in [Sort::Channel, Sort::Shard] {
            assert_eq!((places(sort, "1:7:x"), places(sort, "2:7:x")), (vec![1], vec![1, 3]));
        }
        assert_eq!((places(Sort::Pattern, "1:7:*"), ground.ends(Rank::new(1, 9))), (vec![1, 3], None));
    }
}
