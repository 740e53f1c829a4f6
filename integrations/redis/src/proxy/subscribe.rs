//! `SUBSCRIBE` and what belongs to it, as clients call them.

use super::client::Client;
use super::commands::Kind;
use super::link::unreached;
use super::local;
use super::plan::shown;
use super::serve::Flow;
use super::topics::{Ending, Sort, Topic};
use super::worker::Worker;
use crate::resp::error;
use std::sync::atomic::Ordering::Relaxed;

/// What a client of RESP2 may call that has subscribed.
const ALLOWED: [&str; 3] = ["PING", "QUIT", "RESET"];
const OWN: &str = "ERR channels that begin with '__key' are the servers' own";

/// Why a client can't call its next command: it has subscribed, and in RESP2 its answers could be taken for messages.
fn refusal(client: &Client) -> Option<Vec<u8>> {
    let name = client.words().at(0);
    let is_allowed =
        Sort::of(name).is_some() || ALLOWED.iter().any(|it| name.eq_ignore_ascii_case(it.as_bytes()));
    (is_bound(client) && !is_allowed).then(|| {
        error(&format!(
            "ERR Can't execute '{}': only (P|S)SUBSCRIBE / (P|S)UNSUBSCRIBE / PING / QUIT / RESET are allowed in this \
             context",
            shown(name).to_ascii_lowercase()
        ))
    })
}

fn is_bound(client: &Client) -> bool {
    !client.is_resp3 && !client.topics.is_empty()
}

/// That a client has a topic, or has it no more, and how many it has then.
fn told(client: &Client, (sort, is_begin): (Sort, bool), name: Option<&[u8]>) -> Vec<u8> {
    let (verb, count) = (sort.verb(is_begin), client.topics.count(sort));
    let mark = if client.is_resp3 { '>' } else { '*' };
    let name = name.map_or_else(|| client.nil().to_vec(), local::bulk);
    let head = format!("{mark}3\r\n${}\r\n{verb}\r\n", verb.len());
    [head.as_bytes(), &name, format!(":{count}\r\n").as_bytes()].concat()
}

impl Worker {
    /// Answers what a client that has subscribed can't call; none if it may.
    pub(super) fn bound(&mut self, client: &mut Client) -> Option<Flow> {
        let answer = refusal(client)?;
        Some(self.answer_about(client, answer))
    }

    fn answer_about(&mut self, client: &mut Client, answer: Vec<u8>) -> Flow {
        self.turn.count(Kind::PubSub);
        client.add_answer(answer);
        Flow::On
    }

    /// Does a client's next command if it is about what it subscribes to; none if it is another one.
    pub(super) fn subscription(&mut self, place: usize, client: &mut Client) -> Option<Flow> {
        let (name, count) = (client.words().at(0), client.words().count());
        if is_bound(client) && name.eq_ignore_ascii_case(b"PING") && count < 3 {
            let word = if count == 2 { client.words().at(1) } else { b"" };
            let answer = [b"*2\r\n$4\r\npong\r\n", &local::bulk(word)[..]].concat();
            return Some(self.answer_about(client, answer));
        }
        let (sort, is_begin) = Sort::of(name)?;
        Some(if is_begin && count == 1 {
            let answer = local::few(client.words());
            self.answer_about(client, answer)
        } else if client.in_flight > 0 {
            // The first messages may come before answers that are due.
            Flow::Idle
        } else if is_begin {
            self.subscribe(place, client, sort)
        } else {
            self.unsubscribe(place, client, sort)
        })
    }

    /// The client has its topics once all partitions that may publish their messages tell of them.
    fn subscribe(&mut self, place: usize, client: &mut Client, sort: Sort) -> Flow {
        if client.waits_since.is_none() {
            let names = client.words().all().split_off(1);
            if names.iter().any(|name| Topic::is_own(name)) {
                return self.answer_about(client, error(OWN));
            }
            client.awaited = names.into_iter().map(|name| Topic { sort, name }).collect();
            for topic in &client.awaited {
                self.feeds.clients.entry(topic.clone()).or_default().entry(place).or_insert(false);
            }
        }
        let since = *client.waits_since.get_or_insert(self.now);
        let deaf = self.deaf(&client.awaited);
        if deaf.is_some() && self.now - since < self.shared.wait {
            return Flow::Blocked;
        }
        client.waits_since = None;
        let awaited = std::mem::take(&mut client.awaited);
        if let Some(part) = deaf {
            self.counts().gave_up.fetch_add(1, Relaxed);
            let new = awaited.iter().filter(|topic| !client.topics.contains(topic));
            new.for_each(|topic| drop(self.drop_topic(place, topic)));
            return self.answer_about(client, unreached(part));
        }
        let mut answer = Vec::new();
        for topic in awaited {
            self.feeds.clients.entry(topic.clone()).or_default().insert(place, true);
            client.topics.insert(topic.clone());
            answer.extend(told(client, (sort, true), Some(&topic.name)));
        }
        self.answer_about(client, answer)
    }

    /// The client has its topics no more, once partitions have confirmed that.
    fn unsubscribe(&mut self, place: usize, client: &mut Client, sort: Sort) -> Flow {
        let ending = match client.ending.take() {
            Some(ending) => ending,
            None => self.end_topics(place, client, sort),
        };
        let since = *client.waits_since.get_or_insert(self.now);
        if !self.are_confirmed(&ending.due) && self.now - since < self.shared.wait {
            client.ending = Some(ending);
            return Flow::Blocked;
        }
        client.waits_since = None;
        self.answer_about(client, ending.answer)
    }

    /// Ends the topics of a client's next command. Without names all topics of the kind are meant.
    fn end_topics(&mut self, place: usize, client: &mut Client, sort: Sort) -> Ending {
        let mut names = client.words().all().split_off(1);
        if names.is_empty() {
            names = client.topics.names(sort);
        }
        let mut ending = Ending { answer: Vec::new(), due: Vec::new() };
        for name in &names {
            let topic = Topic::new(sort, name);
            if client.topics.remove(&topic) {
                ending.due.extend(self.drop_topic(place, &topic));
            }
            ending.answer.extend(told(client, (sort, false), Some(name)));
        }
        if names.is_empty() {
            ending.answer = told(client, (sort, false), None);
        }
        ending
    }
}
