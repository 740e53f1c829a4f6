//! Commands about all partitions that are answered once each of them was asked: `DBSIZE`, `INFO`, `PUBSUB`, `RANDOMKEY` and
//! `SCRIPT EXISTS`.

use super::client::Client;
use super::deeds::is_fence;
use super::info;
use super::own::Outcome;
use super::pubsub;
use super::scan::Known;
use super::task::{Deed, Task};
use super::worker::Worker;
use crate::dice::Dice;
use crate::mover::is_own;
use crate::resp::{push, Value};

/// The partition's own keys, which are no client's.
const OWN: [&str; 21] = [
    "squall:number",
    "squall:old",
    "squall:new",
    "squall:moves",
    "squall:issue",
    "squall:edge",
    "squall:forgot",
    "squall:gone",
    "squall:put",
    "squall:arrived",
    "squall:back",
    "squall:pulled",
    "squall:closed",
    "squall:generation",
    "squall:seen",
    "squall:since",
    "squall:fence",
    "squall:run",
    "squall:losses",
    "squall:mark",
    "squall:log",
];
/// How many keys a partition draws at once: some of them are its own.
const DRAWS: usize = 32;

/// What is asked.
pub enum Goal {
    /// How many keys there are.
    Size,
    /// Any key.
    Key,
    /// What the servers say of themselves, in these sections.
    Info(Vec<Vec<u8>>),
    /// The topics of all proxies, by these words of `PUBSUB`.
    Topics(Vec<Vec<u8>>),
    /// Which scripts are known, by these words of `SCRIPT EXISTS`.
    Scripts(Vec<Vec<u8>>),
}

/// A command that visits partition after partition.
pub struct Visit {
    goal: Goal,
    /// The first partition that was not asked.
    pub from: u32,
    heard: Vec<Heard>,
    /// Their answers to the client's own words.
    said: Vec<Value>,
}

/// What a partition has said.
pub struct Heard {
    /// How many keys it has of clients.
    pub size: u64,
    /// Some of these keys.
    keys: Vec<Vec<u8>>,
    /// Its `INFO`.
    pub info: String,
}

#[cfg(test)]
impl Heard {
    /// What one has said whose `INFO` is that.
    pub fn with_info(size: u64, info: &str) -> Heard {
        Heard { size, keys: Vec::new(), info: info.into() }
    }
}

impl Visit {
    /// A visit that has asked nobody.
    pub fn new(goal: Goal) -> Visit {
        Visit { goal, from: 0, heard: Vec::new(), said: Vec::new() }
    }

    /// Appends the questions to a partition: how many they are.
    pub fn ask(&self, out: &mut Vec<u8>) -> usize {
        if let Goal::Topics(words) | Goal::Scripts(words) = &self.goal {
            push(out, words);
            return 1;
        }
        push(out, &["DBSIZE"]);
        push(out, &[&["EXISTS"], &OWN[..]].concat());
        let (more, count) = match self.goal {
            Goal::Size | Goal::Topics(_) | Goal::Scripts(_) => ("", 0),
            Goal::Key => ("RANDOMKEY", DRAWS),
            Goal::Info(_) => ("INFO", 1),
        };
        (0..count).for_each(|_| push(out, &[more]));
        2 + count
    }

    /// Any key of those that were drawn: a partition that has more keys is chosen more often.
    fn draw(&self) -> Option<&[u8]> {
        let with_keys = || self.heard.iter().filter(|it| !it.keys.is_empty());
        let all: u64 = with_keys().map(|it| it.size.max(1)).sum();
        let mut left = Dice::fresh().below(all.max(1));
        let drawn = with_keys().find(|it| {
            let size = it.size.max(1);
            let is_it = left < size;
            left = left.saturating_sub(size);
            is_it
        });
        drawn.and_then(|it| it.keys.first()).map(Vec::as_slice)
    }

    fn size(&self) -> u64 {
        self.heard.iter().map(|it| it.size).sum()
    }
}

/// What a partition has said; none if that is of another form.
fn read(replies: &[Vec<u8>], is_here: impl Fn(&[u8]) -> bool) -> Option<Heard> {
    let mut values = replies.iter().map(|reply| Some(Value::read(reply).ok()??.0));
    let mut number = || match values.next()?? {
        Value::Int(number) => u64::try_from(number).ok(),
        _ => None,
    };
    let size = number()?.saturating_sub(number()?);
    let mut heard = Heard { size, keys: Vec::new(), info: String::new() };
    for value in values {
        let bytes = value?.bytes();
        if bytes.starts_with(b"# ") && replies.len() == 3 {
            heard.info = String::from_utf8_lossy(&bytes).into_owned();
        } else if !bytes.is_empty() && !is_own(&bytes) && is_here(&bytes) {
            heard.keys.push(bytes);
        }
    }
    Some(heard)
}

/// Whether each script is known at all partitions. There are `count` of them.
fn known_everywhere(count: usize, said: &[Value]) -> Vec<u8> {
    let lists: Vec<Vec<Value>> = said.iter().map(|value| value.clone().list()).collect();
    let mut answer = format!("*{count}\r\n");
    for at in 0..count {
        let is_known = lists.iter().all(|list| list.get(at) == Some(&Value::Int(1)));
        answer += if is_known { ":1\r\n" } else { ":0\r\n" };
    }
    answer.into_bytes()
}

impl Worker {
    /// What the answers of a partition mean; none if it is to be asked again, or another one.
    pub(super) fn judge_visit(
        &mut self,
        client: &Client,
        task: &mut Task,
        replies: &[Vec<u8>],
    ) -> Option<Outcome> {
        let at = task.upstream?;
        if replies.iter().any(|reply| is_fence(reply)) {
            self.fenced(task, at);
            return None;
        }
        if let Some(refusal) = replies.iter().find(|reply| reply.first() == Some(&b'-')) {
            return Some(Outcome::Answer(refusal.clone()));
        }
        let ground = self.ground()?;
        let (it, known) = (&self.upstreams[at], Known { view: &self.view, tables: &self.shared.tables });
        let Deed::Visit(visit) = &mut task.deed else {
            return None;
        };
        let next = it.part + 1;
        visit.from = next;
        if let Goal::Topics(_) | Goal::Scripts(_) = visit.goal {
            visit.said.extend(replies.iter().filter_map(|reply| Some(Value::read(reply).ok()??.0)));
        } else {
            visit.heard.extend(read(replies, |key| known.has(it, key)));
        }
        if ground.part_from(next).is_some() {
            task.go_on(self.now);
            return None;
        }
        self.end_visit(client, task)
    }

    /// The answer after the last partition; none if all are asked again.
    fn end_visit(&self, client: &Client, task: &mut Task) -> Option<Outcome> {
        let Deed::Visit(visit) = &mut task.deed else {
            return None;
        };
        let answer = match &visit.goal {
            Goal::Size => format!(":{}\r\n", visit.size()).into_bytes(),
            Goal::Info(sections) => {
                let text = info::text(&visit.heard, sections, &self.shared.own_info());
                info::verbatim(&text, client.is_resp3)
            }
            Goal::Topics(words) => pubsub::joined(words, &visit.said),
            Goal::Scripts(words) => known_everywhere(words.len() - 2, &visit.said),
            Goal::Key => match visit.draw() {
                Some(key) => [format!("${}\r\n", key.len()).as_bytes(), key, b"\r\n"].concat(),
                None if visit.size() == 0 => client.nil().to_vec(),
                None => {
                    // Only the partitions' own ones were drawn.
                    (visit.from, visit.heard) = (0, Vec::new());
                    task.again = self.now;
                    return None;
                }
            },
        };
        Some(Outcome::Answer(answer))
    }
}

#[cfg(test)]
mod tests {
    use super::*;

    fn heard(size: u64, keys: &[&str]) -> Heard {
        let keys = keys.iter().map(|key| key.as_bytes().to_vec()).collect();
        Heard { size, keys, info: String::new() }
    }

    #[test]
    fn own_keys_do_not_count() {
        let replies =
            [&b":9\r\n"[..], b":7\r\n", b"$8\r\nsquall:x\r\n", b"$1\r\na\r\n", b"$1\r\nb\r\n", b"$-1\r\n"];
        let heard = read(&replies.map(<[u8]>::to_vec), |key| key != b"a").unwrap();
        assert_eq!((heard.size, heard.keys), (2, vec![b"b".to_vec()]));
        assert!(read(&[b"+OK\r\n".to_vec(), b":7\r\n".to_vec()], |_| true).is_none());
    }

    #[test]
    fn a_script_is_known_if_all_know_it() {
        let list = |known: [i64; 2]| Value::List(known.map(Value::Int).to_vec());
        assert_eq!(known_everywhere(2, &[list([1, 1]), list([1, 0])]), b"*2\r\n:1\r\n:0\r\n");
    }

    #[test]
    fn large_partitions_are_drawn_more_often() {
        let of = vec![heard(900, &["a"]), heard(100, &["b"]), heard(5, &[])];
        let visit = Visit { heard: of, ..Visit::new(Goal::Key) };
        let drawn = (0..1000).filter(|_| visit.draw() == Some(b"a")).count();
        assert!((800..1000).contains(&drawn), "{drawn}");
        assert_eq!(visit.size(), 1005);
        let none = Visit { heard: vec![heard(5, &[])], ..Visit::new(Goal::Key) };
        assert_eq!(none.draw(), None);
    }
}
