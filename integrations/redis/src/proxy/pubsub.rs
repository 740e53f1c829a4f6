//! `PUBSUB`: the topics of all proxies, as the partitions name and count them.
//!
//! A proxy subscribes once for each of its threads, and while a channel moves at both of its ends. So a partition counts threads
//! of proxies, and of several partitions the one with the highest count is right.

use super::client::Client;
use super::commands::Kind;
use super::local;
use super::serve::Flow;
use super::topics::Topic;
use super::visit::Goal;
use super::worker::Worker;
use crate::resp::{error, push, Value};
use std::collections::BTreeSet;

const SERVED: &str = "ERR this proxy serves PUBSUB CHANNELS, NUMPAT, NUMSUB, SHARDCHANNELS and SHARDNUMSUB";

/// The questions of `PUBSUB`.
#[derive(Clone, Copy, Debug, PartialEq)]
enum About {
    /// The names of channels.
    Names,
    /// How many subscribe to each of these.
    Counts,
    /// How many patterns there are.
    Patterns,
}

fn about(sub: &[u8]) -> Option<About> {
    match &sub.to_ascii_uppercase()[..] {
        b"CHANNELS" | b"SHARDCHANNELS" => Some(About::Names),
        b"NUMSUB" | b"SHARDNUMSUB" => Some(About::Counts),
        b"NUMPAT" => Some(About::Patterns),
        _ => None,
    }
}

fn int(value: &Value) -> i64 {
    if let Value::Int(number) = value {
        *number
    } else {
        0
    }
}

/// The answer to a command, of what each partition has answered.
pub fn joined(words: &[Vec<u8>], said: &[Value]) -> Vec<u8> {
    let mut answer = Vec::new();
    match about(&words[1]) {
        Some(About::Names) => {
            let all = said.iter().flat_map(|value| value.clone().list()).map(Value::bytes);
            let names: BTreeSet<Vec<u8>> = all.filter(|name| !Topic::is_own(name)).collect();
            push(&mut answer, &names.iter().collect::<Vec<_>>());
        }
        Some(About::Counts) => {
            let names = &words[2..];
            let lists: Vec<Vec<Value>> = said.iter().map(|value| value.clone().list()).collect();
            answer.extend(format!("*{}\r\n", 2 * names.len()).into_bytes());
            for (at, name) in names.iter().enumerate() {
                let count = lists.iter().filter_map(|list| list.get(2 * at + 1)).map(int).max();
                answer.extend(local::bulk(name));
                answer.extend(format!(":{}\r\n", count.unwrap_or(0)).into_bytes());
            }
        }
        _ => answer.extend(format!(":{}\r\n", said.iter().map(int).max().unwrap_or(0)).into_bytes()),
    }
    answer
}

impl Worker {
    /// Begins to ask all partitions what is subscribed to.
    pub(super) fn start_pubsub(&mut self, client: &mut Client) -> Flow {
        let words = client.words();
        if about(words.at(1)).is_none() {
            client.add_answer(error(SERVED));
            self.turn.count(Kind::PubSub);
            return Flow::On;
        }
        let words = words.all();
        self.start_visit(client, Kind::PubSub, Goal::Topics(words))
    }
}

#[cfg(test)]
mod tests {
    use super::*;

    fn join(line: &str, said: &[&[u8]]) -> String {
        let words: Vec<Vec<u8>> = line.split(' ').map(|word| word.as_bytes().to_vec()).collect();
        let said: Vec<Value> = said.iter().map(|reply| Value::read(reply).unwrap().unwrap().0).collect();
        String::from_utf8(joined(&words, &said)).unwrap()
    }

    #[test]
    fn names_are_given_once() {
        let said: [&[u8]; 2] = [b"*2\r\n$1\r\nb\r\n$8\r\n__keyevt\r\n", b"*2\r\n$1\r\na\r\n$1\r\nb\r\n"];
        assert_eq!(join("pubsub Channels", &said), "*2\r\n$1\r\na\r\n$1\r\nb\r\n");
        assert_eq!(join("PUBSUB SHARDCHANNELS x", &[b"*0\r\n"]), "*0\r\n");
    }

    #[test]
    fn the_highest_count_is_right() {
        let said: [&[u8]; 2] =
            [b"*4\r\n$1\r\na\r\n:0\r\n$1\r\nb\r\n:2\r\n", b"*4\r\n$1\r\na\r\n:1\r\n$1\r\nb\r\n:1\r\n"];
        assert_eq!(join("PUBSUB NUMSUB a b", &said), "*4\r\n$1\r\na\r\n:1\r\n$1\r\nb\r\n:2\r\n");
        assert_eq!(join("PUBSUB NUMSUB", &[b"*0\r\n"]), "*0\r\n");
        assert_eq!(join("PUBSUB NUMPAT", &[b":3\r\n", b":2\r\n"]), ":3\r\n");
    }
}
