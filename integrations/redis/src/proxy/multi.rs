//! Transactions, and the beginning of all other tasks.

use super::client::Client;
use super::commands::{Clock, Kind};
use super::ids::Ids;
use super::local;
use super::names::Names;
use super::plan::Plan;
use super::scan::Cursor;
use super::serve::Flow;
use super::task::{Deed, Queue, Task, Wait};
use super::visit::{Goal, Visit};
use super::worker::Worker;
use crate::keymap;
use crate::mover::is_own;
use crate::resp::error;
use squall::Rank;
use std::time::Duration;

/// What is answered if the moves of the course are not known yet.
const BEGUN: &str = "-TRYAGAIN a course has just begun\r\n";
/// Commands that begin once all that the client asked for before is answered.
const AFTER: [&[u8]; 9] =
    [b"DBSIZE", b"INFO", b"KEYS", b"PUBSUB", b"RANDOMKEY", b"SCAN", b"SCRIPT", b"UNWATCH", b"WATCH"];
/// No wait is longer.
const LONGEST: f64 = 1e9;

impl Worker {
    /// Begins a task of a client, as its next command.
    pub(super) fn start(&mut self, client: &mut Client, kind: Kind, deed: Deed, ranks: Vec<Rank>) -> Flow {
        self.turn.count(kind);
        client.task = Some(Task::new(deed, ranks, self.now));
        Flow::On
    }

    /// Answers a command of a transaction.
    fn answer_of(&mut self, client: &mut Client, answer: impl Into<Vec<u8>>) -> Flow {
        self.turn.count(Kind::Transaction);
        client.add_answer(answer.into());
        Flow::On
    }

    /// Does a client's next command if it is one of these; none if it is another one.
    pub(super) fn special(&mut self, client: &mut Client) -> Option<Flow> {
        let words = client.words();
        let (name, count) = (words.at(0).to_ascii_uppercase(), words.count());
        let is_alone = count == 1;
        let flow = match &name[..] {
            b"MULTI" | b"EXEC" | b"DISCARD" | b"UNWATCH" if !is_alone => self.few(client),
            b"MULTI" => {
                client.queue = Some(Queue::default());
                self.answer_of(client, "+OK\r\n")
            }
            b"EXEC" => self.answer_of(client, "-ERR EXEC without MULTI\r\n"),
            b"DISCARD" => self.answer_of(client, "-ERR DISCARD without MULTI\r\n"),
            name if client.in_flight > 0 && AFTER.contains(&name) => Flow::Idle,
            b"UNWATCH" => {
                self.unwatch(client);
                self.answer_of(client, "+OK\r\n")
            }
            b"WATCH" if is_alone => self.few(client),
            b"WATCH" => self.watch_keys(client),
            b"SCAN" if count > 1 => self.start_scan(client),
            b"KEYS" if count == 2 => self.start_names(client),
            b"DBSIZE" if is_alone => self.start_visit(client, Kind::Own, Goal::Size),
            b"RANDOMKEY" if is_alone => self.start_visit(client, Kind::Own, Goal::Key),
            b"PUBSUB" if count > 1 => self.start_pubsub(client),
            b"INFO" => {
                let sections = client.words().all().split_off(1);
                self.start_visit(client, Kind::Own, Goal::Info(sections))
            }
            b"SCAN" | b"KEYS" | b"DBSIZE" | b"RANDOMKEY" | b"PUBSUB" => self.few(client),
            b"SCRIPT" if count > 2 => return self.start_script(client),
            _ => return None,
        };
        Some(flow)
    }

    fn few(&mut self, client: &mut Client) -> Flow {
        let answer = local::few(client.words());
        self.answer_of(client, answer)
    }

    fn watch_keys(&mut self, client: &mut Client) -> Flow {
        let words = client.words();
        let keys = (1..words.count()).map(|at| words.at(at));
        if keys.clone().any(is_own) {
            let text = "ERR keys that begin with 'squall:' are the partition's own";
            return self.answer_of(client, error(text));
        }
        let ranks = keys.map(keymap::rank).collect();
        self.start(client, Kind::Transaction, Deed::Watch, ranks)
    }

    /// Takes a command between MULTI and EXEC.
    pub(super) fn queue(&mut self, client: &mut Client) -> Flow {
        let words = client.words();
        match (&words.at(0).to_ascii_uppercase()[..], words.count()) {
            (b"EXEC", 1) => return self.exec(client),
            (b"DISCARD", 1) => {
                client.queue = None;
                self.unwatch(client);
                return self.answer_of(client, "+OK\r\n");
            }
            (b"MULTI", _) => return self.answer_of(client, "-ERR MULTI calls can not be nested\r\n"),
            (b"WATCH", _) => return self.answer_of(client, "-ERR WATCH inside MULTI is not allowed\r\n"),
            _ => {}
        }
        let (planned, is_free) = (Plan::of(words), local::may_be_queued(words));
        let len = client.parser.len();
        let bytes = words.bytes[..len].to_vec();
        let is_full = client.memory() + len > self.shared.memory;
        let Some(queue) = client.queue.as_mut() else {
            return Flow::On;
        };
        let answer = match planned {
            Err(refused) if !is_free => Err(refused),
            _ if is_full => Err(error("ERR the transaction is too large")),
            planned => {
                queue.bytes.extend_from_slice(&bytes);
                queue.count += 1;
                // What has no key is done where the others are.
                let keyed = planned.ok().filter(|plan| !matches!(plan, Plan::Free(..)));
                queue.ranks.extend(keyed.into_iter().flat_map(|plan| plan.all_ranks()));
                Ok(b"+QUEUED\r\n".to_vec())
            }
        };
        queue.is_broken |= answer.is_err();
        self.answer_of(client, answer.unwrap_or_else(|refused| refused))
    }

    /// Begins the transaction that was queued.
    fn exec(&mut self, client: &mut Client) -> Flow {
        if client.in_flight > 0 {
            return Flow::Idle;
        }
        let Some(queue) = client.queue.take() else {
            return Flow::On;
        };
        if queue.is_broken {
            self.unwatch(client);
            return self
                .answer_of(client, "-EXECABORT Transaction discarded because of previous errors.\r\n");
        }
        let watched = client.watch.as_ref().map_or(&[][..], |watch| &watch.ranks);
        let mut ranks = [&queue.ranks, watched].concat();
        ranks.sort_unstable();
        ranks.dedup();
        if queue.count == 0 && ranks.is_empty() {
            return self.answer_of(client, "*0\r\n");
        }
        if ranks.is_empty() {
            ranks.push(keymap::rank(b""));
        }
        self.start(client, Kind::Transaction, Deed::Exec(queue), ranks)
    }

    /// Begins a command that waits for a key.
    pub(super) fn start_wait(&mut self, client: &mut Client, plan: &Plan, clock: Clock) -> Flow {
        client.is_ending = client.is_shut;
        if client.in_flight > 0 || client.is_ending {
            return Flow::Idle;
        }
        let words = client.words();
        let until = match read_wait(words.at(clock.at), clock.is_millis) {
            Err(refused) => return self.answer_of(client, refused),
            Ok(wait) => wait.map(|wait| self.now + wait),
        };
        let wait = Wait { until, clock, ids: Ids::of(plan, words) };
        self.start(client, Kind::Blocking, Deed::Wait(wait), plan.all_ranks())
    }

    /// Begins a command that can only be guarded on a connection of the client's own.
    pub(super) fn start_one(&mut self, client: &mut Client, plan: &Plan) -> Flow {
        if client.in_flight > 0 {
            return Flow::Idle;
        }
        self.start(client, plan.command().kind, Deed::One, plan.all_ranks())
    }

    fn start_scan(&mut self, client: &mut Client) -> Flow {
        let word = client.words().at(1);
        let cursor = match word {
            b"0" => self.ground().and_then(|ground| Cursor::begin(&ground)),
            word => match Cursor::read(word) {
                None => return self.answer_of(client, "-ERR invalid cursor\r\n"),
                cursor => cursor,
            },
        };
        match cursor {
            Some(cursor) => self.start(client, Kind::Scan, Deed::Scan(cursor), Vec::new()),
            None => self.answer_of(client, BEGUN),
        }
    }

    fn start_names(&mut self, client: &mut Client) -> Flow {
        let Some(cursor) = self.ground().and_then(|ground| Cursor::begin(&ground)) else {
            return self.answer_of(client, BEGUN);
        };
        let names = Names::new(cursor, client.words().at(1));
        self.start(client, Kind::Scan, Deed::Names(names), Vec::new())
    }

    /// `SCRIPT LOAD`, or `EXISTS`; none of another one.
    fn start_script(&mut self, client: &mut Client) -> Option<Flow> {
        let words = client.words();
        match (&words.at(1).to_ascii_uppercase()[..], words.count()) {
            (b"LOAD", 3) => Some(self.start(client, Kind::Script, Deed::Load(0), Vec::new())),
            (b"EXISTS", _) => {
                let goal = Goal::Scripts(words.all());
                Some(self.start_visit(client, Kind::Script, goal))
            }
            _ => None,
        }
    }

    pub(super) fn start_visit(&mut self, client: &mut Client, kind: Kind, goal: Goal) -> Flow {
        self.start(client, kind, Deed::Visit(Visit::new(goal)), Vec::new())
    }
}

/// How long the word lets a command wait, if there is an end; or the error that answers it.
fn read_wait(word: &[u8], is_millis: bool) -> Result<Option<Duration>, &'static str> {
    let text = std::str::from_utf8(word).unwrap_or_default();
    let seconds = if is_millis {
        let millis: i64 = text.parse().map_err(|_| "-ERR timeout is not an integer or out of range\r\n")?;
        millis as f64 / 1000.0
    } else {
        text.parse().unwrap_or(f64::NAN)
    };
    if !seconds.is_finite() || seconds >= LONGEST {
        let what = if is_millis {
            "-ERR timeout is out of range\r\n"
        } else {
            "-ERR timeout is not a float or out of range\r\n"
        };
        return Err(what);
    }
    if seconds < 0.0 {
        return Err("-ERR timeout is negative\r\n");
    }
    Ok((seconds > 0.0).then(|| Duration::from_secs_f64(seconds)))
}

#[cfg(test)]
mod tests {
    use super::*;

    #[test]
    fn waits_are_read() {
        for (word, is_millis, wanted) in [
            ("0", false, Ok(None)),
            ("1.5", false, Ok(Some(Duration::from_millis(1500)))),
            ("20", true, Ok(Some(Duration::from_millis(20)))),
            ("0", true, Ok(None)),
        ] {
            assert_eq!(read_wait(word.as_bytes(), is_millis), wanted);
        }
        for (word, is_millis, why) in [
            ("-1", false, "negative"),
            ("-1", true, "negative"),
            ("1.5", true, "not an integer"),
            ("9223372036854775807", true, "out of range"),
            ("nan", false, "not a float"),
            ("-inf", false, "not a float"),
            ("", false, "not a float"),
            ("1e10", false, "not a float"),
        ] {
            assert!(read_wait(word.as_bytes(), is_millis).is_err_and(|it| it.contains(why)), "{word}");
        }
    }
}
