//! Looks at each partition each second: whether it lets this proxy in. To a proxy that is cut off the bus a partition
//! also says which course it is in, and what it has loaded.

use super::metrics::Shared;
use crate::bus::report;
use crate::conn::{Conn, Server};
use crate::fault::{Done, Fault};
use crate::log;
use crate::resp::Value;
use crate::secret::READER;
use crate::user;
use squall::{Rank, Router};
use std::collections::{BTreeMap, HashMap};
use std::ops::Range;
use std::sync::{Arc, Condvar, Mutex, MutexGuard, PoisonError};
use std::thread;
use std::time::{Duration, Instant};

/// Between two looks at a partition.
const ROUND: Duration = Duration::from_secs(1);
/// The least pause between two looks, however many connections are refused.
const REST: Duration = Duration::from_millis(50);
/// How long the bus may take to tell of a course in which a partition is already, and between two questions about that.
const GRACE: Duration = Duration::from_millis(200);
const AGAIN: Duration = Duration::from_millis(10);
/// A bus that says nothing for so long counts as cut off.
const CUT: Duration = Duration::from_secs(2);
/// How long a partition may take for an answer.
const PATIENCE: Duration = Duration::from_secs(2);
/// No more threads look.
const MOST: usize = 32;

/// What was seen of the partitions: why each of them can't be used, or nothing if it can.
#[derive(Default)]
pub struct Watch {
    states: Mutex<BTreeMap<u32, Option<String>>>,
    hurries: Mutex<u64>,
    news: Condvar,
}

fn lock<T>(mutex: &Mutex<T>) -> MutexGuard<'_, T> {
    mutex.lock().unwrap_or_else(PoisonError::into_inner)
}

impl Watch {
    /// Looks at once, since a partition has refused this proxy.
    pub fn hurry(&self) {
        *lock(&self.hurries) += 1;
        self.news.notify_all();
    }

    /// Waits for the next look.
    fn wait(&self, seen: &mut u64) {
        let waited = self.news.wait_timeout_while(lock(&self.hurries), ROUND, |hurries| *hurries == *seen);
        *seen = *waited.unwrap_or_else(PoisonError::into_inner).0;
    }

    /// Why each partition can't be used, or nothing if it can.
    pub fn states(&self) -> BTreeMap<u32, Option<String>> {
        lock(&self.states).clone()
    }
}

/// What looks at one partition.
struct Eye {
    part: u32,
    server: Server,
    conn: Option<Conn>,
    /// Whether it is said that the partition is down.
    is_down: bool,
}

/// What a partition made of a log-in.
enum Seen {
    In,
    Refused(String),
}

/// Looks at these partitions for ever, in threads of their own.
pub fn start(shared: &Arc<Shared>, parts: &[u32]) {
    let unknown = |&part| (part, Some("was not looked at yet".to_string()));
    lock(&shared.watch.states).extend(parts.iter().map(unknown));
    let eye = |&part| Some(Eye { part, server: shared.setup.server(part)?, conn: None, is_down: false });
    let mut eyes: Vec<Eye> = parts.iter().filter_map(eye).collect();
    let size = eyes.len().div_ceil(MOST);
    while !eyes.is_empty() {
        let mut some = eyes.split_off(eyes.len().saturating_sub(size));
        let shared = shared.clone();
        thread::spawn(move || {
            let mut seen = 0;
            loop {
                some.iter_mut().for_each(|eye| eye.look(&shared));
                shared.watch.wait(&mut seen);
                thread::sleep(REST);
            }
        });
    }
}

impl Eye {
    fn look(&mut self, shared: &Shared) {
        if let Some(server) = shared.setup.server(self.part) {
            if server.addr != self.server.addr {
                self.conn = None;
            }
            self.server = server;
        }
        let mut number = shared.node.number();
        let mut seen = self.enter(shared, number);
        let asks = match &seen {
            Ok(Seen::In) => shared.node.silence() >= CUT,
            Ok(Seen::Refused(_)) if is_unheard(shared, number) => true,
            Ok(Seen::Refused(_)) => {
                // The bus has told of another course by now.
                number = shared.node.number();
                seen = self.enter(shared, number);
                false
            }
            Err(_) => false,
        };
        let learned = if asks { self.learn(shared) } else { Ok(false) };
        let why = match seen {
            Ok(Seen::In) => None,
            Ok(Seen::Refused(why)) => Some(format!("refuses course {number}: {why}")),
            Err(fault) => {
                self.conn = None;
                Some(format!("does not answer: {fault}"))
            }
        };
        self.say(why.as_deref());
        lock(&shared.watch.states).insert(self.part, why);
        match learned {
            Ok(true) => shared.watch.hurry(),
            Ok(false) => {}
            // It has no such user yet, or is gone by now.
            Err(_) => self.conn = None,
        }
    }

    /// Says that the partition does not answer, and that it lets this proxy in again.
    fn say(&mut self, why: Option<&str>) {
        match why {
            Some(why) if !self.is_down && self.conn.is_none() => {
                log::warn(format!("partition {} {why}", self.part));
                self.is_down = true;
            }
            None if std::mem::take(&mut self.is_down) => {
                log::info(format!("partition {} is up again", self.part));
            }
            _ => {}
        }
    }

    fn conn(&mut self) -> Done<&mut Conn> {
        if self.conn.is_none() {
            let mut conn = Conn::open(&self.server)?;
            conn.set_patience(PATIENCE)?;
            self.conn = Some(conn);
        }
        self.conn.as_mut().ok_or_else(|| Fault::new("no connection"))
    }

    /// Logs in by that course.
    fn enter(&mut self, shared: &Shared, number: u32) -> Done<Seen> {
        let (name, text) = (user(number), number.to_string());
        let conn = self.conn()?;
        conn.put(&["AUTH", &name, &shared.secret]);
        if number == 1 {
            conn.put(&["FCALL_RO", "squall_moves", "0", &text, &shared.first]);
        } else {
            conn.put(&["GET", "squall:number"]);
        }
        let said = conn.hear_all(2)?;
        let refusal = said.iter().find_map(|it| match it {
            Value::Error(why) => Some(why.clone()),
            Value::Bulk(other) if *other != text.as_bytes() => {
                Some(format!("it is in course {}", String::from_utf8_lossy(other)))
            }
            _ => None,
        });
        Ok(refusal.map_or(Seen::In, Seen::Refused))
    }

    /// Takes from the partition what the bus does not tell: whether there was any.
    fn learn(&mut self, shared: &Shared) -> Done<bool> {
        let part = self.part;
        let conn = self.conn()?;
        conn.ask(&["AUTH", READER, &shared.reader])?;
        let mut said = conn.ask(&["FCALL_RO", "squall_course", "0"])?.list().into_iter().map(Value::text);
        let (Some(number), Some(issue)) = (said.next(), said.next().and_then(|digits| bytes(&digits))) else {
            return Err(Fault::new("a course of another form"));
        };
        let before = shared.node.number();
        let mut is_news = !issue.is_empty() && shared.node.learn(&[issue])?;
        let (course, _) = shared.node.course()?;
        if course.number().to_string() == number {
            let loaded: HashMap<Rank, Vec<Range<Rank>>> = said.filter_map(|line| loads(&line)).collect();
            let moves = course.moves();
            let own = moves.iter().filter(|it| it.dest == part);
            let loads = report(|router: &mut Router| {
                own.flat_map(|it| {
                    loaded.get(&it.lo).into_iter().flatten().map(move |keys| (it, keys.clone()))
                })
                .try_for_each(|(it, keys)| router.loaded(course.number(), it.sub, part, keys))
            });
            is_news |= shared.node.learn(&loads?)?;
        }
        if shared.node.number() != before {
            let number = shared.node.number();
            log::warn(format!("the bus did not tell of course {number}; partition {part} has"));
        }
        Ok(is_news)
    }
}

/// Whether the bus tells of no other course within a short time.
fn is_unheard(shared: &Shared, number: u32) -> bool {
    let began = Instant::now();
    while began.elapsed() < GRACE && shared.node.number() == number {
        thread::sleep(AGAIN);
    }
    shared.node.number() == number
}

/// The bytes of hexadecimal digits.
fn bytes(digits: &str) -> Option<Vec<u8>> {
    let pairs = digits.as_bytes().chunks(2);
    pairs.map(|pair| u8::from_str_radix(std::str::from_utf8(pair).ok()?, 16).ok()).collect()
}

/// The first key of a move of which keys come, and the spans of those that were loaded.
fn loads(line: &str) -> Option<(Rank, Vec<Range<Rank>>)> {
    let words: Vec<&str> = line.split(' ').collect();
    let rank = |at: usize| u64::from_str_radix(words.get(at)?, 16).ok().map(Rank);
    if *words.get(2)? != "in" {
        return None;
    }
    let (lo, edge) = (rank(0)?, rank(4)?);
    let pulled = (6..words.len()).filter_map(rank).map(|rank| rank..Rank(rank.0 + 1));
    Some((lo, Some(lo..edge).filter(|keys| !keys.is_empty()).into_iter().chain(pulled).collect()))
}

#[cfg(test)]
mod tests {
    use super::*;

    #[test]
    fn what_a_partition_says_is_read() {
        assert_eq!(bytes("00ff1a"), Some(vec![0, 255, 26]));
        assert_eq!((bytes(""), bytes("0x"), bytes("f")), (Some(Vec::new()), None, Some(vec![15])));
        let line = "0000000200000000 0000000300000000 in 1 0000000200000007 0000000200000000";
        let (lo, seven) = (Rank::new(2, 0), Rank::new(2, 7));
        assert_eq!(loads(line), Some((lo, vec![lo..seven])));
        assert_eq!((loads(&line.replace("in", "out")), loads("x")), (None, None));
        let pulled = line.replace("07 ", "00 ") + " 0000000200000007";
        assert_eq!(loads(&pulled), Some((lo, vec![seven..Rank::new(2, 8)])));
    }
}
