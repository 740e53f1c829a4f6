//! Which keys of a source move.

use super::names::Names;
use super::patience::{self, Patience};
use crate::conn::{Conn, Server};
use crate::course::Move;
use crate::fault::{Done, Fault};
use crate::faults;
use crate::keymap;
use crate::resp::Value;
use crate::stop;
use squall::Rank;
use std::ops::Range;
use std::time::{Duration, Instant};

/// A Redis key and the rank of its key.
pub type Ranked = (Rank, Vec<u8>);

/// How long the news of new keys may wait to be heard while others are copied: a server ends a connection that leaves too
/// much unread.
const LATE: Duration = Duration::from_millis(20);

/// How many keys a server looks at in one step of a scan. Its clients wait meanwhile, for some 0.1 ms.
const PAGE: &str = "100";

/// The Redis keys of a source that move in a sub-plan, by rank.
///
/// A scan finds those that are there, and the server sends the names of those that are new. It was
/// asked for these before the scan began, so none is missed.
pub struct Index {
    news: Conn,
    heard: Instant,
    patience: Patience,
    names: Names,
}

impl Index {
    /// The keys of these moves, which all go from one source.
    pub fn new(server: &Server, moves: &[Move]) -> Done<Index> {
        let mut news = Conn::open(server)?;
        want_news(&mut news)?;
        patience::ask(&mut news, &["SUBSCRIBE", "__keyevent@0__:new"])?;
        let mut index = Index {
            news,
            heard: Instant::now(),
            patience: Patience::default(),
            names: Names::of(moves.iter().map(|it| it.lo..it.hi)),
        };
        // A server ends a connection that leaves too much of its news unread.
        scan(&mut Conn::open(server)?, |keys| {
            for key in keys {
                if let Some(rank) = index.rank(&key) {
                    index.names.add_found(rank, &key);
                }
            }
            stop::check()?;
            index.keep_up()
        })?;
        index.names.sort();
        index.listen()?;
        Ok(index)
    }

    /// The rank of a key, if it moves.
    fn rank(&self, key: &[u8]) -> Option<Rank> {
        let rank = keymap::rank(key);
        (self.names.covers(rank) && !is_own(key)).then_some(rank)
    }

    fn add(&mut self, key: Vec<u8>) {
        if let Some(rank) = self.rank(&key) {
            self.names.add_new(rank, key);
        }
    }

    /// The same as `listen`, if that was long ago.
    pub fn keep_up(&mut self) -> Done<()> {
        if self.heard.elapsed() < LATE {
            return Ok(());
        }
        self.listen()
    }

    /// Adds all keys that were new before this call.
    pub fn listen(&mut self) -> Done<()> {
        self.news.put(&["PING"]);
        self.news.flush()?;
        loop {
            let mut said = match self.news.hear()? {
                Value::Error(error) if self.patience.bears(&self.news, &error) => {
                    self.news.put(&["PING"]);
                    self.news.flush()?;
                    continue;
                }
                said => said.list(),
            };
            match (said.pop(), said.len()) {
                (Some(Value::Bulk(key)), 2) if !faults::is_on("miss-new-keys") => self.add(key),
                (Some(_), 2) => {}
                (Some(_), 1) => {
                    self.patience.end();
                    self.heard = Instant::now();
                    return Ok(());
                }
                _ => return Err(Fault::new("the source sends no news of new keys")),
            }
        }
    }

    /// How many keys are known.
    pub fn len(&self) -> usize {
        self.names.len()
    }

    /// The end of a chunk of about that many Redis keys, which begins at `lo`. It is `hi` at the
    /// latest. Keys of one rank are in one chunk.
    pub fn cut(&self, lo: Rank, hi: Rank, count: usize) -> Rank {
        self.names.cut(lo..hi, count)
    }

    /// The keys of a span, by rank.
    pub fn keys(&self, span: Range<Rank>) -> Vec<Ranked> {
        self.names.within(span)
    }

    /// Takes the keys of a span away.
    pub fn take(&mut self, span: Range<Rank>) -> Vec<Vec<u8>> {
        self.names.take(span)
    }
}

/// Whether a Redis key is one of the partition's own.
pub fn is_own(key: &[u8]) -> bool {
    key.starts_with(b"squall:")
}

/// Adds to the events that the server sends those of new keys.
fn want_news(conn: &mut Conn) -> Done<()> {
    let name = "notify-keyspace-events";
    let answer = patience::ask(conn, &["CONFIG", "GET", name])?.list().pop();
    let before = answer.map_or(String::new(), Value::text);
    let missing = ['E', 'n'].iter().filter(|&&it| !before.contains(it));
    let wanted: String = before.chars().chain(missing.copied()).collect();
    if wanted != before {
        patience::ask(conn, &["CONFIG", "SET", name, &wanted])?;
    }
    Ok(())
}

/// Calls the function with the Redis keys of a server, page by page.
pub fn scan(conn: &mut Conn, mut found: impl FnMut(Vec<Vec<u8>>) -> Done<()>) -> Done<()> {
    let mut cursor = "0".to_string();
    loop {
        let mut page = patience::ask(conn, &["SCAN", &cursor, "COUNT", PAGE])?.list();
        let keys = page.pop().map_or(Vec::new(), Value::list);
        cursor = page.pop().map_or("0".to_string(), Value::text);
        found(keys.into_iter().map(Value::bytes).collect())?;
        if cursor == "0" {
            return Ok(());
        }
    }
}
