//! Commands that the proxy answers itself.

use super::plan::{shown, Words};
use crate::keymap;
use crate::resp::{error, push};
use squall::View;
use std::time::{SystemTime, UNIX_EPOCH};

const FLUSH: &str = "ERR this proxy serves no FLUSHALL and FLUSHDB: partitions would lose what they keep of the course. Delete \
                     keys by SCAN and UNLINK";

/// An answer of the proxy itself.
pub struct Local {
    /// The bytes.
    pub answer: Vec<u8>,
    /// Whether the client is closed after it.
    pub is_end: bool,
}

impl Local {
    fn new(answer: impl Into<Vec<u8>>) -> Local {
        Local { answer: answer.into(), is_end: false }
    }
}

/// The answer of the proxy itself; none if it passes the command on.
pub fn answer(words: Words, view: &View, info: impl FnOnce() -> String) -> Option<Local> {
    let name = words.at(0).to_ascii_uppercase();
    let sub = |at| (words.count() > at).then(|| words.at(at).to_ascii_uppercase());
    Some(match &name[..] {
        b"PING" if words.count() == 1 => Local::new("+PONG\r\n"),
        b"PING" | b"ECHO" if words.count() == 2 => Local::new(bulk(words.at(1))),
        b"SELECT" => Local::new(if words.count() == 2 && words.at(1) == b"0" {
            b"+OK\r\n".to_vec()
        } else {
            error("ERR this proxy serves database 0 alone")
        }),
        b"QUIT" => Local { is_end: true, ..Local::new("+OK\r\n") },
        b"TIME" if words.count() == 1 => Local::new(time()),
        b"PING" | b"ECHO" | b"TIME" => Local::new(few(words)),
        b"SQUALL" => match (sub(1).as_deref(), words.count()) {
            (Some(b"INFO"), 2) => Local::new(bulk(info().as_bytes())),
            (Some(b"ROUTE"), 3) => Local::new(bulk(route(words.at(2), view).as_bytes())),
            _ => Local::new(error("ERR SQUALL INFO, or SQUALL ROUTE key")),
        },
        b"SCRIPT" => Local::new(error("ERR this proxy serves SCRIPT LOAD and SCRIPT EXISTS alone")),
        b"FLUSHALL" | b"FLUSHDB" => Local::new(error(FLUSH)),
        b"WAIT" => Local::new(error("ERR this proxy serves no WAIT: partitions have no replicas here")),
        _ => return None,
    })
}

/// Whether a partition may do it in a transaction: each one gives the same answer.
pub fn may_be_queued(words: Words) -> bool {
    match &words.at(0).to_ascii_uppercase()[..] {
        b"PING" => words.count() <= 2,
        b"ECHO" => words.count() == 2,
        b"TIME" => words.count() == 1,
        _ => false,
    }
}

/// A text as an answer.
pub fn bulk(bytes: &[u8]) -> Vec<u8> {
    [format!("${}\r\n", bytes.len()).as_bytes(), bytes, b"\r\n"].concat()
}

/// The clock of the proxy's machine, in seconds and the microseconds beyond them.
fn time() -> Vec<u8> {
    let now = SystemTime::now().duration_since(UNIX_EPOCH).unwrap_or_default();
    let mut answer = Vec::new();
    push(&mut answer, &[now.as_secs().to_string(), now.subsec_micros().to_string()]);
    answer
}

/// The error of a command that has too many words or too few.
pub fn few(words: Words) -> Vec<u8> {
    let name = shown(words.at(0)).to_ascii_lowercase();
    error(&format!("ERR wrong number of arguments for '{name}' command"))
}

fn route(key: &[u8], view: &View) -> String {
    let rank = keymap::rank(key);
    let part = view.route(rank).map_or("none".into(), |part| part.to_string());
    format!("key {rank} partition {part} course {}", view.number())
}
