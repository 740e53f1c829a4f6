//! A command that waits for its answers, and how these are joined.

use super::commands::Split;
use super::plan::Plan;
use crate::resp::{error, Value};

/// A command that is not answered.
pub struct Slot {
    /// Where its bytes begin, counted from the first one that the client sent, and how many it has.
    pub begin: u64,
    pub len: usize,
    /// Whether it is to be answered in RESP3.
    pub is_resp3: bool,
    /// How it is done; none if its answer is there from the beginning.
    pub plan: Option<Plan>,
    /// How many parts are not answered.
    pub left: usize,
    /// The answer of each part, how many bytes came, and how many are held.
    pub replies: Vec<Vec<u8>>,
    pub bytes: usize,
    pub held: usize,
}

impl Slot {
    /// Takes the answer of a part. If all of them are too large, they are dropped, and only that is said.
    pub fn take(&mut self, part: usize, reply: &[u8], most: usize) {
        let was_too_large = self.bytes > most;
        self.bytes += reply.len();
        if self.bytes <= most {
            self.replies[part] = reply.to_vec();
            self.held += reply.len();
        } else if !was_too_large {
            self.replies.iter_mut().for_each(|reply| *reply = Vec::new());
            self.replies[part] = too_large(self.bytes, most);
            self.held = self.replies[part].len();
        }
    }
}

/// What is answered instead of an answer that is too large, of which so many bytes are known.
pub fn too_large(bytes: usize, most: usize) -> Vec<u8> {
    error(&format!(
        "ERR the answer has at least {bytes} bytes, and --client-memory is {} MiB: the command was done, and its answer \
         is dropped",
        most >> 20
    ))
}

/// Appends the answer of a command whose parts are all answered. An error of a part is the answer.
pub fn join(slot: &Slot, out: &mut Vec<u8>) {
    let split = match &slot.plan {
        Some(Plan::Parts(_, split, _)) => *split,
        _ => return slot.replies.iter().for_each(|reply| out.extend_from_slice(reply)),
    };
    if let Some(error) = slot.replies.iter().find(|reply| reply.first() == Some(&b'-')) {
        return out.extend_from_slice(error);
    }
    match split {
        Split::List => {
            out.extend_from_slice(format!("*{}\r\n", slot.replies.len()).as_bytes());
            for reply in &slot.replies {
                // Each one is a list of one value.
                out.extend_from_slice(reply.strip_prefix(b"*1\r\n").unwrap_or(reply));
            }
        }
        Split::Sum => {
            let sum: i64 = slot.replies.iter().map(|reply| int(reply)).sum();
            out.extend_from_slice(format!(":{sum}\r\n").as_bytes());
        }
        Split::Done => out.extend_from_slice(&slot.replies[0]),
    }
}

fn int(reply: &[u8]) -> i64 {
    match Value::read(reply) {
        Ok(Some((Value::Int(number), _))) => number,
        _ => 0,
    }
}
