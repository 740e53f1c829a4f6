//! `KEYS`: the names of all keys, by a walk as that of `SCAN`. So it holds no partition up, and misses no key that moves.

use super::scan::{Cursor, Page};
use crate::resp::{error, push};
use std::collections::BTreeSet;

/// How many places of its table a server looks at for each page.
const COUNT: &str = "1000";

/// The names that were found, and where the walk is.
pub struct Names {
    pub cursor: Cursor,
    pattern: Vec<u8>,
    found: BTreeSet<Vec<u8>>,
    /// How many bytes their answer has.
    pub bytes: usize,
}

impl Names {
    /// A walk that begins.
    pub fn new(cursor: Cursor, pattern: &[u8]) -> Names {
        Names { cursor, pattern: pattern.to_vec(), found: BTreeSet::new(), bytes: 0 }
    }

    /// Appends the question to a partition.
    pub fn ask(&self, out: &mut Vec<u8>) {
        let at = self.cursor.at.to_string();
        push(out, &[b"SCAN", at.as_bytes(), b"MATCH", &self.pattern, b"COUNT", COUNT.as_bytes()]);
    }

    /// Takes a page: the answer if the walk is over, or if the names are too many.
    pub fn take(&mut self, page: Page, most: usize) -> Option<Vec<u8>> {
        for key in page.keys {
            let bytes = key.len() + b"$0000000000\r\n\r\n".len();
            self.bytes += if self.found.insert(key) { bytes } else { 0 };
        }
        if self.bytes > most {
            let most = most >> 20;
            return Some(error(&format!(
                "ERR the names of the keys have more than {most} MiB (--client-memory): use SCAN"
            )));
        }
        if let Some(next) = page.next {
            self.cursor = next;
            return None;
        }
        let mut answer = Vec::new();
        push(&mut answer, &self.found.iter().collect::<Vec<_>>());
        Some(answer)
    }
}
