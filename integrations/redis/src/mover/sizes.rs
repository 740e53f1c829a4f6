//! Values that are too large to be moved. A destination takes no word of a command that is longer than its
//! `proto-max-bulk-len`, and ends the connection.

use super::index::Ranked;
use super::partition::Partition;
use crate::fault::{Done, Fault};
use crate::log;
use crate::resp::Value;
use std::collections::BTreeSet;
use std::fmt;
use std::sync::{Mutex, PoisonError};

/// What a server takes if it does not say so.
const OTHERWISE: u64 = 512 << 20;
/// What a command has beside its longest word.
const BESIDE: u64 = 1 << 16;
/// How many keys are looked at at once. Clients of their server wait meanwhile.
const BLOCK: usize = 256;

/// The most bytes that a dump may have for a destination.
pub struct Sizes {
    pub most: u64,
}

impl Sizes {
    /// What that destination says.
    pub fn of(dest: &mut Partition) -> Done<Sizes> {
        let mut setting = |name| -> Done<Option<u64>> {
            let said = dest.ask(&["CONFIG", "GET", name])?.list().pop();
            Ok(said.and_then(|it| it.text().parse().ok()))
        };
        let word = setting("proto-max-bulk-len")?.unwrap_or(OTHERWISE);
        let command = setting("client-query-buffer-limit")?.filter(|&most| most > 0);
        Ok(Sizes { most: command.map_or(word, |most| word.min(most.saturating_sub(BESIDE))) })
    }

    /// Whether a dump can't be put.
    pub fn is_too_large(&self, dump: &[u8]) -> bool {
        dump.len() as u64 > self.most
    }

    /// Which of these keys have too large a value, and how large it is.
    pub fn look(&self, source: &mut Partition, keys: &[Ranked]) -> Done<Vec<(usize, u64)>> {
        let mut found = Vec::new();
        for (block, keys) in keys.chunks(BLOCK).enumerate() {
            let (count, most) = (keys.len().to_string(), self.most.to_string());
            let mut words: Vec<&[u8]> = vec![b"FCALL", b"squall_large", count.as_bytes()];
            words.extend(keys.iter().map(|(_, key)| key.as_slice()));
            words.push(most.as_bytes());
            let said: Vec<u64> = source.ask(&words)?.list().iter().map(number).collect();
            let pairs = said.chunks_exact(2).filter(|pair| (1..=keys.len() as u64).contains(&pair[0]));
            found.extend(pairs.map(|pair| (block * BLOCK + pair[0] as usize - 1, pair[1])));
        }
        Ok(found)
    }
}

/// A number that a server answers.
fn number(said: &Value) -> u64 {
    match said {
        Value::Int(number) => u64::try_from(*number).unwrap_or(0),
        _ => 0,
    }
}

/// Why a key can't be moved.
#[derive(Clone)]
pub enum Why {
    /// Its dump has more bytes than the destination takes.
    TooLarge { size: u64, most: u64 },
    /// The destination refuses its dump, in these words.
    Refused(String),
}

/// A key that can't be moved.
pub struct Stuck {
    /// Where it is, and where it should go.
    pub source: u32,
    pub dest: u32,
    /// Its name.
    pub key: Vec<u8>,
    pub why: Why,
    /// Whether it was given, and its source could not have it back.
    pub is_given: bool,
}

impl fmt::Display for Stuck {
    fn fmt(&self, f: &mut fmt::Formatter<'_>) -> fmt::Result {
        let Stuck { source, dest, .. } = self;
        let key = self.key.escape_ascii();
        let (what, mend) = match &self.why {
            Why::TooLarge { size, most } => (
                format!(
                    "has {size} bytes, and partition {dest} takes {most} (proto-max-bulk-len, client-query-buffer-limit)"
                ),
                "raise that limit",
            ),
            Why::Refused(error) => (format!("is refused by partition {dest}: {error}"), "mend that"),
        };
        let (state, place) = match self.is_given {
            true => ("it was given, and nobody serves it", format!(" at partition {source} itself")),
            false => ("it stays there, and is served", String::new()),
        };
        write!(
            f,
            "partition {source}: the key \"{key}\" {what}; {state}: delete it{place} or {mend}, and start the mover again \
             with the same words"
        )
    }
}

/// The keys that can't be moved.
#[derive(Default)]
pub struct AllStuck(Mutex<BTreeSet<(u32, Vec<u8>)>>);

impl AllStuck {
    /// Names one, once.
    pub fn name(&self, stuck: &Stuck) {
        let mut all = self.0.lock().unwrap_or_else(PoisonError::into_inner);
        if all.insert((stuck.source, stuck.key.clone())) {
            log::warn(format!("{stuck}"));
        }
    }

    /// How many were named.
    pub fn count(&self) -> usize {
        self.0.lock().unwrap_or_else(PoisonError::into_inner).len()
    }

    /// Nothing, if there are none.
    ///
    /// # Errors
    ///
    /// There are some.
    pub fn check(&self, number: u32) -> Done<()> {
        match self.count() {
            0 => Ok(()),
            1 => Err(Fault::new(format!("course {number}: one key can't be moved; it is named above"))),
            count => {
                Err(Fault::new(format!("course {number}: {count} keys can't be moved; they are named above")))
            }
        }
    }
}
