//! Where the keys of a command stand whose words have no fixed places: as its server finds them.

use std::ops::Range;

const UNBALANCED: &str = "an unbalanced list of streams: each one needs an ID";
const NO_STREAMS: &str = "wrong number of arguments";
/// A pattern of `SORT` names keys that lie anywhere, and only the server could tell which.
const PATTERN: &str = "a pattern of BY or GET reads keys of other partitions, and is not served";

/// The words of a command, from its name on.
pub struct Line<F> {
    /// How many there are.
    pub count: usize,
    /// The word of an index.
    pub word: F,
}

impl<'a, F: Fn(usize) -> &'a [u8]> Line<F> {
    fn is(&self, at: usize, name: &str) -> bool {
        at < self.count && (self.word)(at).eq_ignore_ascii_case(name.as_bytes())
    }

    /// The words of `XREAD` or `XREADGROUP` that are keys.
    ///
    /// # Errors
    ///
    /// There are none, or not each has an ID.
    pub fn streams(&self) -> Result<Range<usize>, &'static str> {
        let mark = self.options().find(|&at| self.is(at, "STREAMS")).ok_or(NO_STREAMS)?;
        let rest = self.count - mark - 1;
        match rest {
            0 => Err(NO_STREAMS),
            rest if rest % 2 == 1 => Err(UNBALANCED),
            rest => Ok(mark + 1..mark + 1 + rest / 2),
        }
    }

    /// The word after `BLOCK` in the options of `XREAD` or `XREADGROUP`: how long it waits.
    pub fn block(&self) -> Option<usize> {
        let blocks = self.options().filter(|&at| self.is(at, "BLOCK") && at + 1 < self.count);
        blocks.last().map(|at| at + 1)
    }

    /// The indices of the options of `XREAD` and `XREADGROUP`, up to that of `STREAMS` and to one that is not known.
    fn options(&self) -> impl Iterator<Item = usize> + '_ {
        let mut next = Some(1);
        std::iter::from_fn(move || {
            let at = next.filter(|&at| at < self.count)?;
            next = if self.is(at, "BLOCK") || self.is(at, "COUNT") {
                Some(at + 2)
            } else if self.is(at, "GROUP") {
                Some(at + 3)
            } else if self.is(at, "NOACK") {
                Some(at + 1)
            } else {
                None
            };
            Some(at)
        })
    }

    /// The word of `SORT` that names where the result is stored, if one does.
    ///
    /// # Errors
    ///
    /// It reads other keys.
    pub fn sort_store(&self) -> Result<Option<usize>, &'static str> {
        let (mut at, mut store) = (2, None);
        while at < self.count {
            let is_last = at + 1 == self.count;
            at += match () {
                () if is_last => 1,
                () if self.is(at, "LIMIT") => 3,
                () if self.is(at, "GET") => return Err(PATTERN),
                () if self.is(at, "BY") && (self.word)(at + 1).contains(&b'*') => return Err(PATTERN),
                () if self.is(at, "BY") => 2,
                () if self.is(at, "STORE") => {
                    store = Some(at + 1);
                    2
                }
                () => 1,
            };
        }
        Ok(store)
    }

    /// The word of `GEORADIUS` or `GEORADIUSBYMEMBER` that names where the result is stored, if one does.
    pub fn geo_store(&self) -> Option<usize> {
        let (mut at, mut store) = (5, None);
        while at + 1 < self.count {
            if self.is(at, "STORE") || self.is(at, "STOREDIST") {
                store = Some(at + 1);
                at += 1;
            }
            at += 1;
        }
        store
    }
}
