//! The commands that a proxy passes on.
//!
//! A command that is not in the [table](COMMANDS) is refused. Left out are those that belong to a
//! connection, and the administration of a server. `MOVE` would take a key to a database that no mover
//! knows.

use super::places::Line;
use super::table::{Effect, COMMANDS, FREES, READS};
use std::ops::Range;

/// The places of a command's keys, as indices of its words.
#[derive(Clone, Copy, Debug, PartialEq)]
pub enum Keys {
    /// From the first to the last, and the step between two. A last index below 0 counts from the end.
    Range(usize, isize, usize),
    /// The word at the index says how many keys follow it. If the index is 2, the first word is a key too.
    Counted(usize),
    /// The word at the index says how many keys follow it, and no word before it is a key.
    Named(usize),
    /// The first half of the words after `STREAMS`.
    Streams,
    /// The first word, and that after `STORE` among the options of `SORT`.
    Sort,
    /// The first word, and that after `STORE` or `STOREDIST` among those of `GEORADIUS`.
    Geo,
    /// There are none, but the first word is a channel, which is published where a key of its name is.
    Channel,
    /// There are none.
    None,
}

/// How a command says how long it waits.
#[derive(Clone, Copy, Debug, PartialEq)]
pub struct Clock {
    /// The index of its word.
    pub at: usize,
    /// Whether it counts milliseconds. Else it is a number of seconds with a fraction.
    pub is_millis: bool,
}

/// Whether a server can do the command by its guard, which is a script, without a change of its reply.
#[derive(Clone, Copy, Debug, PartialEq)]
pub enum Guard {
    /// In both protocols.
    Both,
    /// In both, if the script speaks RESP2: its RESP3 cuts a list at the first null.
    Two,
    /// For clients of RESP2 alone.
    Resp2,
    /// Not at all: it is a script itself, it waits, or a script rounds numbers in its list. It is
    /// guarded on a connection of the client's own.
    Never,
}

/// How the answers of a command's parts are joined, if its keys may lie in several partitions.
#[derive(Clone, Copy, Debug, PartialEq)]
pub enum Split {
    /// As one list.
    List,
    /// As a sum.
    Sum,
    /// As one OK.
    Done,
}

/// What a command is about, for those who count.
#[derive(Clone, Copy, Debug, PartialEq)]
pub enum Kind {
    /// A text, or a number in one.
    Text,
    /// Bits of a text.
    Bitmap,
    /// A hash.
    Hash,
    /// A list.
    List,
    /// A set.
    Set,
    /// A sorted set.
    SortedSet,
    /// Places on the earth.
    Geo,
    /// An estimate of how many members there are.
    HyperLogLog,
    /// A stream.
    Stream,
    /// A key of any type.
    Key,
    /// A script or a function.
    Script,
    /// Waits for a key.
    Blocking,
    /// Messages, and who wants to have them.
    PubSub,
    /// A transaction, and what belongs to one.
    Transaction,
    /// Walks over all keys.
    Scan,
    /// What the proxy answers itself, or refuses.
    Own,
}

/// The names of all kinds, in their order.
pub const KINDS: [&str; 16] = [
    "text",
    "bitmap",
    "hash",
    "list",
    "set",
    "sorted_set",
    "geo",
    "hyperloglog",
    "stream",
    "key",
    "script",
    "blocking",
    "pubsub",
    "transaction",
    "scan",
    "own",
];

/// A command.
#[derive(Debug)]
pub struct Command {
    /// Its name in capital letters.
    pub name: &'static str,
    /// What it is about.
    pub kind: Kind,
    /// The places of its keys.
    pub keys: Keys,
    /// How it can be guarded.
    pub guard: Guard,
    /// How it can be split.
    pub split: Option<Split>,
}

/// A row of the table.
pub const fn row(name: &'static str, kind: Kind, keys: Keys, guard: Guard, split: Option<Split>) -> Command {
    Command { name, kind, keys, guard, split }
}

/// No name of a command is longer.
const MOST: usize = 24;

/// The command of a name in any case.
pub fn find(name: &[u8]) -> Option<&'static Command> {
    let mut capitals = [0; MOST];
    let capitals = capitals.get_mut(..name.len())?;
    capitals.copy_from_slice(name);
    capitals.make_ascii_uppercase();
    let at = COMMANDS.binary_search_by(|command| command.name.as_bytes().cmp(capitals));
    at.ok().map(|at| &COMMANDS[at])
}

const FEW: &str = "wrong number of arguments";
const NO_KEY: &str = "numkeys should be greater than 0";
const NO_SET: &str = "at least 1 input key is needed";

/// Where the keys end whose count the word at that index is.
fn counted<'a>(count: usize, at: usize, word: impl Fn(usize) -> &'a [u8]) -> Result<usize, &'static str> {
    if count <= at {
        return Err(FEW);
    }
    let keys = std::str::from_utf8(word(at)).ok().and_then(|word| word.parse().ok());
    let keys: usize = keys.ok_or("numkeys is no number")?;
    (at + 1).checked_add(keys).ok_or(FEW)
}

impl Command {
    /// What it does to the data of a server.
    pub fn effect(&self) -> Effect {
        if READS.binary_search(&self.name).is_ok() {
            Effect::Reads
        } else if FREES.binary_search(&self.name).is_ok() {
            Effect::Frees
        } else {
            Effect::Grows
        }
    }

    /// The function of a partition that does it by a guard. A server without memory or disk refuses a function where it
    /// would refuse the command.
    pub fn function(&self) -> &'static str {
        match self.effect() {
            Effect::Reads => "squall_read",
            Effect::Frees => "squall_free",
            Effect::Grows => "squall_do",
        }
    }

    /// Which of its words says how long it waits for a key, if it waits.
    pub fn clock<'a>(&self, count: usize, word: impl Fn(usize) -> &'a [u8]) -> Option<Clock> {
        match (self.kind, self.keys) {
            (_, Keys::Streams) => Line { count, word }.block().map(|at| Clock { at, is_millis: true }),
            (Kind::Blocking, Keys::Named(_)) => Some(Clock { at: 1, is_millis: false }),
            (Kind::Blocking, _) => Some(Clock { at: count - 1, is_millis: false }),
            _ => None,
        }
    }

    /// The indices of its keys, if it has `count` words. A script may have none, and then any partition may do it.
    ///
    /// # Errors
    ///
    /// Words are missing, the count of keys is none, or it reads keys that it does not name.
    pub fn places<'a>(
        &self,
        count: usize,
        word: impl Fn(usize) -> &'a [u8],
    ) -> Result<impl Iterator<Item = usize>, &'static str> {
        let (apart, rest, step) = self.spread(Line { count, word })?;
        let may_have_none = self.keys == Keys::None || self.kind == Kind::Script;
        let has_none = apart.is_empty() && rest.is_empty();
        if has_none && !may_have_none || apart.end.max(rest.end) > count || rest.len() % step != 0 {
            return Err(FEW);
        }
        if self.name == "COPY" && count > 4 {
            return Err("COPY to another database is not served");
        }
        Ok(apart.chain(rest.step_by(step)))
    }

    /// Those that come first, the others, and the step between two of these.
    fn spread<'a, F: Fn(usize) -> &'a [u8]>(
        &self,
        line: Line<F>,
    ) -> Result<(Range<usize>, Range<usize>, usize), &'static str> {
        let count = line.count;
        let with_store = |store: Option<usize>| (1..2, store.map_or(0..0, |at| at..at + 1), 1);
        Ok(match self.keys {
            Keys::Range(first, last, step) => {
                let last = if last < 0 { count.checked_add_signed(last) } else { Some(last as usize) };
                let last = last.filter(|&last| last >= first).ok_or(FEW)?;
                (0..0, first..last + 1, step)
            }
            Keys::Counted(at) => match counted(count, at, line.word)? {
                end if end == at + 1 && self.kind == Kind::SortedSet && self.name != "ZMPOP" => {
                    return Err(NO_SET)
                }
                end if end == at + 1 => return Err(NO_KEY),
                end => (1..at, at + 1..end, 1),
            },
            Keys::Named(at) => match counted(count, at, line.word)? {
                end if end == at + 1 && self.kind != Kind::Script => return Err(NO_KEY),
                end => (0..0, at + 1..end, 1),
            },
            Keys::Streams => (0..0, line.streams()?, 1),
            Keys::Sort => with_store(line.sort_store()?),
            Keys::Geo => with_store(line.geo_store()),
            Keys::Channel => (0..0, 1..2, 1),
            Keys::None => (0..0, 0..0, 1),
        })
    }
}

#[cfg(test)]
mod tests {
    use super::*;

    fn places(line: &str) -> Result<Vec<usize>, &'static str> {
        let words: Vec<&[u8]> = line.split(' ').map(str::as_bytes).collect();
        let command = find(words[0]).expect("a known command");
        let places = command.places(words.len(), |at| words[at])?.collect();
        Ok(places)
    }

    #[test]
    fn names_are_in_order() {
        assert!(COMMANDS.windows(2).all(|two| two[0].name < two[1].name));
        assert!(COMMANDS.iter().all(|it| it.name.len() <= MOST));
    }

    #[test]
    fn names_are_found_in_any_case() {
        for name in ["get", "GET", "gEt", "zremrangebyscore"] {
            assert!(find(name.as_bytes()).is_some(), "{name}");
        }
        for name in ["", "KEYS", "FLUSHALL", "MULTI", "SCAN", "MOVE", "AUTH"] {
            assert!(find(name.as_bytes()).is_none(), "{name}");
        }
    }

    #[test]
    fn keys_are_found() {
        assert_eq!(places("SET a 1"), Ok(vec![1]));
        assert_eq!(places("MGET a b c"), Ok(vec![1, 2, 3]));
        assert_eq!(places("MSET a 1 b 2"), Ok(vec![1, 3]));
        assert_eq!(places("RENAME a b"), Ok(vec![1, 2]));
        assert_eq!(places("BITOP AND d a b"), Ok(vec![2, 3, 4]));
        assert_eq!(places("ZUNIONSTORE d 2 a b WEIGHTS 1 2"), Ok(vec![1, 3, 4]));
        assert_eq!(places("ZINTER 2 a b WITHSCORES"), Ok(vec![2, 3]));
        assert_eq!(places("OBJECT ENCODING a"), Ok(vec![2]));
        assert_eq!(places("COPY a b REPLACE"), Ok(vec![1, 2]));
        assert_eq!(places("EVAL x 2 a b c"), Ok(vec![3, 4]));
        assert_eq!(places("BLPOP a b 0"), Ok(vec![1, 2]));
        assert_eq!(places("BLMOVE a b LEFT RIGHT 0"), Ok(vec![1, 2]));
        assert_eq!(places("BZMPOP 0 1 a MIN"), Ok(vec![3]));
        assert_eq!(places("EVAL x 0 a"), Ok(vec![]));
        assert_eq!(places("COMMAND INFO get"), Ok(vec![]));
        for line in ["LMPOP 0 a LEFT", "ZMPOP 0 a MIN", "SINTERCARD 0 a", "BZMPOP 0 0 a MIN"] {
            assert_eq!(places(line), Err(NO_KEY), "{line}");
        }
        for line in ["ZUNION 0 a", "ZINTERCARD 0 a", "ZDIFFSTORE d 0 a"] {
            assert_eq!(places(line), Err(NO_SET), "{line}");
        }
    }

    #[test]
    fn keys_among_options_are_found() {
        assert_eq!(places("XREAD COUNT 1 STREAMS a b 0 0"), Ok(vec![4, 5]));
        assert_eq!(places("XREAD block 0 streams streams $"), Ok(vec![4]));
        assert_eq!(places("XREADGROUP GROUP streams c NOACK STREAMS a >"), Ok(vec![6]));
        assert_eq!(places("SORT a"), Ok(vec![1]));
        assert_eq!(places("SORT a BY nosort LIMIT 0 1 DESC ALPHA STORE b STORE c"), Ok(vec![1, 12]));
        assert_eq!(places("SORT a BY store LIMIT store store"), Ok(vec![1]));
        assert_eq!(places("SORT a STORE"), Ok(vec![1]));
        assert_eq!(places("SORT_RO a DESC"), Ok(vec![1]));
        assert_eq!(places("GEORADIUS a 1 1 1 km COUNT 1 STORE b"), Ok(vec![1, 9]));
        assert_eq!(places("GEORADIUS a 1 1 1 km"), Ok(vec![1]));
        assert_eq!(places("GEORADIUSBYMEMBER a m 1 km STOREDIST b"), Ok(vec![1, 6]));
        assert_eq!(places("RESTORE a 0 x REPLACE"), Ok(vec![1]));
    }

    #[test]
    fn waits_are_found() {
        let clock = |line: &str| {
            let words: Vec<&[u8]> = line.split(' ').map(str::as_bytes).collect();
            let clock = find(words[0]).expect("a known command").clock(words.len(), |at| words[at]);
            clock.map(|it| (it.at, it.is_millis))
        };
        assert_eq!(clock("BLPOP a b 7"), Some((3, false)));
        assert_eq!(clock("BLMPOP 7 1 a LEFT"), Some((1, false)));
        assert_eq!(clock("XREAD BLOCK 7 STREAMS block 0"), Some((2, true)));
        assert_eq!(clock("XREADGROUP GROUP block block BLOCK 7 STREAMS a >"), Some((5, true)));
        assert_eq!(clock("XREADGROUP GROUP block 7 STREAMS a >"), None);
        assert_eq!(clock("GET a"), None);
    }

    #[test]
    fn words_that_are_missing_are_noticed() {
        for line in [
            "GET",
            "MSET a",
            "MSET a 1 b",
            "MGET",
            "RENAME a",
            "ZINTER 2 a",
            "ZINTER x a",
            "ZINTER 0 a",
            "ZINTER 18446744073709551615 a",
            "ZUNIONSTORE d",
            "OBJECT HELP",
            "COPY a b DB 1",
            "EVAL x 2 a",
            "EVAL x -1",
            "FCALL f",
            "BLPOP a",
            "XREAD STREAMS a b 0",
            "XREAD COUNT 1",
            "XREAD STREAMS",
            "SORT",
            "SORT a BY w_*",
            "SORT a GET #",
            "SORT_RO a LIMIT 0 1 GET d_*",
            "GEORADIUS",
            "BLMPOP 0 0 LEFT",
        ] {
            assert!(places(line).is_err(), "{line}");
        }
    }
}
