//! How partitions take part in the moves of a course, as they say themselves.
//!
//! The bus says what was loaded, and routes go by that. But a plain command is sent for a key that moves only if its
//! destination has said that the key is loaded there. Until then it is guarded, so no word of anyone else makes an
//! answer wrong.

use crate::keymap;
use crate::resp::Value;
use squall::Rank;
use std::collections::{HashMap, HashSet};
use std::sync::atomic::{AtomicU64, Ordering::Relaxed};
use std::sync::{Arc, Mutex, MutexGuard, PoisonError, RwLock};
use std::time::{Duration, Instant};

/// The least pause between two questions how far a partition is. It is longer if answers take long: a partition shall
/// spend no more than a part of its time on them.
const PAUSE: Duration = Duration::from_millis(20);
const SHARE: u32 = 20;

/// How a partition takes part in a move.
#[derive(Clone, Copy, PartialEq, Debug)]
pub enum Role {
    /// Keys go from here.
    Out,
    /// Keys come here.
    In,
    /// They go past.
    Beside,
}

/// Where a key is, by what a partition has said.
#[derive(Clone, Copy, PartialEq, Debug)]
pub enum Standing {
    /// It stays where it is until the next course: it does not move, or it was loaded here.
    Stays,
    /// It comes here, and the partition has not said that it was loaded.
    Comes,
    /// It may go at any moment, or is elsewhere.
    Goes,
}

/// A move, below which rank its keys were given or loaded when the partition was asked, and which ranks were loaded ahead
/// of that.
struct Way {
    lo: Rank,
    hi: Rank,
    role: Role,
    edge: AtomicU64,
    pulled: RwLock<HashSet<Rank>>,
}

impl Way {
    fn has_loaded(&self, rank: Rank) -> bool {
        let pulled = || self.pulled.read().unwrap_or_else(PoisonError::into_inner);
        rank.0 < self.edge.load(Relaxed) || pulled().contains(&rank)
    }

    /// Takes what was said later of the same move.
    fn take(&self, said: Way) {
        self.edge.store(said.edge.into_inner(), Relaxed);
        let pulled = said.pulled.into_inner().unwrap_or_else(PoisonError::into_inner);
        *self.pulled.write().unwrap_or_else(PoisonError::into_inner) = pulled;
    }
}

/// When a partition was asked how far it is, and when it may be asked again.
struct Asked {
    is_under_way: bool,
    at: Instant,
    again: Instant,
}

/// What a partition has said of the moves of a course. All connections to it share it.
pub struct Table {
    number: u32,
    ways: Vec<Way>,
    asked: Mutex<Asked>,
}

impl Table {
    /// That of a course without moves.
    pub fn new(number: u32, now: Instant) -> Table {
        let asked = Asked { is_under_way: false, at: now, again: now };
        Table { number, ways: Vec::new(), asked: Mutex::new(asked) }
    }

    /// That of the texts that `squall_moves` answers; none if they are an error or of another form.
    pub fn read(number: u32, reply: &[u8], now: Instant) -> Option<Table> {
        let (value, _) = Value::read(reply).ok()??;
        let Value::List(lines) = value else {
            return None;
        };
        let ways: Option<_> = lines.into_iter().map(|line| read_way(&line.text())).collect();
        Some(Table { ways: ways?, ..Table::new(number, now) })
    }

    fn way(&self, rank: Rank) -> Option<&Way> {
        let after = self.ways.partition_point(|way| way.lo <= rank);
        self.ways[..after].last().filter(|way| rank < way.hi)
    }

    /// How the partition takes part in the move of a key, if it moves.
    pub fn role(&self, rank: Rank) -> Option<Role> {
        self.way(rank).map(|way| way.role)
    }

    /// Where a key is that was routed here.
    pub fn standing(&self, rank: Rank) -> Standing {
        match self.way(rank) {
            None => Standing::Stays,
            Some(way) if way.role != Role::In => Standing::Goes,
            Some(way) if way.has_loaded(rank) => Standing::Stays,
            Some(_) => Standing::Comes,
        }
    }

    /// Whether all keys that come here were loaded.
    pub fn is_loaded(&self) -> bool {
        let comes = self.ways.iter().filter(|way| way.role == Role::In);
        comes.into_iter().all(|way| way.edge.load(Relaxed) >= way.hi.0)
    }

    fn is_of(&self, other: &Table) -> bool {
        let is_same = |(a, b): (&Way, &Way)| a.lo == b.lo && a.hi == b.hi && a.role == b.role;
        self.number == other.number
            && self.ways.len() == other.ways.len()
            && self.ways.iter().zip(&other.ways).all(is_same)
    }

    fn lock(&self) -> MutexGuard<'_, Asked> {
        self.asked.lock().unwrap_or_else(PoisonError::into_inner)
    }

    /// Whether it may be asked now how far it is. If so, it counts as asked.
    pub fn may_ask(&self, now: Instant) -> bool {
        let mut asked = self.lock();
        let may_ask = !asked.is_under_way && now >= asked.again;
        if may_ask {
            (asked.is_under_way, asked.at) = (true, now);
        }
        may_ask
    }

    /// It has answered, or the connection was lost.
    pub fn end_question(&self, now: Instant) {
        let mut asked = self.lock();
        asked.is_under_way = false;
        asked.again = now + PAUSE.max((now - asked.at) * SHARE);
    }
}

/// What all partitions have said.
#[derive(Default)]
pub struct Tables(Mutex<HashMap<u32, Arc<Table>>>);

impl Tables {
    fn lock(&self) -> MutexGuard<'_, HashMap<u32, Arc<Table>>> {
        self.0.lock().unwrap_or_else(PoisonError::into_inner)
    }

    /// Takes what a partition has said just now: the table of all its connections.
    pub fn take(&self, part: u32, said: Table) -> Arc<Table> {
        let mut all = self.lock();
        if let Some(known) = all.get(&part).filter(|known| known.is_of(&said)) {
            known.ways.iter().zip(said.ways).for_each(|(way, said)| way.take(said));
            return known.clone();
        }
        let said = Arc::new(said);
        all.insert(part, said.clone());
        said
    }

    /// What a partition has said of that course, if it was asked.
    pub fn of(&self, part: u32, number: u32) -> Option<Arc<Table>> {
        self.lock().get(&part).filter(|table| table.number == number).cloned()
    }
}

impl Tables {
    /// Whether a partition has said that all keys of that course have come to it.
    pub fn has_loaded(&self, part: u32, number: u32) -> bool {
        self.of(part, number).is_some_and(|table| table.is_loaded())
    }
}

/// The move of a text `LO HI ROLE PEER EDGE FORGOT RANK..`.
fn read_way(line: &str) -> Option<Way> {
    let words: Vec<&str> = line.split(' ').collect();
    let rank = |at: usize| u64::from_str_radix(words.get(at)?, 16).ok().map(Rank);
    let role = match *words.get(2)? {
        "out" => Role::Out,
        "in" => Role::In,
        _ => Role::Beside,
    };
    let (lo, hi, edge) = (rank(0)?, rank(1)?, rank(4)?);
    debug_assert_eq!(keymap::hex(lo), words[0]);
    let pulled: Option<HashSet<Rank>> = (6..words.len()).map(rank).collect();
    Some(Way { lo, hi, role, edge: AtomicU64::new(edge.0), pulled: RwLock::new(pulled?) })
}

#[cfg(test)]
mod tests {
    use super::*;

    /// The table of lines whose moves begin at `2:0` and end at `3:0`.
    fn table(role: &str, edge: &str, now: Instant) -> Table {
        with_pulled(role, edge, "", now)
    }

    fn with_pulled(role: &str, edge: &str, pulled: &str, now: Instant) -> Table {
        let line = format!("0000000200000000 0000000300000000 {role} 3 {edge} 0000000200000000{pulled}");
        Table::read(2, format!("*1\r\n${}\r\n{line}\r\n", line.len()).as_bytes(), now).unwrap()
    }

    #[test]
    fn keys_that_come_are_believed_below_the_edge() {
        let now = Instant::now();
        let table = table("in", "0000000200000005", now);
        let standings = [4, 5].map(|second| table.standing(Rank::new(2, second)));
        assert_eq!(standings, [Standing::Stays, Standing::Comes]);
        assert_eq!(table.standing(Rank::new(3, 0)), Standing::Stays);
        assert_eq!(table.role(Rank::new(2, 9)), Some(Role::In));
        assert_eq!((table.role(Rank::new(1, 9)), table.role(Rank::new(3, 0))), (None, None));
        assert!(!table.is_loaded());
        for role in ["out", "none"] {
            let table = self::table(role, "0000000300000000", now);
            assert_eq!(table.standing(Rank::new(2, 0)), Standing::Goes);
        }
        assert!(Table::read(2, b"-SQUALL COURSE 3\r\n", now).is_none());
    }

    #[test]
    fn keys_that_were_pulled_are_believed() {
        let (now, tables) = (Instant::now(), Tables::default());
        let table = tables.take(3, table("in", "0000000200000005", now));
        assert_eq!(table.standing(Rank::new(2, 9)), Standing::Comes);
        let pulled = " 0000000200000009 0000000200000007";
        tables.take(3, with_pulled("in", "0000000200000005", pulled, now));
        let standings = [7, 8, 9].map(|second| table.standing(Rank::new(2, second)));
        assert_eq!(standings, [Standing::Stays, Standing::Comes, Standing::Stays]);
        tables.take(3, with_pulled("in", "0000000200000008", " 0000000200000009", now));
        assert_eq!(table.standing(Rank::new(2, 7)), Standing::Stays);
        assert!(Table::read(2, b"*1\r\n$3\r\nx y\r\n", now).is_none() && !table.is_loaded());
    }

    #[test]
    fn connections_share_what_was_said_last() {
        let (tables, now) = (Tables::default(), Instant::now());
        let first = tables.take(3, table("in", "0000000200000000", now));
        let second = tables.take(3, table("in", "0000000300000000", now));
        assert!(Arc::ptr_eq(&first, &second) && first.is_loaded());
        assert!(tables.of(3, 2).is_some() && tables.of(3, 1).is_none() && tables.of(2, 2).is_none());
        // A partition that says less is believed.
        tables.take(3, table("in", "0000000200000007", now));
        assert!(!first.is_loaded());
        let other = tables.take(3, table("out", "0000000200000000", now));
        assert!(!Arc::ptr_eq(&first, &other));
    }

    #[test]
    fn one_question_is_asked_at_a_time() {
        let now = Instant::now();
        let table = Table::new(2, now);
        assert!(table.may_ask(now) && !table.may_ask(now + PAUSE));
        let later = now + Duration::from_millis(5);
        table.end_question(later);
        assert!(!table.may_ask(later + PAUSE) && table.may_ask(later + 5 * PAUSE));
    }
}
