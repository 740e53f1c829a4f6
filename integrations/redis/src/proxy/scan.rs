//! `SCAN` over all partitions.
//!
//! A pass visits the partitions by rising number. A key that moves could be missed: its source is
//! visited after it has gone, and its destination was visited before it came. So after a pass in which
//! keys may have moved the destinations are visited once more. In one course a key moves once, so it is
//! found there. If another course has begun meanwhile, the pass begins anew. Each partition answers only
//! in its own course, and gives no key of the next one before all partitions are in that.

use super::roles::{Role, Standing, Tables};
use super::upstream::Upstream;
use crate::faults;
use crate::keymap;
use crate::mover::is_own;
use crate::resp::{push, Value};
use squall::{Course, Move, Rank, View};
use std::collections::BTreeSet;

/// How many bits of a cursor are the partition and one more, and those of the course's number.
const PART: u32 = 14;
const NUMBER: u32 = 10;
/// The place of the server's own cursor.
const SHIFT: u32 = PART + 2 + NUMBER;
/// A cursor is below: many libraries read it as a number with a sign.
const MOST: u64 = 1 << (63 - SHIFT);

/// How far a walk over all keys is. A client has it as one number, and may go on at any proxy.
#[derive(Clone, Copy, Debug, PartialEq)]
pub struct Cursor {
    /// The partition that is visited, and its own cursor.
    pub part: u32,
    pub at: u64,
    /// The course in which the pass began, and whether all of its keys had moved by then.
    number: u32,
    is_quiet: bool,
    /// Whether only destinations are visited.
    is_second: bool,
}

/// A course, as a walk sees it.
pub struct Ground {
    number: u32,
    /// Whether all of its keys have moved.
    pub is_quiet: bool,
    parts: BTreeSet<u32>,
    /// The partitions to which keys move.
    pub dests: BTreeSet<u32>,
    moves: Vec<Move>,
}

/// What a worker knows beside what it is told.
pub struct Known<'a> {
    /// Its view, which says where keys are routed.
    pub view: &'a View,
    /// What the partitions have said.
    pub tables: &'a Tables,
}

impl Ground {
    /// That of a course, of which it is known whether all has come to a partition.
    pub fn of(course: &Course, has_loaded: impl Fn(u32) -> bool) -> Ground {
        let legs = course.old_plan().into_iter().chain(course.new_plan());
        let moves = course.moves();
        let dests: BTreeSet<u32> = moves.iter().map(|it| it.dest).collect();
        Ground {
            number: course.number() % (1 << NUMBER),
            is_quiet: dests.iter().all(|&dest| has_loaded(dest)),
            parts: legs.map(|leg| leg.part).collect(),
            dests,
            moves,
        }
    }

    /// All partitions of the course.
    pub fn parts(&self) -> impl Iterator<Item = u32> + '_ {
        self.parts.iter().copied()
    }

    /// The source and the destination of a key, if it moves.
    pub fn ends(&self, rank: Rank) -> Option<[u32; 2]> {
        let before = self.moves.partition_point(|it| it.lo <= rank);
        let it = self.moves[..before].last().filter(|it| rank < it.hi)?;
        Some([it.source, it.dest])
    }

    /// The first partition that the walk visits from that one on.
    pub fn part_from(&self, part: u32) -> Option<u32> {
        self.parts.range(part..).next().copied()
    }
}

impl Cursor {
    /// The beginning of a walk.
    pub fn begin(ground: &Ground) -> Option<Cursor> {
        let part = ground.part_from(0)?;
        Some(Cursor { part, at: 0, number: ground.number, is_quiet: ground.is_quiet, is_second: false })
    }

    /// The cursor of a client's word, if it is one that is not 0.
    pub fn read(word: &[u8]) -> Option<Cursor> {
        let bits: u64 = std::str::from_utf8(word).ok()?.parse().ok()?;
        let part = (bits % (1 << PART)).checked_sub(1)?;
        let flag = |at: u32| (bits >> at) & 1 == 1;
        Some(Cursor {
            part: part as u32,
            at: bits >> SHIFT,
            number: (bits >> (PART + 2)) as u32 % (1 << NUMBER),
            is_quiet: flag(PART),
            is_second: flag(PART + 1),
        })
    }

    /// The number that a client has of it; none if a server's cursor is too large.
    fn number(&self) -> Option<u64> {
        let flags = (u64::from(self.is_quiet) << PART) | (u64::from(self.is_second) << (PART + 1));
        let number = u64::from(self.number) << (PART + 2);
        (self.at < MOST).then_some((self.at << SHIFT) | number | flags | u64::from(self.part + 1))
    }

    /// The next cursor, after the partition's own has become `at`; none at the end of the walk.
    fn next(self, at: u64, ground: &Ground) -> Option<Cursor> {
        if at > 0 {
            return Some(Cursor { at, ..self });
        }
        let all = if self.is_second { &ground.dests } else { &ground.parts };
        if let Some(&part) = all.range(self.part + 1..).next() {
            return Some(Cursor { part, at, ..self });
        }
        if self.number != ground.number {
            return Cursor::begin(ground);
        }
        let is_over = self.is_quiet || self.is_second || faults::is_on("scan-once");
        let first = ground.dests.first().filter(|_| !is_over);
        first.map(|&part| Cursor { part, at, is_second: true, ..self })
    }

    /// The page that a partition has answered; none if it is none.
    pub fn page(self, reply: &[u8], from: &Upstream, ground: &Ground, known: &Known) -> Option<Page> {
        let (page, _) = Value::read(reply).ok()??;
        let mut page = page.list();
        let keys = page.pop()?.list().into_iter().map(Value::bytes);
        let keys = keys.filter(|key| !is_own(key) && known.has(from, key)).collect();
        let at: u64 = page.pop()?.text().parse().ok()?;
        Some(Page { keys, next: self.next(at, ground) })
    }
}

/// Names of keys, and where the walk goes on.
pub struct Page {
    /// Those of keys that are at the partition, or come there.
    pub keys: Vec<Vec<u8>>,
    /// None at the end of the walk.
    pub next: Option<Cursor>,
}

impl Page {
    /// The client's answer; none if a server's cursor is too large.
    pub fn answer(&self) -> Option<Vec<u8>> {
        let next = match &self.next {
            None => 0,
            Some(next) => next.number()?,
        };
        let digits = next.to_string();
        let mut answer = format!("*2\r\n${}\r\n{digits}\r\n", digits.len()).into_bytes();
        push(&mut answer, &self.keys);
        Some(answer)
    }
}

impl Known<'_> {
    /// Whether a row that a partition names counts as one of its.
    ///
    /// Rows do not of which the view and their destination say that they are elsewhere: they were copied away, and not
    /// removed yet. Those that come count, since the view may lag.
    pub fn has(&self, from: &Upstream, key: &[u8]) -> bool {
        let rank = keymap::rank(key);
        let is_current = self.view.number() == from.number;
        let routed = if is_current { self.view.route(rank) } else { Some(from.part) };
        let elsewhere = routed.filter(|&part| part != from.part);
        let has_come = |part: u32| {
            let table = self.tables.of(part, from.number);
            table.is_some_and(|table| table.standing(rank) == Standing::Stays)
        };
        match from.role(rank) {
            Some(Role::In) => true,
            Some(Role::Out) => !elsewhere.is_some_and(has_come),
            Some(Role::Beside) | None => routed == Some(from.part),
        }
    }
}

#[cfg(test)]
mod tests {
    use super::*;

    fn ground(number: u32, is_quiet: bool) -> Ground {
        let (parts, dests) = (BTreeSet::from([1, 2, 9999]), BTreeSet::from([2]));
        Ground { number, is_quiet, parts, dests, moves: Vec::new() }
    }

    #[test]
    fn cursors_are_numbers() {
        for (at, part, number) in [(0, 0, 0), (5, 9999, 1023), (MOST - 1, 7, 512)] {
            for flags in 0..4 {
                let cursor = Cursor { part, at, number, is_quiet: flags & 1 == 1, is_second: flags & 2 == 2 };
                let digits = cursor.number().unwrap().to_string();
                assert!(digits.parse::<i64>().is_ok(), "{digits}");
                assert_eq!(Cursor::read(digits.as_bytes()), Some(cursor));
            }
        }
        let large = Cursor { part: 1, at: MOST, number: 0, is_quiet: true, is_second: false };
        assert_eq!(large.number(), None);
        assert_eq!(Cursor::read(b"0"), None);
        assert_eq!(Cursor::read(b"x"), None);
    }

    /// The partitions that a walk visits, if the ground changes after so many of them.
    fn walk(first: &Ground, then: &Ground, after: usize) -> Vec<u32> {
        let mut cursor = Cursor::begin(first);
        let mut parts = Vec::new();
        while let Some(it) = cursor {
            parts.push(it.part);
            cursor = it.next(0, if parts.len() < after { first } else { then });
        }
        parts
    }

    #[test]
    fn destinations_are_visited_again_if_keys_move() {
        let (quiet, moving, next) = (ground(3, true), ground(3, false), ground(4, true));
        assert_eq!(walk(&quiet, &quiet, 9), [1, 2, 9999]);
        assert_eq!(walk(&moving, &moving, 9), [1, 2, 9999, 2]);
        // What was not known at the beginning counts.
        assert_eq!(walk(&moving, &quiet, 2), [1, 2, 9999, 2]);
        assert_eq!(walk(&quiet, &next, 2), [1, 2, 9999, 1, 2, 9999]);
        assert_eq!(walk(&moving, &next, 4), [1, 2, 9999, 2, 1, 2, 9999]);
    }
}
