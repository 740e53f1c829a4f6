//! Plans, and what moves between two.

use crate::spans::{Span, TOP};
use serde::Deserialize;
use std::collections::BTreeSet;

#[derive(Deserialize)]
struct Text {
    plan: Vec<Entry>,
}

#[derive(Deserialize)]
struct Entry {
    part: u16,
    from: (u32, u32),
    to: End,
}

#[derive(Deserialize)]
#[serde(untagged)]
enum End {
    Pair((u32, u32)),
    Word(String),
}

fn rank((root, second): (u32, u32)) -> u64 {
    u64::from(root) << 32 | u64::from(second)
}

/// The ranges of a plan by rising key, neighbours of one partition joined: where each ends, and its partition.
#[derive(Clone, PartialEq)]
pub struct Plan(pub Vec<(u64, u16)>);

impl Plan {
    /// The plan of a text, or none.
    pub fn read(text: &[u8]) -> Option<Plan> {
        let Text { plan } = serde_json::from_slice(text).ok()?;
        let mut ranges = Vec::with_capacity(plan.len());
        for Entry { part, from, to } in plan {
            let hi = match to {
                End::Pair(pair) => rank(pair),
                End::Word(word) if word == "end" => TOP,
                End::Word(_) => return None,
            };
            if part > 9999 || rank(from) >= hi || hi > TOP {
                return None;
            }
            ranges.push((rank(from), hi, part));
        }
        ranges.sort_unstable();
        Plan::of(&ranges)
    }

    fn of(ranges: &[(u64, u64, u16)]) -> Option<Plan> {
        let mut found: Vec<(u64, u16)> = Vec::with_capacity(ranges.len());
        let mut at = 0;
        for &(lo, hi, part) in ranges {
            if lo != at {
                return None;
            }
            at = hi;
            match found.last_mut() {
                Some(last) if last.1 == part => last.0 = hi,
                _ => found.push((hi, part)),
            }
        }
        (at == TOP).then_some(Plan(found))
    }
}

/// Keys that go from one partition to another in a sub-plan.
pub struct Move {
    pub span: Span,
    pub from: u16,
    pub to: u16,
    pub sub: u32,
}

/// The moves by rising key, and how many sub-plans there are.
pub fn moves(old: &Plan, new: &Plan) -> (Vec<Move>, u32) {
    let mut found: Vec<Move> = Vec::with_capacity(old.0.len() + new.0.len());
    let (mut i, mut j, mut lo) = (0, 0, 0);
    while lo < TOP {
        let ((old_end, from), (new_end, to)) = (old.0[i], new.0[j]);
        let hi = old_end.min(new_end);
        match found.last_mut() {
            _ if from == to => {}
            Some(last) if last.span.1 == lo && (last.from, last.to) == (from, to) => last.span.1 = hi,
            _ => found.push(Move { span: (lo, hi), from, to, sub: 0 }),
        }
        i += usize::from(old_end == hi);
        j += usize::from(new_end == hi);
        lo = hi;
    }
    let count = number(&mut found);
    (found, count)
}

/// Gives each move its sub-plan: the place of its destination among those of its source.
fn number(moves: &mut [Move]) -> u32 {
    let links: BTreeSet<(u16, u16)> = moves.iter().map(|it| (it.from, it.to)).collect();
    let mut subs = Vec::with_capacity(links.len());
    for (from, to) in links {
        let sub = match subs.last() {
            Some(&((source, _), sub)) if source == from => sub + 1,
            _ => 0,
        };
        subs.push(((from, to), sub));
    }
    for it in moves.iter_mut() {
        let at = subs.partition_point(|(link, _)| *link < (it.from, it.to));
        it.sub = subs[at].1;
    }
    subs.iter().map(|(_, sub)| sub + 1).max().unwrap_or(0)
}
