//! Frames: what they say, and how boards and digests are spelled.

use crate::board::{Board, Cell, Issue, Place};
use crate::plan::Plan;
use crate::spans::TOP;
use sha2::{Digest, Sha256};
use std::rc::Rc;

const MOST: usize = 1_048_576;

/// Why bytes are no frames of a board.
#[derive(Debug)]
pub struct Fault(pub &'static str);

fn check(within: bool, after: bool) -> Result<(), Fault> {
    match (within, after) {
        (false, _) => Err(Fault("Range")),
        (_, false) => Err(Fault("Order")),
        _ => Ok(()),
    }
}

/// Lets the board take all frames of the bytes.
pub fn hear(mut bytes: &[u8], board: &mut Board) -> Result<(), Fault> {
    while !bytes.is_empty() {
        let (version, kind, length) = head(bytes)?;
        let body = bytes.get(8..8 + length).ok_or(Fault("Short"))?;
        if kind == 2 {
            return Err(Fault("Kind"));
        }
        Reader(body).delta(version == 2, board)?;
        bytes = &bytes[8 + length..];
    }
    Ok(())
}

/// The version, the kind and the length of the body.
fn head(bytes: &[u8]) -> Result<(u8, u8, usize), Fault> {
    let wanted: [(&[u8], &str); 4] =
        [(b"S", "Magic"), (b"Q", "Magic"), (b"\x01\x02", "Version"), (b"\x01\x02", "Kind")];
    for (at, (these, fault)) in wanted.into_iter().enumerate() {
        if !these.contains(bytes.get(at).ok_or(Fault("Short"))?) {
            return Err(Fault(fault));
        }
    }
    let length = bytes.get(4..8).ok_or(Fault("Short"))?;
    let length = u32::from_be_bytes(length.try_into().expect("four bytes")) as usize;
    if length > MOST {
        return Err(Fault("TooLong"));
    }
    Ok((bytes[2], bytes[3], length))
}

struct Reader<'a>(&'a [u8]);

impl Reader<'_> {
    fn take<const N: usize>(&mut self) -> Result<[u8; N], Fault> {
        let (item, rest) = self.0.split_first_chunk::<N>().ok_or(Fault("Count"))?;
        self.0 = rest;
        Ok(*item)
    }

    fn count(&mut self) -> Result<u32, Fault> {
        self.take().map(u32::from_be_bytes)
    }

    fn delta(mut self, has_issues: bool, board: &mut Board) -> Result<(), Fault> {
        let mut last = 0;
        for _ in 0..self.count()? {
            let item = self.take::<8>()?;
            let (number, count) = (word(&item, 0), word(&item, 4));
            check(number >= 1 && (1..=10_000).contains(&count), last < number)?;
            last = number;
            board.open(number, count);
        }
        if has_issues {
            self.issues(board)?;
        }
        self.cells(board)?;
        match self.0 {
            [] => Ok(()),
            _ => Err(Fault("Spare")),
        }
    }

    fn issues(&mut self, board: &mut Board) -> Result<(), Fault> {
        let count = self.count()?;
        check(count >= 1, true)?;
        let mut last = 0;
        for _ in 0..count {
            let item = self.take::<5>()?;
            let number = word(&item, 0);
            check(number >= 1 && (1..=2).contains(&item[4]), last < number)?;
            last = number;
            let issue = match item[4] {
                1 => Issue::One(Rc::new((self.plan()?, self.plan()?))),
                _ => Issue::Clash,
            };
            board.issue(number, issue);
        }
        Ok(())
    }

    fn plan(&mut self) -> Result<Plan, Fault> {
        let count = self.count()?;
        check((1..=4096).contains(&count), true)?;
        let mut ranges: Vec<(u64, u16)> = Vec::with_capacity(count as usize);
        for left in (0..count).rev() {
            let item = self.take::<12>()?;
            let (end, part) = (long(&item, 0), word(&item, 8));
            let is_after = ranges.last().is_none_or(|it| it.0 < end && u32::from(it.1) != part);
            check(end <= TOP && part <= 9999 && (left > 0 || end == TOP), end > 0 && is_after)?;
            ranges.push((end, part as u16));
        }
        Ok(Plan(ranges))
    }

    fn cells(&mut self, board: &mut Board) -> Result<(), Fault> {
        let mut last = None;
        for _ in 0..self.count()? {
            let item = self.take::<17>()?;
            let (number, sub, part, done, count) =
                (word(&item, 0), word(&item, 4), word(&item, 8), item[12], word(&item, 13));
            let within = number >= 1 && sub <= 9999 && part <= 9999 && done <= 1 && (done == 1 || count > 0);
            check(within, last < Some((number, sub, part)))?;
            last = Some((number, sub, part));
            let mut spans = Vec::with_capacity((count as usize).min(self.0.len() / 16));
            let mut floor = None;
            for _ in 0..count {
                let item = self.take::<16>()?;
                let (lo, hi) = (long(&item, 0), long(&item, 8));
                check(lo <= TOP && hi <= TOP, floor < Some(lo) && lo < hi)?;
                floor = Some(hi);
                spans.push((lo, hi));
            }
            board.take((number, sub, part as u16), done == 1, spans);
        }
        Ok(())
    }
}

fn word(item: &[u8], at: usize) -> u32 {
    u32::from_be_bytes(item[at..at + 4].try_into().expect("four bytes"))
}

fn long(item: &[u8], at: usize) -> u64 {
    u64::from_be_bytes(item[at..at + 8].try_into().expect("eight bytes"))
}

fn put(out: &mut Vec<u8>, number: u32) {
    out.extend_from_slice(&number.to_be_bytes());
}

fn put_issue(out: &mut Vec<u8>, number: u32, issue: &Issue) {
    put(out, number);
    let Issue::One(plans) = issue else {
        out.push(2);
        return;
    };
    out.push(1);
    for plan in [&plans.0, &plans.1] {
        put(out, plan.0.len() as u32);
        for (end, part) in &plan.0 {
            out.extend_from_slice(&end.to_be_bytes());
            put(out, u32::from(*part));
        }
    }
}

fn put_cell(out: &mut Vec<u8>, place: Place, cell: &Cell) {
    put_head(out, place, cell.done, cell.spans.len());
    for (lo, hi) in &cell.spans {
        out.extend_from_slice(&lo.to_be_bytes());
        out.extend_from_slice(&hi.to_be_bytes());
    }
}

fn put_head(out: &mut Vec<u8>, (number, sub, part): Place, done: bool, count: usize) {
    for it in [number, sub, u32::from(part)] {
        put(out, it);
    }
    out.push(u8::from(done));
    put(out, count as u32);
}

fn hash(text: &[u8]) -> [u8; 32] {
    Sha256::digest(text).into()
}

/// The lists of a frame, each with its count.
#[derive(Default)]
struct Lists {
    openings: (u32, Vec<u8>),
    issues: (u32, Vec<u8>),
    rest: (u32, Vec<u8>),
}

impl Lists {
    fn len(&self) -> usize {
        let issues = if self.issues.0 > 0 { 4 + self.issues.1.len() } else { 0 };
        8 + self.openings.1.len() + issues + self.rest.1.len()
    }

    fn end(self, kind: u8, out: &mut Vec<u8>) {
        out.extend_from_slice(&[b'S', b'Q', if self.issues.0 > 0 { 2 } else { 1 }, kind]);
        put(out, self.len() as u32);
        put(out, self.openings.0);
        out.extend(self.openings.1);
        if self.issues.0 > 0 {
            put(out, self.issues.0);
            out.extend(self.issues.1);
        }
        put(out, self.rest.0);
        out.extend(self.rest.1);
    }
}

/// The frames of a board: each has as many of the next items as fit.
pub fn frames(board: &Board) -> Vec<u8> {
    let (mut out, mut lists) = (Vec::new(), Lists::default());
    if board.is_empty() {
        return out;
    }
    for (number, count) in &board.opened {
        make_room(&mut lists, 8, &mut out);
        lists.openings.0 += 1;
        put(&mut lists.openings.1, *number);
        put(&mut lists.openings.1, *count);
    }
    for (number, issue) in &board.issues {
        let mut text = Vec::new();
        put_issue(&mut text, *number, issue);
        let count = if lists.issues.0 > 0 { 0 } else { 4 };
        make_room(&mut lists, text.len() + count, &mut out);
        lists.issues.0 += 1;
        lists.issues.1.extend(text);
    }
    for (place, cell) in &board.cells {
        put_pieces(*place, cell, &mut lists, &mut out);
    }
    lists.end(1, &mut out);
    out
}

fn make_room(lists: &mut Lists, length: usize, out: &mut Vec<u8>) {
    if lists.len() + length > MOST {
        std::mem::take(lists).end(1, out);
    }
}

/// Puts a cell into the frame, and what is left of its spans into the next ones.
fn put_pieces(place: Place, cell: &Cell, lists: &mut Lists, out: &mut Vec<u8>) {
    let (mut done, mut spans) = (cell.done, &cell.spans[..]);
    while done || !spans.is_empty() {
        make_room(lists, if done { 17 } else { 33 }, out);
        let count = spans.len().min((MOST - lists.len() - 17) / 16);
        let (these, rest) = spans.split_at(count);
        put_cell(&mut lists.rest.1, place, &Cell { done, spans: these.to_vec() });
        lists.rest.0 += 1;
        (done, spans) = (false, rest);
    }
}

/// The frame of a board's digest, or nothing if it is too long.
pub fn digest(board: &Board) -> Option<Vec<u8>> {
    let (mut lists, mut text) = (Lists::default(), Vec::new());
    for (number, count) in &board.opened {
        lists.openings.0 += 1;
        put(&mut lists.openings.1, *number);
        put(&mut lists.openings.1, *count);
    }
    for (number, issue) in &board.issues {
        text.clear();
        put_issue(&mut text, *number, issue);
        lists.issues.0 += 1;
        put(&mut lists.issues.1, *number);
        lists.issues.1.extend(hash(&text));
    }
    let mut cells = board.cells.iter().peekable();
    while let Some((&(number, sub, _), _)) = cells.peek() {
        text.clear();
        while let Some((place, cell)) = cells.next_if(|(place, _)| (place.0, place.1) == (number, sub)) {
            put_cell(&mut text, *place, cell);
        }
        lists.rest.0 += 1;
        put(&mut lists.rest.1, number);
        put(&mut lists.rest.1, sub);
        lists.rest.1.extend(hash(&text));
    }
    (lists.len() <= MOST).then(|| {
        let mut out = Vec::new();
        lists.end(2, &mut out);
        out
    })
}
