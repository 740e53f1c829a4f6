//! Boards as frames of bytes, in Rust: nested maps to sorted vectors of spans.

#[path = "../shared.rs"]
mod shared;

use shared::{Cell, Span, TOP};
use std::collections::BTreeMap;
use std::time::{Duration, Instant};

const BODY_LIMIT: usize = 1_048_576;

/// How many sub-plans are opened, by number, and cells by number, sub-plan and partition.
#[derive(Default)]
struct Board {
    openings: BTreeMap<u32, u32>,
    cells: BTreeMap<u32, BTreeMap<u32, BTreeMap<u32, Cell>>>,
}

#[derive(Debug, PartialEq)]
enum Fault {
    Magic,
    Version,
    Kind,
    TooLong,
    Short,
    Count,
    Range,
    Order,
    Spare,
}

impl Board {
    fn cells(&self) -> impl Iterator<Item = (u32, u32, u32, &Cell)> {
        self.cells.iter().flat_map(|(number, subs)| {
            subs.iter().flat_map(move |(sub, parts)| {
                parts
                    .iter()
                    .map(move |(part, cell)| (*number, *sub, *part, cell))
            })
        })
    }

    fn put(&mut self, number: u32, sub: u32, part: u32, cell: Cell) {
        self.cells
            .entry(number)
            .or_default()
            .entry(sub)
            .or_default()
            .insert(part, cell);
    }
}

// ---- writing

fn encode(board: &Board) -> Option<Vec<u8>> {
    let mut out = vec![83, 81, 1, 1, 0, 0, 0, 0];
    out.extend_from_slice(&(board.openings.len() as u32).to_be_bytes());
    for (number, count) in &board.openings {
        out.extend_from_slice(&number.to_be_bytes());
        out.extend_from_slice(&count.to_be_bytes());
    }
    out.extend_from_slice(&(board.cells().count() as u32).to_be_bytes());
    for (number, sub, part, cell) in board.cells() {
        cell.write(number, sub, part, &mut out);
    }
    let length = out.len() - 8;
    if length > BODY_LIMIT {
        return None;
    }
    out[4..8].copy_from_slice(&(length as u32).to_be_bytes());
    Some(out)
}

// ---- reading

struct Reader<'a> {
    rest: &'a [u8],
}

impl Reader<'_> {
    fn word(&mut self) -> Result<u32, Fault> {
        let (word, rest) = self.rest.split_first_chunk().ok_or(Fault::Count)?;
        self.rest = rest;
        Ok(u32::from_be_bytes(*word))
    }

    fn rank(&mut self) -> Result<u64, Fault> {
        let (rank, rest) = self.rest.split_first_chunk().ok_or(Fault::Count)?;
        self.rest = rest;
        Ok(u64::from_be_bytes(*rank))
    }

    fn byte(&mut self) -> Result<u8, Fault> {
        let (byte, rest) = self.rest.split_first().ok_or(Fault::Count)?;
        self.rest = rest;
        Ok(*byte)
    }

    fn spans(&mut self, count: u32) -> Result<Vec<Span>, Fault> {
        let mut spans = Vec::new();
        let mut floor = 0;
        for _ in 0..count {
            let (lo, hi) = (self.rank()?, self.rank()?);
            if lo > TOP || hi > TOP {
                return Err(Fault::Range);
            }
            if lo < floor || hi <= lo {
                return Err(Fault::Order);
            }
            floor = hi + 1;
            spans.push(Span { lo, hi });
        }
        Ok(spans)
    }
}

fn board_in(body: &[u8]) -> Result<Board, Fault> {
    let mut reader = Reader { rest: body };
    let mut board = Board::default();
    let mut last = 0;
    for _ in 0..reader.word()? {
        let (number, count) = (reader.word()?, reader.word()?);
        if number == 0 || count == 0 || count > 10_000 {
            return Err(Fault::Range);
        }
        if number <= last {
            return Err(Fault::Order);
        }
        last = number;
        board.openings.insert(number, count);
    }
    let mut last = (0, 0, 0);
    for _ in 0..reader.word()? {
        let place = (reader.word()?, reader.word()?, reader.word()?);
        let (done, count) = (reader.byte()?, reader.word()?);
        let says = done == 1 || count > 0;
        if place.0 == 0 || place.1 > 9999 || place.2 > 9999 || done > 1 || !says {
            return Err(Fault::Range);
        }
        if place <= last {
            return Err(Fault::Order);
        }
        last = place;
        let spans = reader.spans(count)?;
        let done = done == 1;
        board.put(place.0, place.1, place.2, Cell { spans, done });
    }
    if !reader.rest.is_empty() {
        return Err(Fault::Spare);
    }
    Ok(board)
}

fn decode(bytes: &[u8]) -> Result<(Board, usize), Fault> {
    let other = |at: usize, byte: u8| bytes.get(at).is_some_and(|b| *b != byte);
    if other(0, 83) || other(1, 81) {
        return Err(Fault::Magic);
    }
    if other(2, 1) {
        return Err(Fault::Version);
    }
    if other(3, 1) {
        return Err(Fault::Kind);
    }
    let Some(length) = bytes.get(4..8) else {
        return Err(Fault::Short);
    };
    let length = u32::from_be_bytes(length.try_into().unwrap()) as usize;
    if length > BODY_LIMIT {
        return Err(Fault::TooLong);
    }
    let body = bytes.get(8..8 + length).ok_or(Fault::Short)?;
    Ok((board_in(body)?, 8 + length))
}

#[derive(Default)]
struct Feed {
    waiting: Vec<u8>,
}

impl Feed {
    fn push(&mut self, piece: &[u8]) -> Result<Vec<Board>, Fault> {
        self.waiting.extend_from_slice(piece);
        let mut boards = Vec::new();
        let mut at = 0;
        loop {
            match decode(&self.waiting[at..]) {
                Ok((board, used)) => {
                    boards.push(board);
                    at += used;
                }
                Err(Fault::Short) => break,
                Err(fault) => return Err(fault),
            }
        }
        self.waiting.drain(..at);
        Ok(boards)
    }
}

// ---- measuring

/// A board of so many cells with so many spans each.
fn board_with(cells: u32, spans: u64) -> Board {
    let mut board = Board::default();
    board.openings.insert(1, 1);
    for cell in 0..cells {
        let spans = (0..spans).map(|at| Span {
            lo: 1000 * at,
            hi: 1000 * at + 500,
        });
        let spans = spans.collect();
        board.put(1, cell / 1000, cell % 1000, Cell { spans, done: true });
    }
    board
}

fn say(name: &str, time: Duration, bytes: usize) {
    let rate = bytes as u128 * 1_000 / time.as_nanos().max(1);
    println!("{name}: {rate} MB/s");
}

fn measure(name: &str, board: &Board) -> Vec<u8> {
    let frame = encode(board).unwrap();
    let start = Instant::now();
    let mut bytes = 0;
    for _ in 0..20 {
        bytes += encode(board).unwrap().len();
    }
    say(&format!("encode, {name}"), start.elapsed(), bytes);
    let start = Instant::now();
    let mut bytes = 0;
    for _ in 0..20 {
        bytes += decode(&frame).unwrap().1;
    }
    say(&format!("decode, {name}"), start.elapsed(), bytes);
    frame
}

fn measure_feed(size: usize, stream: &[u8]) {
    let mut feed = Feed::default();
    let start = Instant::now();
    let mut heard = 0;
    for piece in stream.chunks(size) {
        heard += feed.push(piece).unwrap().len();
    }
    let name = format!("feed, {heard} frames in pieces of {size}");
    say(&name, start.elapsed(), stream.len());
}

fn main() {
    let mut stream = Vec::new();
    for (name, cells, spans) in [
        ("1 cell of 65000 spans", 1, 65_000),
        ("1000 cells of 64 spans", 1_000, 64),
        ("30000 cells of 1 span", 30_000, 1),
    ] {
        stream.extend_from_slice(&measure(name, &board_with(cells, spans)));
    }
    for size in [1, 100, 65_536] {
        measure_feed(size, &stream);
    }
}
