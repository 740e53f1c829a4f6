//! What boards send each other, in Rust: nested maps to sorted vectors of spans.

#[path = "../shared.rs"]
mod shared;

use shared::{next, Cell, Span};
use std::collections::BTreeMap;
use std::hint::black_box;
use std::time::{Duration, Instant};

const BODY_LIMIT: usize = 1_048_576;

type Parts = BTreeMap<u32, Cell>;

/// Cells by number, sub-plan and partition.
#[derive(Clone, Default, PartialEq)]
struct Board {
    cells: BTreeMap<u32, BTreeMap<u32, Parts>>,
}

impl Board {
    fn cell_mut(&mut self, number: u32, sub: u32, part: u32) -> &mut Cell {
        let subs = self.cells.entry(number).or_default();
        subs.entry(sub).or_default().entry(part).or_default()
    }

    fn rows(&self) -> impl Iterator<Item = (u32, u32, &Parts)> {
        let numbers = self.cells.iter();
        numbers.flat_map(|(number, subs)| subs.iter().map(|(sub, parts)| (*number, *sub, parts)))
    }
}

// ---- what a board has beyond another

/// The keys of the first list that the second lacks.
fn minus(first: &[Span], second: &[Span]) -> Vec<Span> {
    let mut out = Vec::new();
    let Some(start) = first.first() else {
        return out;
    };
    let mut at = second.partition_point(|span| span.hi <= start.lo);
    for span in first {
        let mut lo = span.lo;
        while at < second.len() && second[at].hi <= lo {
            at += 1;
        }
        let mut next = at;
        while next < second.len() && second[next].lo < span.hi {
            if lo < second[next].lo {
                let hi = second[next].lo;
                out.push(Span { lo, hi });
            }
            lo = second[next].hi;
            next += 1;
        }
        if lo < span.hi {
            out.push(Span { lo, hi: span.hi });
        }
        at = next.saturating_sub(1).max(at);
    }
    out
}

fn beyond(a: &Board, b: &Board) -> Board {
    let mut out = Board::default();
    for (number, subs) in &a.cells {
        let other = b.cells.get(number);
        for (sub, parts) in subs {
            let other = other.and_then(|subs| subs.get(sub));
            for (part, cell) in parts {
                let rest = match other.and_then(|parts| parts.get(part)) {
                    None => cell.clone(),
                    Some(other) => Cell {
                        spans: minus(&cell.spans, &other.spans),
                        done: cell.done && !other.done,
                    },
                };
                if rest.done || !rest.spans.is_empty() {
                    *out.cell_mut(*number, *sub, *part) = rest;
                }
            }
        }
    }
    out
}

// ---- pieces

fn pieces(board: &Board) -> Vec<Board> {
    let mut out = Vec::new();
    let mut piece = Board::default();
    let mut room = BODY_LIMIT - 8;
    for (number, sub, parts) in board.rows() {
        for (part, cell) in parts {
            let mut done = cell.done;
            let mut spans = &cell.spans[..];
            while done || !spans.is_empty() {
                let head = 17 + if done { 0 } else { 16 };
                if room < head {
                    out.push(std::mem::take(&mut piece));
                    room = BODY_LIMIT - 8;
                }
                room -= 17;
                let (here, later) = spans.split_at(spans.len().min(room / 16));
                room -= 16 * here.len();
                let spans_here = here.to_vec();
                *piece.cell_mut(number, sub, *part) = Cell { spans: spans_here, done };
                done = false;
                spans = later;
            }
        }
    }
    if piece != Board::default() {
        out.push(piece);
    }
    out
}

// ---- digests, by a plain SHA-256

const ROUND: [u32; 64] = [
    0x428a2f98, 0x71374491, 0xb5c0fbcf, 0xe9b5dba5, 0x3956c25b, 0x59f111f1, 0x923f82a4, 0xab1c5ed5, 0xd807aa98,
    0x12835b01, 0x243185be, 0x550c7dc3, 0x72be5d74, 0x80deb1fe, 0x9bdc06a7, 0xc19bf174, 0xe49b69c1, 0xefbe4786,
    0x0fc19dc6, 0x240ca1cc, 0x2de92c6f, 0x4a7484aa, 0x5cb0a9dc, 0x76f988da, 0x983e5152, 0xa831c66d, 0xb00327c8,
    0xbf597fc7, 0xc6e00bf3, 0xd5a79147, 0x06ca6351, 0x14292967, 0x27b70a85, 0x2e1b2138, 0x4d2c6dfc, 0x53380d13,
    0x650a7354, 0x766a0abb, 0x81c2c92e, 0x92722c85, 0xa2bfe8a1, 0xa81a664b, 0xc24b8b70, 0xc76c51a3, 0xd192e819,
    0xd6990624, 0xf40e3585, 0x106aa070, 0x19a4c116, 0x1e376c08, 0x2748774c, 0x34b0bcb5, 0x391c0cb3, 0x4ed8aa4a,
    0x5b9cca4f, 0x682e6ff3, 0x748f82ee, 0x78a5636f, 0x84c87814, 0x8cc70208, 0x90befffa, 0xa4506ceb, 0xbef9a3f7,
    0xc67178f2,
];

fn block(state: &mut [u32; 8], bytes: &[u8]) {
    let mut words = [0u32; 64];
    for (word, bytes) in words.iter_mut().zip(bytes.chunks_exact(4)) {
        *word = u32::from_be_bytes(bytes.try_into().unwrap());
    }
    for i in 16..64 {
        let s0 = words[i - 15].rotate_right(7) ^ words[i - 15].rotate_right(18) ^ (words[i - 15] >> 3);
        let s1 = words[i - 2].rotate_right(17) ^ words[i - 2].rotate_right(19) ^ (words[i - 2] >> 10);
        words[i] = words[i - 16].wrapping_add(s0).wrapping_add(words[i - 7]).wrapping_add(s1);
    }
    let [mut a, mut b, mut c, mut d, mut e, mut f, mut g, mut h] = *state;
    for i in 0..64 {
        let s1 = e.rotate_right(6) ^ e.rotate_right(11) ^ e.rotate_right(25);
        let choice = (e & f) ^ (!e & g);
        let t1 = h.wrapping_add(s1).wrapping_add(choice).wrapping_add(ROUND[i]).wrapping_add(words[i]);
        let s0 = a.rotate_right(2) ^ a.rotate_right(13) ^ a.rotate_right(22);
        let t2 = s0.wrapping_add((a & b) ^ (a & c) ^ (b & c));
        (h, g, f, e, d, c, b, a) = (g, f, e, d.wrapping_add(t1), c, b, a, t1.wrapping_add(t2));
    }
    for (word, new) in state.iter_mut().zip([a, b, c, d, e, f, g, h]) {
        *word = word.wrapping_add(new);
    }
}

fn sha256(bytes: &[u8]) -> [u8; 32] {
    let mut state = [
        0x6a09e667, 0xbb67ae85, 0x3c6ef372, 0xa54ff53a, 0x510e527f, 0x9b05688c, 0x1f83d9ab, 0x5be0cd19,
    ];
    let whole = bytes.chunks_exact(64);
    let mut last = whole.remainder().to_vec();
    whole.for_each(|bytes| block(&mut state, bytes));
    last.push(0x80);
    while last.len() % 64 != 56 {
        last.push(0);
    }
    last.extend_from_slice(&(8 * bytes.len() as u64).to_be_bytes());
    last.chunks_exact(64).for_each(|bytes| block(&mut state, bytes));
    let mut hash = [0; 32];
    for (bytes, word) in hash.chunks_exact_mut(4).zip(state) {
        bytes.copy_from_slice(&word.to_be_bytes());
    }
    hash
}

fn row_hash(number: u32, sub: u32, parts: &Parts, bytes: &mut Vec<u8>) -> [u8; 32] {
    bytes.clear();
    for (part, cell) in parts {
        cell.write(number, sub, *part, bytes);
    }
    sha256(bytes)
}

type Digest = Vec<((u32, u32), [u8; 32])>;

fn digest(board: &Board) -> Digest {
    let mut bytes = Vec::new();
    let rows = board.rows();
    rows.map(|(number, sub, parts)| ((number, sub), row_hash(number, sub, parts, &mut bytes)))
        .collect()
}

fn repair(board: &Board, digest: &Digest) -> Board {
    let mut out = Board::default();
    let mut bytes = Vec::new();
    for (number, sub, parts) in board.rows() {
        let shown = digest
            .binary_search_by_key(&(number, sub), |row| row.0)
            .is_ok_and(|at| digest[at].1 == row_hash(number, sub, parts, &mut bytes));
        if !shown {
            out.cells.entry(number).or_default().insert(sub, parts.clone());
        }
    }
    out
}

// ---- measuring

/// A board of so many cells, 100 in a row, each of so many spans.
fn board_with(cells: u32, spans: u64) -> Board {
    let mut board = Board::default();
    for cell in 0..cells {
        let cell_spans = (0..spans).map(|at| Span { lo: 1000 * at, hi: 1000 * at + 500 });
        board.cell_mut(1 + cell / 1_000_000, cell / 100 % 10_000, cell % 100).spans = cell_spans.collect();
    }
    board
}

/// A board of one load at each of so many cells, the next each time.
fn loads(cells: u32, count: u32) -> Vec<Board> {
    let mut state = 1u64;
    let mut boards = Vec::new();
    for _ in 0..count {
        state = next(state);
        let cell = (state >> 33) as u32 % cells;
        let mut board = Board::default();
        let lo = 200 + (state >> 40) % 500;
        board.cell_mut(1 + cell / 1_000_000, cell / 100 % 10_000, cell % 100).spans = vec![Span { lo, hi: lo + 500 }];
        boards.push(board);
    }
    boards
}

fn say(name: &str, time: Duration, count: usize, unit: &str) {
    println!("{name}: {} {unit}", time.as_nanos() / count as u128);
}

fn measure_loads(cells: u32) {
    let board = board_with(cells, 1);
    let deltas = loads(cells, 100_000);
    let start = Instant::now();
    let mut found = 0;
    for delta in &deltas {
        found += beyond(delta, &board).cells.len();
    }
    black_box(found);
    say(&format!("beyond, one load against {cells} cells"), start.elapsed(), deltas.len(), "ns");
}

fn measure_boards() {
    let a = board_with(100_000, 2);
    let b = board_with(100_000, 1);
    let start = Instant::now();
    let rest = beyond(&a, &b);
    black_box(&rest);
    say("beyond, two boards of 100000 cells, each cell", start.elapsed(), 100_000, "ns");
}

fn measure_digests() {
    let a = board_with(100_000, 4);
    let mut b = a.clone();
    for cell in 0..100 {
        b.cell_mut(1, 10 * cell, 7).done = true;
    }
    let start = Instant::now();
    let shown = digest(&a);
    say("digest of 100000 cells, each cell", start.elapsed(), 100_000, "ns");
    let start = Instant::now();
    let rest = repair(&b, &shown);
    black_box(&rest);
    say("repair of 100000 cells, each cell", start.elapsed(), 100_000, "ns");
}

fn measure_pieces(name: &str, cells: u32, spans: u64) {
    let board = board_with(cells, spans);
    let bytes = cells as usize * (17 + 16 * spans as usize);
    let start = Instant::now();
    let made = pieces(&board);
    let time = start.elapsed();
    println!("pieces of {name} ({} pieces): {} MB/s", made.len(), bytes as u128 * 1000 / time.as_nanos().max(1));
}

fn main() {
    measure_loads(1);
    measure_loads(1_000);
    measure_loads(1_000_000);
    measure_boards();
    measure_digests();
    measure_pieces("10000 cells of 64 spans", 10_000, 64);
    measure_pieces("10 cells of 64000 spans", 10, 64_000);
}
