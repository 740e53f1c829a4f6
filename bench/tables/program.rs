//! The same in Rust: a sorted list of legs, and a board of nested maps to sorted lists of spans.

#[path = "../shared.rs"]
mod shared;

use shared::{insert, next, owner, push_leg, Cell, Leg, Span, TOP};
use std::collections::BTreeMap;
use std::hint::black_box;
use std::time::{Duration, Instant};

const REACH: u64 = 1 << 62;
const KEYS: u32 = 200_000;
const LOADS: u32 = 200;

#[derive(Clone, Copy)]
struct Move {
    lo: u64,
    hi: u64,
    source: u32,
    dest: u32,
    sub: u32,
}

type Board = BTreeMap<u32, BTreeMap<u32, BTreeMap<u32, Cell>>>;

fn spans_apart(count: u64) -> Vec<Span> {
    let step = REACH.checked_div(count).unwrap_or(1);
    let span_at = |at| {
        let lo = at * step;
        Span { lo, hi: lo + step / 2 }
    };
    (0..count).map(span_at).collect()
}

fn cell_mut(board: &mut Board, number: u32, sub: u32, part: u32) -> &mut Cell {
    let subs = board.entry(number).or_default();
    subs.entry(sub).or_default().entry(part).or_default()
}

fn board_of(legs: u64) -> Board {
    let mut board = Board::new();
    if legs > 1 {
        cell_mut(&mut board, 1, 0, 2).spans = spans_apart(legs / 2);
    }
    board
}

fn take(board: &mut Board, span: Span) {
    insert(&mut cell_mut(board, 1, 0, 2).spans, span);
}

/// The table of moves that rise, over one partition.
fn build(moves: &[Move], board: &Board) -> Vec<Leg> {
    let mut legs = Vec::new();
    let mut reach = 0;
    for m in moves {
        push_leg(&mut legs, reach, m.lo, 1);
        let cell = board
            .get(&1)
            .and_then(|subs| subs.get(&m.sub))
            .and_then(|parts| parts.get(&m.dest));
        reach = m.lo;
        if let Some(cell) = cell {
            if cell.done {
                push_leg(&mut legs, m.lo, m.hi, m.dest);
                reach = m.hi;
            } else {
                let first = cell.spans.partition_point(|s| s.hi <= m.lo);
                for span in cell.spans[first..].iter().take_while(|s| s.lo < m.hi) {
                    let lo = span.lo.max(reach);
                    push_leg(&mut legs, reach, lo, m.source);
                    reach = span.hi.min(m.hi);
                    push_leg(&mut legs, lo, reach, m.dest);
                }
            }
        }
        push_leg(&mut legs, reach, m.hi, m.source);
        reach = m.hi;
    }
    push_leg(&mut legs, reach, TOP, 1);
    legs
}

/// Sends a span to a partition: the legs about it are found by binary searches, and others put in their place.
fn patch(legs: &mut Vec<Leg>, span: Span, part: u32) {
    let first = legs.partition_point(|leg| leg.hi < span.lo);
    let end = legs.partition_point(|leg| leg.lo <= span.hi);
    let (lo, hi) = (legs[first].lo, legs[end - 1].hi);
    let mut fresh = Vec::new();
    for leg in &legs[first..end] {
        push_leg(&mut fresh, leg.lo.max(lo), leg.hi.min(span.lo).max(leg.lo), leg.part);
    }
    push_leg(&mut fresh, span.lo, span.hi, part);
    for leg in &legs[first..end] {
        push_leg(&mut fresh, leg.lo.max(span.hi).min(leg.hi), leg.hi.min(hi), leg.part);
    }
    legs.splice(first..end, fresh);
}

fn chain(legs: &[Leg], seed: u64) -> u64 {
    let mut state = seed;
    let mut sum = 0u64;
    for _ in 0..KEYS {
        state = next(state ^ sum);
        sum = sum.wrapping_add(u64::from(owner(legs, state >> 2)));
    }
    sum
}

fn flow(legs: &[Leg], seed: u64) -> u64 {
    let mut state = seed;
    let mut sum = 0u64;
    for _ in 0..KEYS {
        state = next(state);
        sum = sum.wrapping_add(u64::from(owner(legs, state >> 2)));
    }
    sum
}

fn load_at(state: u64) -> Span {
    let lo = state >> 2;
    Span { lo, hi: lo + 5 }
}

fn each(time: Duration, count: u32) -> u128 {
    time.as_nanos() / u128::from(count)
}

fn look_up(moves: &[Move], legs: u64) {
    let table = build(moves, &board_of(legs));
    let start = Instant::now();
    let first = black_box(chain(&table, 1));
    let chained = each(start.elapsed(), KEYS);
    let start = Instant::now();
    let second = black_box(flow(&table, 2));
    let flowed = each(start.elapsed(), KEYS);
    println!("owner, {legs} legs, from the last answer: {chained} ns ({first})");
    println!("owner, {legs} legs, on their own: {flowed} ns ({second})");
}

/// The time of one patch, of a table that was built for it, as in the other program.
fn patch_one(moves: &[Move], before: &Board, span: Span) -> Duration {
    let mut board = before.clone();
    let mut table = build(moves, &board);
    take(&mut board, span);
    let start = Instant::now();
    patch(&mut table, span, 2);
    let time = start.elapsed();
    black_box((&table, &board));
    time
}

fn patches(moves: &[Move], board: &Board) -> Duration {
    let mut state = 7u64;
    let mut time = Duration::ZERO;
    for _ in 0..LOADS {
        state = next(state);
        time += patch_one(moves, board, load_at(state));
    }
    time
}

fn main() {
    let moves = [Move { lo: 0, hi: TOP, source: 1, dest: 2, sub: 0 }];
    for legs in [1, 1_000, 30_000, 100_000] {
        look_up(&moves, legs);
    }
    for legs in [1_000, 30_000] {
        let board = board_of(legs);
        let least = (0..20).map(|_| patches(&moves, &board)).min();
        println!("patch, one load, {legs} legs: {} ns", each(least.unwrap_or_default(), LOADS));
    }
    let (legs, cells) = (30_000u64, 100_000u32);
    let mut board = board_of(legs);
    for at in 0..cells {
        cell_mut(&mut board, at / 10_000 + 2, at / 100 % 100, at % 100).spans = spans_apart(2);
    }
    let mut table = build(&moves, &board);
    let (mut absorbed, mut taken) = (Duration::ZERO, Duration::ZERO);
    let mut other = board.clone();
    let mut state = 7u64;
    for _ in 0..LOADS {
        state = next(state);
        let span = load_at(state);
        let start = Instant::now();
        take(&mut board, span);
        patch(&mut table, span, 2);
        absorbed += start.elapsed();
        let start = Instant::now();
        take(&mut other, span);
        taken += start.elapsed();
    }
    black_box((&table, &board, &other));
    println!("absorb, one load, {legs} legs, {cells} cells: {} ns", each(absorbed, LOADS));
    println!("take, one load, {legs} legs, {cells} cells: {} ns", each(taken, LOADS));
    let board = board_of(legs);
    let mut least = Duration::MAX;
    let mut seen = 0;
    for _ in 0..20 {
        let start = Instant::now();
        let table = black_box(build(black_box(&moves), &board));
        least = least.min(start.elapsed());
        seen = table.len();
    }
    println!("build, {legs} legs: {} ns ({seen})", least.as_nanos());
}
