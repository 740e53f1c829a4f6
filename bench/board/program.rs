//! A board as nested maps to sorted vectors of spans, in Rust.

#[path = "../shared.rs"]
mod shared;

use shared::{has, insert, Cell, Span};
use std::collections::BTreeMap;
use std::time::{Duration, Instant};

/// Adds what another cell has.
fn join(cell: &mut Cell, other: &Cell) {
    for span in &other.spans {
        insert(&mut cell.spans, *span);
    }
    cell.done |= other.done;
}

/// A load of a span, by a partition, in a sub-plan of the reconfiguration with the number.
#[derive(Clone, Copy)]
struct Load {
    number: u32,
    sub: u32,
    part: u32,
    span: Span,
}

#[derive(Default)]
struct Board {
    cells: BTreeMap<u32, BTreeMap<u32, BTreeMap<u32, Cell>>>,
}

impl Board {
    fn cell(&mut self, number: u32, sub: u32, part: u32) -> &mut Cell {
        self.cells
            .entry(number)
            .or_default()
            .entry(sub)
            .or_default()
            .entry(part)
            .or_default()
    }

    fn take(&mut self, load: &Load) {
        insert(&mut self.cell(load.number, load.sub, load.part).spans, load.span);
    }

    fn merge(&mut self, other: &Board) {
        for (number, subs) in &other.cells {
            for (sub, parts) in subs {
                for (part, cell) in parts {
                    join(self.cell(*number, *sub, *part), cell);
                }
            }
        }
    }

    fn says_loaded(&self, number: u32, sub: u32, part: u32, key: u64) -> bool {
        let subs = self.cells.get(&number);
        let parts = subs.and_then(|subs| subs.get(&sub));
        let cell = parts.and_then(|parts| parts.get(&part));
        cell.is_some_and(|cell| has(&cell.spans, key))
    }
}

/// Xorshift, written out so that both programs draw the same numbers.
struct Random {
    state: u64,
}

impl Random {
    fn below(&mut self, bound: u64) -> u64 {
        self.state ^= self.state << 13;
        self.state ^= self.state >> 7;
        self.state ^= self.state << 17;
        self.state % bound
    }

    fn number(&mut self, bound: u32) -> u32 {
        self.below(u64::from(bound)) as u32
    }
}

fn load(number: u32, sub: u32, part: u32, lo: u64, count: u64) -> Load {
    let hi = lo + count;
    Load {
        number,
        sub,
        part,
        span: Span { lo, hi },
    }
}

/// One load for each of so many partitions in each of so many sub-plans.
fn one_each(subs: u32, first: u32, parts: u32) -> Vec<Load> {
    let mut loads = Vec::new();
    for sub in 0..subs {
        for part in 0..parts {
            loads.push(load(1, sub, first + part, 0, 1000));
        }
    }
    loads
}

/// Loads at random cells that are there, each of which begins where all earlier ones ended or
/// beyond.
fn further_loads(subs: u32, parts: u32) -> Vec<Load> {
    let mut random = Random { state: 1 };
    let mut loads = Vec::new();
    for turn in 0..200_000 {
        let sub = random.number(subs);
        let part = random.number(parts);
        let count = 2 + 2 * random.below(2);
        loads.push(load(1, sub, part, 1000 + 4 * turn, count));
    }
    loads
}

/// Loads at as many new cells, in sub-plans from the first on.
fn new_cells(first: u32) -> Vec<Load> {
    let mut random = Random { state: 2 };
    let mut loads = Vec::new();
    for turn in 0..4000 {
        let sub = first + random.number(64);
        loads.push(load(1, sub, turn * 7919 % 10_000, 0, 1000));
    }
    loads
}

/// Loads of one cell that leave as many spans.
fn spans_apart() -> Vec<Load> {
    let mut loads = Vec::new();
    for turn in 0..100_000 {
        loads.push(load(1, 0, 0, 1000 * turn, 500));
    }
    loads
}

/// Small loads of one cell, anywhere among those spans.
fn small_loads() -> Vec<Load> {
    let mut random = Random { state: 3 };
    let mut loads = Vec::new();
    for _ in 0..10_000 {
        let lo = random.below(100_000_000);
        let count = 1 + random.below(100);
        loads.push(load(1, 0, 0, lo, count));
    }
    loads
}

/// Loads of random spans at random cells.
fn random_loads() -> Vec<Load> {
    let mut random = Random { state: 4 };
    let mut loads = Vec::new();
    for _ in 0..1_000_000 {
        let number = 1 + random.number(4);
        let sub = random.number(16);
        let part = random.number(256);
        let lo = random.below(1 << 40);
        let count = 1 + random.below(1000);
        loads.push(load(number, sub, part, lo, count));
    }
    loads
}

fn board_of(loads: &[Load]) -> Board {
    let mut board = Board::default();
    for load in loads {
        board.take(load);
    }
    board
}

fn say(name: &str, time: Duration, count: usize) {
    let each = time.as_nanos() / count as u128;
    println!("{name}: {each} ns per take ({count})");
}

/// Takes the loads, and says how long one took.
fn measure(name: &str, board: &mut Board, loads: &[Load]) {
    let start = Instant::now();
    for load in loads {
        board.take(load);
    }
    say(name, start.elapsed(), loads.len());
}

/// Takes at cells that are there, and then at new ones.
fn measure_grid(subs: u32, parts: u32) {
    let cells = subs * parts;
    let mut board = board_of(&one_each(subs, 0, parts));
    let loads = further_loads(subs, parts);
    measure(&format!("at a cell of {cells}"), &mut board, &loads);
    let loads = new_cells(subs);
    measure(&format!("at a new cell beside {cells}"), &mut board, &loads);
}

/// How many of a thousand random keys the cell of many spans has, for a comparison of programs.
fn found(board: &Board) -> u32 {
    let mut random = Random { state: 5 };
    let mut found = 0;
    for _ in 0..1000 {
        let key = random.below(100_000_000);
        found += u32::from(board.says_loaded(1, 0, 0, key));
    }
    found
}

fn measure_spans() {
    let mut board = board_of(&spans_apart());
    measure("at a cell with 100000 spans", &mut board, &small_loads());
    println!("keys found: {}", found(&board));
}

fn measure_random() {
    let mut board = Board::default();
    measure("random in a new board", &mut board, &random_loads());
}

/// Half of the cells of each board are also in the other.
fn measure_merge() {
    let mut board = board_of(&one_each(100, 0, 1000));
    let loads = one_each(100, 500, 1000);
    let other = board_of(&loads);
    let start = Instant::now();
    board.merge(&other);
    say("merge, each cell", start.elapsed(), loads.len());
}

fn main() {
    measure_grid(1, 1);
    measure_grid(10, 100);
    measure_grid(100, 10_000);
    measure_spans();
    measure_random();
    measure_merge();
}
