//! The same in Rust: a table under an `RwLock` that one thread patches all the time while others read it, and reports
//! that threads send through a `sync_channel` to one that puts them into a board and patches the table.

#[path = "../shared.rs"]
mod shared;

use shared::next;
use std::collections::BTreeMap;
use std::sync::atomic::{AtomicBool, AtomicUsize, Ordering};
use std::sync::{mpsc, RwLock};
use std::thread;
use std::time::Instant;

const ROUTES: u64 = 500_000;
const LETTERS: u32 = 120_000;

#[derive(Clone, Copy)]
struct Leg {
    hi: u64,
    part: u32,
}

#[derive(Clone, Copy)]
struct Report {
    number: u32,
    sub: u32,
    part: u32,
    lo: u64,
    hi: u64,
}

/// Cells by number, sub-plan and partition: spans in order, none of which touches the next.
type Board = BTreeMap<(u32, u32, u32), Vec<(u64, u64)>>;

fn bound(root: u32, second: u32) -> u64 {
    u64::from(root) << 32 | u64::from(second)
}

fn load(root: u32, lo: u32, end: u32, hi: u32) -> Report {
    Report { number: 1, sub: 0, part: 2, lo: bound(root, lo), hi: bound(end, hi) }
}

fn insert(spans: &mut Vec<(u64, u64)>, lo: u64, hi: u64) {
    let first = spans.partition_point(|span| span.1 < lo);
    let end = spans.partition_point(|span| span.0 <= hi);
    if first == end {
        spans.insert(first, (lo, hi));
        return;
    }
    let joined = (lo.min(spans[first].0), hi.max(spans[end - 1].1));
    spans.splice(first..end, [joined]);
}

fn take(board: &mut Board, report: &Report) {
    insert(board.entry((report.number, report.sub, report.part)).or_default(), report.lo, report.hi);
}

fn push_leg(out: &mut Vec<Leg>, lo: u64, hi: u64, part: u32) {
    if lo >= hi {
        return;
    }
    match out.last_mut() {
        Some(last) if last.part == part => last.hi = hi,
        _ => out.push(Leg { hi, part }),
    }
}

fn patch(legs: &mut Vec<Leg>, fresh: &mut Vec<Leg>, report: &Report) {
    let (lo, hi) = (report.lo, report.hi);
    let first = legs.partition_point(|leg| leg.hi < lo);
    let mut end = first;
    fresh.clear();
    let mut at = if first == 0 { 0 } else { legs[first - 1].hi };
    while end < legs.len() && at <= hi {
        let leg = legs[end];
        push_leg(fresh, at, leg.hi.min(lo), leg.part);
        if leg.hi >= lo && at <= lo {
            push_leg(fresh, lo, hi, report.part);
        }
        push_leg(fresh, at.max(hi), leg.hi, leg.part);
        at = leg.hi;
        end += 1;
    }
    legs.splice(first..end, fresh.drain(..));
}

fn owner(legs: &[Leg], key: u64) -> u32 {
    legs[legs.partition_point(|leg| leg.hi <= key)].part
}

fn opening(loads: u32) -> (Board, Vec<Leg>) {
    let mut board = Board::new();
    let mut legs = vec![];
    for at in 0..loads {
        let report = load(at * 10, 0, at * 10 + 5, 0);
        take(&mut board, &report);
        push_leg(&mut legs, bound(at * 10, 0).saturating_sub(bound(5, 0)), report.lo, 1);
        push_leg(&mut legs, report.lo, report.hi, 2);
    }
    push_leg(&mut legs, 0, u64::MAX, 1);
    (board, legs)
}

fn longer(loads: u32, at: u32) -> Report {
    let root = at % loads * 10 + 5;
    load(root, at / loads, root, at / loads + 1)
}

fn keys(loads: u32) -> Vec<u64> {
    let mut state = 20221126u64;
    (0..ROUTES)
        .map(|_| {
            state = next(state);
            bound((state >> 33) as u32 % (loads * 10), 7)
        })
        .collect()
}

fn routes(loads: u32, readers: usize) {
    let (mut board, legs) = opening(loads);
    let keys = keys(loads);
    let table = RwLock::new(legs);
    let ended = AtomicBool::new(false);
    let times: Vec<u128> = thread::scope(|scope| {
        let writer = scope.spawn(|| {
            let mut fresh = vec![];
            for at in 0.. {
                if ended.load(Ordering::SeqCst) {
                    return;
                }
                let report = longer(loads, at);
                take(&mut board, &report);
                patch(&mut table.write().unwrap(), &mut fresh, &report);
            }
        });
        let reading: Vec<_> = (0..readers)
            .map(|_| {
                scope.spawn(|| {
                    let start = Instant::now();
                    let mut routes = Vec::new();
                    for key in &keys {
                        routes.push(owner(&table.read().unwrap(), *key));
                    }
                    let time = start.elapsed().as_nanos();
                    std::hint::black_box(routes);
                    time
                })
            })
            .collect();
        let times = reading.into_iter().map(|thread| thread.join().unwrap()).collect();
        ended.store(true, Ordering::SeqCst);
        writer.join().unwrap();
        times
    });
    let each = times.iter().sum::<u128>() / u128::from(ROUTES) / readers as u128;
    println!("route, {} legs, {readers} readers: {each} ns", loads * 2);
}

/// Sends what `of` makes of each letter, in as many threads as there are senders, to the one that calls `heed`.
/// Prints what a letter costs.
fn post<Sent: Send>(name: &str, senders: u32, of: fn(&Report) -> Sent, heed: impl FnMut(Sent)) {
    let start_of = |sender: u32| sender * (LETTERS / senders);
    let lists: Vec<Vec<Report>> = (0..senders)
        .map(|sender| (start_of(sender)..start_of(sender + 1)).map(|at| longer(500, at)).collect())
        .collect();
    let start = Instant::now();
    thread::scope(|scope| {
        let (sender, receiver) = mpsc::sync_channel(1024);
        for list in &lists {
            let sender = sender.clone();
            scope.spawn(move || {
                for report in list {
                    sender.send(of(report)).unwrap();
                }
            });
        }
        drop(sender);
        receiver.into_iter().for_each(heed);
    });
    let each = start.elapsed().as_nanos() / u128::from(LETTERS);
    println!("{name}, {senders} senders: {each} ns");
}

fn letters(senders: u32) {
    let (mut board, legs) = opening(500);
    let table = RwLock::new(legs);
    let mut fresh = vec![];
    post("letter", senders, |report| *report, |report| {
        take(&mut board, &report);
        patch(&mut table.write().unwrap(), &mut fresh, &report);
    });
    std::hint::black_box((board, table.into_inner().unwrap().len()));
}

/// A board and its table, of which a desk has two copies.
struct Published {
    board: Board,
    legs: Vec<Leg>,
}

/// Takes a letter, which is a board of loads.
fn absorb(copy: &RwLock<Published>, fresh: &mut Vec<Leg>, letter: &Board) {
    let mut copy = copy.write().unwrap();
    for (&(number, sub, part), spans) in letter {
        for &(lo, hi) in spans {
            let report = Report { number, sub, part, lo, hi };
            take(&mut copy.board, &report);
            patch(&mut copy.legs, fresh, &report);
        }
    }
}

fn letter_of(report: &Report) -> Board {
    let mut letter = Board::new();
    take(&mut letter, report);
    letter
}

/// The same work as that of a cluster: a letter is a board, and goes into either of two copies, of which readers look
/// at one while the owner changes the other.
fn boards(senders: u32) {
    let copies = [(); 2].map(|()| {
        let (board, legs) = opening(500);
        RwLock::new(Published { board, legs })
    });
    let shown = AtomicUsize::new(0);
    let mut fresh = vec![];
    post("letter as a board, two copies", senders, letter_of, |letter| {
        let hidden = 1 - shown.load(Ordering::SeqCst);
        absorb(&copies[hidden], &mut fresh, &letter);
        shown.store(hidden, Ordering::SeqCst);
        absorb(&copies[1 - hidden], &mut fresh, &letter);
    });
    std::hint::black_box(&copies);
}

fn main() {
    for readers in 1..5 {
        routes(500, readers);
    }
    for readers in 1..5 {
        routes(50_000, readers);
    }
    for senders in [1, 2, 4] {
        letters(senders);
    }
    for senders in [1, 2, 4] {
        boards(senders);
    }
}
