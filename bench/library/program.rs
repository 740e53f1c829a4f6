//! The same routes in Rust: a sorted list of legs and its binary search, shared by threads.

use std::hint::black_box;
use std::sync::{Arc, Barrier};
use std::thread;
use std::time::{Duration, Instant};

const KEYS: u32 = 20_000;
const ROUNDS: u32 = 100;
const REACH: u64 = 1 << 62;
const TOP: u64 = 18446744069414584320;

struct Leg {
    hi: u64,
    part: u32,
}

fn legs_of(count: u64) -> Vec<Leg> {
    let step = REACH / (count / 2);
    let mut legs = Vec::new();
    for at in 0..count / 2 {
        let hi = at * step + step / 2;
        legs.push(Leg { hi, part: 2 });
        legs.push(Leg { hi: (at + 1) * step, part: 1 });
    }
    legs.last_mut().unwrap().hi = TOP;
    legs
}

fn route(legs: &[Leg], key: u64) -> Option<u32> {
    let at = legs.partition_point(|leg| leg.hi <= key);
    legs.get(at).map(|leg| leg.part)
}

fn next_state(state: u64) -> u64 {
    state
        .wrapping_mul(6364136223846793005)
        .wrapping_add(1442695040888963407)
}

fn least_round(legs: &[Leg], start: &Barrier, mut state: u64, waits: bool) -> Duration {
    let mut least = Duration::MAX;
    for _ in 0..ROUNDS {
        start.wait();
        let from = Instant::now();
        let mut sum = 0;
        for _ in 0..KEYS {
            let part = route(legs, state & (REACH - 1)).unwrap_or(0);
            sum += u64::from(part);
            state = next_state(state.wrapping_add(if waits { u64::from(part) } else { 0 }));
        }
        black_box(sum);
        least = least.min(from.elapsed());
    }
    least
}

fn measure(legs: &Arc<Vec<Leg>>, count: usize, waits: bool) {
    let start = Arc::new(Barrier::new(count));
    let threads: Vec<_> = (0..count)
        .map(|at| {
            let (legs, start) = (legs.clone(), start.clone());
            thread::spawn(move || least_round(&legs, &start, at as u64 + 1, waits))
        })
        .collect();
    let sum: Duration = threads.into_iter().map(|thread| thread.join().unwrap()).sum();
    let keys = if waits { "each key from the last answer" } else { "keys on their own" };
    let each = sum.as_secs_f64() / count as f64 / f64::from(KEYS) * 1e9;
    println!("route, {} legs, {keys}, {count} threads: {each:.1} ns", legs.len());
}

fn main() {
    for count in [1_000, 100_000] {
        let legs = Arc::new(legs_of(count));
        for waits in [false, true] {
            for threads in [1, 2, 3, 4, 8] {
                measure(&legs, threads, waits);
            }
        }
    }
}
