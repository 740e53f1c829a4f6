//! The same in Rust, over a sorted vector.

#[path = "../shared.rs"]
mod shared;

use shared::{has, insert, next, Span, TOP};
use std::hint::black_box;
use std::time::Instant;

/// Look-ups in a round.
const LOOKS: u32 = 100000;
const MANY: u32 = 100000;
const FEW: u32 = 1000;
const RANGES: u64 = 4096;

#[derive(Default)]
struct SpanSet {
    spans: Vec<Span>,
}

impl SpanSet {
    fn count(&self) -> u64 {
        self.spans.iter().map(|s| s.hi - s.lo).sum()
    }

    fn union(&self, other: &SpanSet) -> SpanSet {
        let mut out: Vec<Span> = Vec::new();
        let (mut a, mut b) = (&self.spans[..], &other.spans[..]);
        loop {
            let next = match (a, b) {
                ([x, xs @ ..], [y, ..]) if x.lo <= y.lo => {
                    a = xs;
                    *x
                }
                (_, [y, ys @ ..]) => {
                    b = ys;
                    *y
                }
                ([x, xs @ ..], []) => {
                    a = xs;
                    *x
                }
                ([], []) => return SpanSet { spans: out },
            };
            match out.last_mut() {
                Some(last) if next.lo <= last.hi => last.hi = last.hi.max(next.hi),
                _ => out.push(next),
            }
        }
    }

    fn meet(&self, other: &SpanSet) -> SpanSet {
        let mut out = Vec::new();
        let (a, b) = (&self.spans, &other.spans);
        let (mut i, mut j) = (0, 0);
        while i < a.len() && j < b.len() {
            let lo = a[i].lo.max(b[j].lo);
            let hi = a[i].hi.min(b[j].hi);
            if lo < hi {
                out.push(Span { lo, hi });
            }
            if a[i].hi < b[j].hi {
                i += 1;
            } else {
                j += 1;
            }
        }
        SpanSet { spans: out }
    }

    fn minus(&self, other: &SpanSet) -> SpanSet {
        let mut out = Vec::new();
        let b = &other.spans;
        let mut j = 0;
        for span in &self.spans {
            let mut lo = span.lo;
            while j < b.len() && b[j].hi <= lo {
                j += 1;
            }
            while j < b.len() && b[j].lo < span.hi {
                if lo < b[j].lo {
                    out.push(Span { lo, hi: b[j].lo });
                }
                lo = b[j].hi;
                if span.hi <= lo {
                    break;
                }
                j += 1;
            }
            if lo < span.hi {
                out.push(Span { lo, hi: span.hi });
            }
        }
        SpanSet { spans: out }
    }
}

fn filled(seed: u64, count: u32) -> SpanSet {
    let mut set = SpanSet::default();
    let mut state = seed;
    for _ in 0..count {
        state = next(state);
        let lo = state >> 24;
        let hi = lo + 1 + ((state >> 4) & 1048575);
        insert(&mut set.spans, Span { lo, hi });
    }
    set
}

/// The sum of what is looked up for random keys.
fn alone(look: impl Fn(u64) -> u64) -> u64 {
    let mut state = 3;
    let mut sum = 0;
    for _ in 0..LOOKS {
        state = next(state);
        sum += look(state >> 24);
    }
    sum
}

/// The same for keys each of which is drawn from the sum before.
fn in_turn(look: impl Fn(u64) -> u64) -> u64 {
    let mut state = 3;
    let mut sum = 0;
    for _ in 0..LOOKS {
        state = next(state ^ sum);
        sum += look(state >> 24);
    }
    sum
}

fn measure(name: &str, look: impl Fn(u64) -> u64) {
    for _ in 0..20 {
        let start = Instant::now();
        let sum = alone(&look);
        let alone = start.elapsed().as_micros();
        let start = Instant::now();
        let other = in_turn(&look);
        let turn = start.elapsed().as_micros();
        println!("{name}: {alone} us, in turn {turn} us ({sum} {other})");
    }
}

struct PlanRange {
    span: Span,
    part: u32,
}

struct Plan {
    ranges: Vec<PlanRange>,
}

impl Plan {
    fn owner(&self, key: u64) -> u32 {
        let place = self.ranges.partition_point(|range| range.span.hi <= key);
        self.ranges[place].part
    }
}

fn start(place: u64) -> u64 {
    match place {
        0 => 0,
        RANGES => TOP,
        _ => place * 268435456 + (next(place) >> 40),
    }
}

fn planned() -> Plan {
    let ranges = (0..RANGES)
        .map(|place| PlanRange {
            span: Span {
                lo: start(place),
                hi: start(place + 1),
            },
            part: (place % 4001) as u32,
        })
        .collect();
    Plan { ranges }
}

fn measure_set(count: u32) {
    let set = black_box(filled(1, count));
    measure(&format!("has of {count}"), |key| u64::from(has(&set.spans, key)));
}

fn measure_plan() {
    // Else the compiler would lay out a search of just so many ranges.
    let plan = black_box(planned());
    measure("owner", |key| u64::from(plan.owner(key)));
}

fn measure_large() {
    for _ in 0..3 {
        let start = Instant::now();
        let first = filled(1, MANY);
        let inserts = start.elapsed().as_micros();
        let second = filled(2, MANY);
        let start = Instant::now();
        let both = first.union(&second);
        let union = start.elapsed().as_micros();
        let start = Instant::now();
        let common = first.meet(&second);
        let meet = start.elapsed().as_micros();
        let start = Instant::now();
        let alone = first.minus(&second);
        let minus = start.elapsed().as_micros();
        println!("inserts {inserts} us, union {union} us, meet {meet} us, minus {minus} us");
        println!(
            "    ({} {} {} {})",
            first.spans.len(),
            both.count(),
            common.count(),
            alone.count()
        );
    }
}

fn main() {
    measure_set(FEW);
    measure_set(MANY);
    measure_plan();
    measure_large();
}
