//! What programs of the benches in Rust have in common. Each of them uses a part of it.
#![allow(dead_code)]

/// The end of all keys.
pub const TOP: u64 = 0xffff_ffff_0000_0000;

/// The keys from `lo` on, below `hi`.
#[derive(Clone, Copy, PartialEq)]
pub struct Span {
    pub lo: u64,
    pub hi: u64,
}

/// Adds a span to spans in order, none of which overlaps or touches the next.
pub fn insert(spans: &mut Vec<Span>, span: Span) {
    let from = spans.partition_point(|s| s.hi < span.lo);
    let to = spans.partition_point(|s| s.lo <= span.hi);
    if from == to {
        spans.insert(from, span);
        return;
    }
    spans[from] = Span { lo: span.lo.min(spans[from].lo), hi: span.hi.max(spans[to - 1].hi) };
    spans.drain(from + 1..to);
}

/// Whether one of such spans has the key.
pub fn has(spans: &[Span], key: u64) -> bool {
    let at = spans.partition_point(|s| s.hi <= key);
    spans.get(at).is_some_and(|s| s.lo <= key)
}

/// What was loaded: spans in order, none of which overlaps or touches the next. And whether the partition is done.
#[derive(Clone, Default, PartialEq)]
pub struct Cell {
    pub spans: Vec<Span>,
    pub done: bool,
}

impl Cell {
    /// Writes the cell as a frame has it.
    pub fn write(&self, number: u32, sub: u32, part: u32, out: &mut Vec<u8>) {
        out.extend_from_slice(&number.to_be_bytes());
        out.extend_from_slice(&sub.to_be_bytes());
        out.extend_from_slice(&part.to_be_bytes());
        out.push(u8::from(self.done));
        out.extend_from_slice(&(self.spans.len() as u32).to_be_bytes());
        for span in &self.spans {
            out.extend_from_slice(&span.lo.to_be_bytes());
            out.extend_from_slice(&span.hi.to_be_bytes());
        }
    }
}

/// The keys from `lo` on, below `hi`, are at the partition `part`.
#[derive(Clone, Copy)]
pub struct Leg {
    pub lo: u64,
    pub hi: u64,
    pub part: u32,
}

/// Adds a leg that begins where the last one ends, if it has keys.
pub fn push_leg(out: &mut Vec<Leg>, lo: u64, hi: u64, part: u32) {
    if lo == hi {
        return;
    }
    match out.last_mut() {
        Some(last) if last.part == part => last.hi = hi,
        _ => out.push(Leg { lo, hi, part }),
    }
}

/// The partition of a key, by legs of all keys.
pub fn owner(legs: &[Leg], key: u64) -> u32 {
    legs[legs.partition_point(|leg| leg.hi <= key)].part
}

/// The next number that is drawn.
pub fn next(state: u64) -> u64 {
    state.wrapping_mul(6364136223846793005).wrapping_add(1442695040888963407)
}
