//! Frames: the boards that streams bring.

use crate::board::Place;
use crate::plan::Plan;
use crate::text::{TOP, refuse};
use std::rc::Rc;

const HEAD: usize = 8;
const BODY_LIMIT: usize = 1048576;

/// A stream of frames, cut anywhere.
#[derive(Default)]
pub struct Feed {
    waiting: Vec<u8>,
}

impl Feed {
    /// Takes the next bytes of the stream, which are spelled by two hex digits each.
    pub fn push(&mut self, text: &[u8]) {
        let (pairs, rest) = text.as_chunks::<2>();
        let mut bad = 0;
        self.waiting.extend(pairs.iter().map(|[high, low]| {
            let (high, low) = (DIGITS[usize::from(*high)], DIGITS[usize::from(*low)]);
            bad |= high | low;
            high << 4 | low
        }));
        if bad > 15 || !rest.is_empty() {
            refuse("bytes are spelled wrongly");
        }
    }

    /// Gives each whole frame's items to the taker, and drops its bytes. How many frames there were.
    pub fn take(&mut self, taker: &mut impl Taker) -> usize {
        let (mut at, mut count) = (0, 0);
        while let Some(length) = length(&self.waiting[at..]) {
            let frame = &self.waiting[at..at + HEAD + length];
            // A frame is looked at whole before anything of it is taken.
            Body {
                rest: &frame[HEAD..],
            }
            .walk(frame[2], &mut Nothing);
            Body {
                rest: &frame[HEAD..],
            }
            .walk(frame[2], taker);
            at += HEAD + length;
            count += 1;
        }
        self.waiting.drain(..at);
        count
    }
}

const DIGITS: [u8; 256] = {
    let mut digits = [0xff; 256];
    let mut at = 0;
    while at < 10 {
        digits[b'0' as usize + at] = at as u8;
        at += 1;
    }
    at = 0;
    while at < 6 {
        digits[b'a' as usize + at] = 10 + at as u8;
        digits[b'A' as usize + at] = 10 + at as u8;
        at += 1;
    }
    digits
};

/// The length of the body, where the frame is whole.
fn length(bytes: &[u8]) -> Option<usize> {
    let head: &[u8; HEAD] = bytes.first_chunk()?;
    let [b'S', b'Q', 1 | 2, 1, length @ ..] = head else {
        refuse("bytes are no frame of a delta");
    };
    let length = u32::from_be_bytes(*length) as usize;
    if length > BODY_LIMIT {
        refuse("a frame is too long");
    }
    (bytes.len() >= HEAD + length).then_some(length)
}

/// Takes the items of a delta.
pub trait Taker {
    fn open(&mut self, number: u32, count: u32);
    fn issue(&mut self, number: u32, pair: Option<(Plan, Plan)>);
    /// The spans of the cell are bytes, sixteen for each, and in order.
    fn cell(&mut self, place: Place, done: bool, spans: &[[u8; 16]]);
}

struct Nothing;

impl Taker for Nothing {
    fn open(&mut self, _: u32, _: u32) {}
    fn issue(&mut self, _: u32, _: Option<(Plan, Plan)>) {}
    fn cell(&mut self, _: Place, _: bool, _: &[[u8; 16]]) {}
}

/// Both bounds of a span.
pub fn bounds(span: &[u8; 16]) -> (u64, u64) {
    let both = u128::from_be_bytes(*span);
    ((both >> 64) as u64, both as u64)
}

fn check(holds: bool) {
    if !holds {
        refuse("the body of a frame is none of a delta");
    }
}

struct Body<'a> {
    rest: &'a [u8],
}

impl<'a> Body<'a> {
    fn bytes<const N: usize>(&mut self) -> [u8; N] {
        match self.rest.split_first_chunk() {
            Some((bytes, rest)) => {
                self.rest = rest;
                *bytes
            }
            None => refuse("the body of a frame is too short"),
        }
    }

    fn number(&mut self) -> u32 {
        u32::from_be_bytes(self.bytes())
    }

    fn walk(mut self, version: u8, taker: &mut impl Taker) {
        let mut last = 0;
        for _ in 0..self.number() {
            let (number, count) = (self.number(), self.number());
            check(number > last && (1..=10000).contains(&count));
            taker.open(number, count);
            last = number;
        }
        if version == 2 {
            let (count, mut last) = (self.number(), 0);
            check(count > 0);
            for _ in 0..count {
                let (number, [mark]) = (self.number(), self.bytes());
                check(number > last && (mark == 1 || mark == 2));
                taker.issue(number, (mark == 1).then(|| (self.plan(), self.plan())));
                last = number;
            }
        }
        let mut last = None;
        for _ in 0..self.number() {
            let (number, sub, part) = (self.number(), self.number(), self.number());
            let [done] = self.bytes();
            let count = self.number() as usize;
            check(
                number > 0 && sub <= 9999 && part <= 9999 && done <= 1 && (done == 1 || count > 0),
            );
            let place = Place::new(number, sub, part as u16);
            check(last < Some(place));
            last = Some(place);
            taker.cell(place, done == 1, self.spans(count));
        }
        check(self.rest.is_empty());
    }

    fn spans(&mut self, count: usize) -> &'a [[u8; 16]] {
        check(count <= self.rest.len() / 16);
        let (spans, rest) = self.rest.split_at(16 * count);
        self.rest = rest;
        let (spans, _) = spans.as_chunks();
        let mut floor = None;
        for span in spans {
            let (lo, hi) = bounds(span);
            check(floor < Some(lo) && lo < hi && hi <= TOP);
            floor = Some(hi);
        }
        spans
    }

    fn plan(&mut self) -> Plan {
        let count = self.number();
        check((1..=4096).contains(&count));
        let (mut ranges, mut lo, mut last) = (Vec::new(), 0, None);
        for _ in 0..count {
            let hi = u64::from_be_bytes(self.bytes());
            let part = self.number();
            check(lo < hi && hi <= TOP && part <= 9999 && last != Some(part));
            ranges.push((lo, hi, part as u16));
            (lo, last) = (hi, Some(part));
        }
        Plan::of(ranges.into_iter())
    }
}

/// A pair of plans that is shared from now on.
pub fn shared((old, new): (Plan, Plan)) -> (Rc<Plan>, Rc<Plan>) {
    (Rc::new(old), Rc::new(new))
}
