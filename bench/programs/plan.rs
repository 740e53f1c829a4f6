//! Plans, and what moves between two.

use crate::text::{TOP, refuse};
use std::rc::Rc;

/// The ranges of a plan by rising key, neighbours of one partition joined.
#[derive(PartialEq)]
pub struct Plan {
    pub ends: Vec<u64>,
    pub parts: Vec<u16>,
}

impl Plan {
    pub fn read(text: &[u8]) -> Plan {
        let mut ranges = Reader { text, at: 0 }.plan();
        if !ranges.is_sorted() {
            ranges.sort_unstable();
        }
        Plan::of(ranges.into_iter().map(|(lo, hi, part)| (lo, hi, part)))
    }

    /// The plan of ranges that rise and follow one another.
    pub fn of(ranges: impl Iterator<Item = (u64, u64, u16)>) -> Plan {
        let count = ranges.size_hint().0;
        let (mut ends, mut parts) = (Vec::with_capacity(count), Vec::with_capacity(count));
        let mut end = 0;
        for (lo, hi, part) in ranges {
            if lo != end {
                refuse("a text is no plan: some key is in no range, or in two");
            }
            end = hi;
            if parts.last() == Some(&part) {
                ends.pop();
            } else {
                parts.push(part);
            }
            ends.push(hi);
        }
        if end != TOP {
            refuse("a text is no plan: some key is in no range");
        }
        Plan { ends, parts }
    }

    pub fn owner(&self, key: u64) -> u16 {
        self.parts[self.ends.partition_point(|end| *end <= key)]
    }

    pub fn ranges(&self) -> impl Iterator<Item = (u64, u64, u16)> + '_ {
        let starts = std::iter::once(0).chain(self.ends.iter().copied());
        let ends = self.ends.iter().copied();
        starts
            .zip(ends)
            .zip(&self.parts)
            .map(|((lo, hi), part)| (lo, hi, *part))
    }
}

/// Reads the text of a plan.
struct Reader<'a> {
    text: &'a [u8],
    at: usize,
}

impl Reader<'_> {
    fn peek(&mut self) -> u8 {
        while let Some(byte) = self.text.get(self.at) {
            if !matches!(byte, b' ' | b'\t' | b'\n' | b'\r') {
                return *byte;
            }
            self.at += 1;
        }
        0
    }

    fn wrong(&self) -> ! {
        refuse(&format!(
            "a text is no plan of the form that is read here, at byte {}",
            self.at
        ));
    }

    fn take(&mut self, wanted: u8) {
        if self.peek() != wanted {
            self.wrong();
        }
        self.at += 1;
    }

    /// Takes the byte if it is there.
    fn takes(&mut self, wanted: u8) -> bool {
        let found = self.peek() == wanted;
        self.at += usize::from(found);
        found
    }

    fn name(&mut self) -> &[u8] {
        self.take(b'"');
        let rest = &self.text[self.at..];
        match rest.iter().position(|it| matches!(it, b'"' | b'\\')) {
            Some(end) if rest[end] == b'"' => {
                self.at += end + 1;
                &rest[..end]
            }
            _ => self.wrong(),
        }
    }

    fn number(&mut self, limit: u64) -> u64 {
        self.peek();
        let start = self.at;
        let mut value = 0;
        while let Some(digit @ b'0'..=b'9') = self.text.get(self.at) {
            value = value * 10 + u64::from(digit - b'0');
            if value > limit {
                self.wrong();
            }
            self.at += 1;
        }
        if start == self.at || (self.text[start] == b'0' && self.at - start > 1) {
            self.wrong();
        }
        value
    }

    fn pair(&mut self) -> u64 {
        self.take(b'[');
        let root = self.number(0xffff_ffff);
        self.take(b',');
        let second = self.number(0xffff_ffff);
        self.take(b']');
        let rank = root << 32 | second;
        if rank > TOP {
            self.wrong();
        }
        rank
    }

    fn entry(&mut self) -> (u64, u64, u16) {
        let (mut lo, mut hi, mut part) = (None, None, None);
        self.take(b'{');
        loop {
            let name: [u8; 4] = match self.name() {
                b"to" => *b"to\0\0",
                it => it.try_into().unwrap_or([0; 4]),
            };
            self.take(b':');
            match &name {
                b"part" => part = Some(self.number(9999) as u16),
                b"from" => lo = Some(self.pair()),
                b"to\0\0" if self.peek() == b'"' => {
                    if self.name() != b"end" {
                        self.wrong();
                    }
                    hi = Some(TOP);
                }
                b"to\0\0" => hi = Some(self.pair()),
                _ => self.wrong(),
            }
            if !self.takes(b',') {
                break;
            }
        }
        self.take(b'}');
        match (lo, hi, part) {
            (Some(lo), Some(hi), Some(part)) if lo < hi => (lo, hi, part),
            _ => self.wrong(),
        }
    }

    fn plan(&mut self) -> Vec<(u64, u64, u16)> {
        self.take(b'{');
        if self.name() != b"plan" {
            self.wrong();
        }
        self.take(b':');
        self.take(b'[');
        let mut found = vec![self.entry()];
        while self.takes(b',') {
            found.push(self.entry());
        }
        self.take(b']');
        self.take(b'}');
        if self.peek() != 0 || self.at < self.text.len() || found.len() > 4096 {
            self.wrong();
        }
        found
    }
}

/// Keys that go from one partition to another in a sub-plan.
#[derive(Clone, Copy)]
pub struct Move {
    pub lo: u64,
    pub hi: u64,
    pub from: u16,
    pub to: u16,
    pub sub: u16,
}

/// A numbered change from one plan to another.
pub struct Course {
    pub number: u32,
    pub old: Rc<Plan>,
    pub new: Rc<Plan>,
    /// By rising key.
    pub moves: Vec<Move>,
    /// By sub-plan, then by source, then by key.
    leaving: Vec<Move>,
    /// By sub-plan, then by destination, then by key.
    arriving: Vec<Move>,
    pub subplans: u32,
}

impl Course {
    pub fn new(number: u32, old: Rc<Plan>, new: Rc<Plan>) -> Course {
        let mut moves = gather(&old, &new);
        let subplans = set_subplans(&mut moves);
        let mut leaving = moves.clone();
        leaving.sort_unstable_by_key(|it| (it.sub, it.from, it.lo));
        let mut arriving = moves.clone();
        arriving.sort_unstable_by_key(|it| (it.sub, it.to, it.lo));
        Course {
            number,
            old,
            new,
            moves,
            leaving,
            arriving,
            subplans,
        }
    }

    /// What leaves the partition in the sub-plan.
    pub fn leaving(&self, sub: u32, part: u16) -> &[Move] {
        let wanted = (sub, part);
        let start = self
            .leaving
            .partition_point(|it| (u32::from(it.sub), it.from) < wanted);
        let rest = &self.leaving[start..];
        &rest[..rest.partition_point(|it| (u32::from(it.sub), it.from) == wanted)]
    }

    /// What comes to the partition in the sub-plan.
    pub fn arriving(&self, sub: u32, part: u16) -> &[Move] {
        let rest = &self.arriving[self.first_arriving(sub, part, 0)..];
        &rest[..rest.partition_point(|it| (u32::from(it.sub), it.to) == (sub, part))]
    }

    /// The keys of the span that come to the partition in the sub-plan, as spans by rising key.
    pub fn coming(
        &self,
        sub: u32,
        part: u16,
        lo: u64,
        hi: u64,
    ) -> impl Iterator<Item = (u64, u64)> + '_ {
        self.arriving[self.first_arriving(sub, part, lo)..]
            .iter()
            .take_while(move |it| it.lo < hi && (u32::from(it.sub), it.to) == (sub, part))
            .map(move |it| (it.lo.max(lo), it.hi.min(hi)))
    }

    /// Where the moves to the partition begin that end beyond the bound.
    fn first_arriving(&self, sub: u32, part: u16, lo: u64) -> usize {
        self.arriving
            .partition_point(|it| (u32::from(it.sub), it.to, it.hi) <= (sub, part, lo))
    }

    /// To whom keys come in the sub-plan, by rising number.
    pub fn receivers(&self, sub: u32) -> Vec<u16> {
        let within = self.arriving.iter().filter(|it| u32::from(it.sub) == sub);
        let mut found: Vec<u16> = within.map(|it| it.to).collect();
        found.dedup();
        found
    }
}

/// The moves by rising key, without their sub-plans.
fn gather(old: &Plan, new: &Plan) -> Vec<Move> {
    let mut moves = Vec::with_capacity(old.ends.len() + new.ends.len());
    let (mut i, mut j, mut lo) = (0, 0, 0);
    while lo < TOP {
        let hi = old.ends[i].min(new.ends[j]);
        let (from, to) = (old.parts[i], new.parts[j]);
        if from != to {
            moves.push(Move {
                lo,
                hi,
                from,
                to,
                sub: 0,
            });
        }
        i += usize::from(old.ends[i] == hi);
        j += usize::from(new.ends[j] == hi);
        lo = hi;
    }
    moves
}

/// Gives each move its sub-plan, the place of its destination among those of its source. How many there are.
fn set_subplans(moves: &mut [Move]) -> u32 {
    let link = |it: &Move| u32::from(it.from) << 16 | u32::from(it.to);
    let mut links: Vec<u32> = moves.iter().map(link).collect();
    links.sort_unstable();
    links.dedup();
    let (mut subs, mut first, mut most) = (Vec::with_capacity(links.len()), 0, 0);
    for (at, it) in links.iter().enumerate() {
        if it >> 16 != links[first] >> 16 {
            first = at;
        }
        subs.push((at - first) as u16);
        most = most.max(at - first + 1);
    }
    for it in moves {
        it.sub = subs[links.partition_point(|one| *one < link(it))];
    }
    most as u32
}
