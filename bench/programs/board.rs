//! What was reported.

use crate::plan::Plan;
use crate::table::Spans;
use crate::text::{Piece, put, put_number, put_span};
use std::collections::hash_map::Entry;
use std::collections::{BTreeMap, HashMap};
use std::hash::{BuildHasherDefault, Hasher};
use std::rc::Rc;

/// Hashes the one number of which a place consists.
#[derive(Default)]
pub struct PlaceHasher(u64);

impl Hasher for PlaceHasher {
    fn write(&mut self, bytes: &[u8]) {
        for byte in bytes {
            self.write_u64(u64::from(*byte));
        }
    }

    fn write_u64(&mut self, value: u64) {
        self.0 = (self.0 ^ value).wrapping_mul(0x9e37_79b9_7f4a_7c15);
    }

    fn finish(&self) -> u64 {
        self.0.rotate_left(26)
    }
}

/// Number, sub-plan and partition, in one number that rises as they do.
#[derive(Clone, Copy, PartialEq, Eq, PartialOrd, Ord)]
pub struct Place(u64);

impl Place {
    pub fn new(number: u32, sub: u32, part: u16) -> Place {
        Place(u64::from(number) << 32 | u64::from(sub) << 16 | u64::from(part))
    }

    pub fn number(self) -> u32 {
        (self.0 >> 32) as u32
    }

    pub fn sub(self) -> u32 {
        (self.0 >> 16) as u32 & 0xffff
    }

    pub fn part(self) -> u16 {
        self.0 as u16
    }
}

impl std::hash::Hash for Place {
    fn hash<H: Hasher>(&self, state: &mut H) {
        state.write_u64(self.0);
    }
}

/// What was reported of a partition in a sub-plan.
#[derive(Default)]
pub struct Cell {
    pub done: bool,
    pub spans: Spans,
}

/// An old plan and a new one.
pub type Pair = (Rc<Plan>, Rc<Plan>);

#[derive(Default)]
pub struct Board {
    opened: BTreeMap<u32, u32>,
    /// The pair of plans of each number, none where different ones were issued.
    issues: BTreeMap<u32, Option<Pair>>,
    cells: HashMap<Place, Cell, BuildHasherDefault<PlaceHasher>>,
}

impl Board {
    pub fn open(&mut self, number: u32, count: u32) {
        let opened = self.opened.entry(number).or_default();
        *opened = count.max(*opened);
    }

    pub fn issue(&mut self, number: u32, pair: Option<Pair>) {
        match self.issues.get_mut(&number) {
            Some(known) if *known != pair => *known = None,
            Some(_) => {}
            None => _ = self.issues.insert(number, pair),
        }
    }

    pub fn cell(&mut self, place: Place) -> &mut Cell {
        match self.cells.entry(place) {
            Entry::Occupied(entry) => entry.into_mut(),
            Entry::Vacant(entry) => entry.insert(Cell::default()),
        }
    }

    /// The greatest number above 1 under which one pair of plans is issued.
    pub fn newest(&self) -> Option<(u32, &Pair)> {
        let known = self.issues.iter().rev().take_while(|it| *it.0 > 1);
        known
            .filter_map(|(number, pair)| pair.as_ref().map(|pair| (*number, pair)))
            .next()
    }

    /// The cells of a number, in any order.
    pub fn cells_of(&self, number: u32) -> impl Iterator<Item = (Place, &Cell)> {
        self.cells
            .iter()
            .filter(move |it| it.0.number() == number)
            .map(|(place, cell)| (*place, cell))
    }

    pub fn show(&self, out: &mut Vec<u8>) {
        use Piece::{Number, Text};
        for (number, count) in &self.opened {
            put(
                out,
                &[Text("opened "), Number(*number), Text(" "), Number(*count)],
            );
        }
        for (number, pair) in &self.issues {
            let word = if pair.is_some() { " one" } else { " clash" };
            put(out, &[Text("issue "), Number(*number), Text(word)]);
        }
        let mut cells: Vec<_> = self.cells.iter().collect();
        cells.sort_unstable_by_key(|it| *it.0);
        for (place, cell) in cells {
            out.extend_from_slice(b"cell ");
            for number in [place.number(), place.sub(), u32::from(place.part())] {
                put_number(out, number);
                out.push(b' ');
            }
            out.extend_from_slice(if cell.done { b"done" } else { b"open" });
            for (lo, hi) in &cell.spans.list {
                out.push(b' ');
                put_span(out, *lo, *hi);
            }
            out.push(b'\n');
        }
        if self.opened.is_empty() && self.issues.is_empty() && self.cells.is_empty() {
            out.extend_from_slice(b"empty\n");
        }
    }
}
