//! The names of keys by rank, in little memory: there may be many millions.

use super::index::Ranked;
use squall::Rank;
use std::cmp::Ordering;
use std::collections::{BTreeMap, BTreeSet};
use std::iter;
use std::mem::size_of;
use std::ops::Range;

/// What stands before each name: how many bytes it has.
type Len = u32;

/// Where a name is.
#[derive(Clone, Copy)]
struct Place {
    rank: Rank,
    at: usize,
}

/// The names of keys in some spans, by rank.
///
/// Those that a scan finds are in one run of bytes, with a list of their places. They are sorted once. A map has those that
/// come later.
pub struct Names {
    bytes: Vec<u8>,
    places: Vec<Place>,
    is_sorted: bool,
    /// The spans by rising rank, and below which place the names of each were taken away.
    spans: Vec<(Range<Rank>, usize)>,
    taken: usize,
    new: BTreeMap<Rank, BTreeSet<Vec<u8>>>,
    new_count: usize,
}

impl Names {
    /// None yet, of spans by rising rank.
    pub fn of(spans: impl Iterator<Item = Range<Rank>>) -> Names {
        Names {
            bytes: Vec::new(),
            places: Vec::new(),
            is_sorted: false,
            spans: spans.map(|span| (span, 0)).collect(),
            taken: 0,
            new: BTreeMap::new(),
            new_count: 0,
        }
    }

    /// Whether a rank is in one of the spans.
    pub fn covers(&self, rank: Rank) -> bool {
        self.span_of(rank).is_some()
    }

    fn span_of(&self, rank: Rank) -> Option<usize> {
        let at = self.spans.partition_point(|(span, _)| span.start <= rank).checked_sub(1)?;
        self.spans[at].0.contains(&rank).then_some(at)
    }

    /// Adds a name that a scan has found. It may come twice.
    pub fn add_found(&mut self, rank: Rank, name: &[u8]) {
        self.places.push(Place { rank, at: self.bytes.len() });
        self.bytes.extend_from_slice(&(name.len() as Len).to_le_bytes());
        self.bytes.extend_from_slice(name);
    }

    /// Adds a name, unless it is known.
    pub fn add_new(&mut self, rank: Rank, name: Vec<u8>) {
        if self.is_sorted && self.has(rank, &name) {
            return;
        }
        self.new_count += usize::from(self.new.entry(rank).or_default().insert(name));
    }

    /// Sorts what the scan has found, once it is over.
    pub fn sort(&mut self) {
        let bytes = &self.bytes;
        self.places.sort_unstable_by(|one, other| compare(bytes, *one, (other.rank, name(bytes, *other))));
        self.places.dedup_by(|one, other| one.rank == other.rank && name(bytes, *one) == name(bytes, *other));
        self.places.shrink_to_fit();
        self.bytes.shrink_to_fit();
        self.is_sorted = true;
        for at in 0..self.spans.len() {
            self.spans[at].1 = self.place(self.spans[at].0.start);
        }
        let early = std::mem::take(&mut self.new);
        self.new_count = 0;
        for (rank, names) in early {
            names.into_iter().for_each(|name| self.add_new(rank, name));
        }
    }

    fn has(&self, rank: Rank, wanted: &[u8]) -> bool {
        let found = self.places.binary_search_by(|&place| compare(&self.bytes, place, (rank, wanted)));
        found.is_ok()
    }

    /// The first place of that rank or a later one.
    fn place(&self, rank: Rank) -> usize {
        self.places.partition_point(|place| place.rank < rank)
    }

    /// How many names there are.
    pub fn len(&self) -> usize {
        self.places.len() - self.taken + self.new_count
    }

    /// The rank before which about so many names of a span are. It is the span's end at the latest.
    pub fn cut(&self, span: Range<Rank>, count: usize) -> Rank {
        let found = self.places[self.place(span.start)..self.place(span.end)].iter().map(|place| place.rank);
        let new = self.new.range(span.start..span.end);
        let new = new.flat_map(|(&rank, names)| iter::repeat_n(rank, names.len()));
        let mut first: Vec<Rank> = found.take(count).chain(new.take(count)).collect();
        first.sort_unstable();
        let Some(last) = count.checked_sub(1).and_then(|at| first.get(at)) else {
            return span.end;
        };
        // All names of a rank are on one side.
        let after = Rank(last.0 + 1);
        let found = self.places.get(self.place(after)).map(|place| place.rank);
        let new = self.new.range(after..).next().map(|(&rank, _)| rank);
        found.into_iter().chain(new).chain([span.end]).min().unwrap_or(span.end)
    }

    /// The names of a span, by rank.
    pub fn within(&self, span: Range<Rank>) -> Vec<Ranked> {
        let found = &self.places[self.place(span.start)..self.place(span.end)];
        let new =
            self.new.range(span).flat_map(|(&rank, names)| names.iter().map(move |it| (rank, it.clone())));
        let found = found.iter().map(|&place| (place.rank, name(&self.bytes, place).to_vec()));
        let mut all: Vec<Ranked> = found.chain(new).collect();
        all.sort_unstable();
        all
    }

    /// Takes the names of a span away.
    pub fn take(&mut self, span: Range<Rank>) -> Vec<Vec<u8>> {
        let Some(own) = self.span_of(span.start) else {
            return Vec::new();
        };
        let begin = self.place(span.start).max(self.spans[own].1);
        let end = self.place(span.end).max(begin);
        self.spans[own].1 = end;
        self.taken += end - begin;
        let found = self.places[begin..end].iter().map(|&place| name(&self.bytes, place).to_vec());
        let mut all: Vec<Vec<u8>> = found.collect();
        let mut rest = self.new.split_off(&span.start);
        self.new.append(&mut rest.split_off(&span.end));
        let before = all.len();
        all.extend(rest.into_values().flatten());
        self.new_count -= all.len() - before;
        all
    }
}

fn name(bytes: &[u8], place: Place) -> &[u8] {
    let begin = place.at + size_of::<Len>();
    let len = bytes[place.at..begin].try_into().map_or(0, Len::from_le_bytes);
    &bytes[begin..begin + len as usize]
}

fn compare(bytes: &[u8], place: Place, (rank, wanted): (Rank, &[u8])) -> Ordering {
    place.rank.cmp(&rank).then_with(|| name(bytes, place).cmp(wanted))
}

#[cfg(test)]
mod tests {
    use super::*;

    fn rank(number: u64) -> Rank {
        Rank(number)
    }

    /// The spans 10..20 and 30..40, with a name of each even rank in them, and two of 14.
    fn names() -> Names {
        let mut names = Names::of([rank(10)..rank(20), rank(30)..rank(40)].into_iter());
        names.add_new(rank(12), b"12".to_vec());
        names.add_new(rank(13), b"13".to_vec());
        for number in [36, 14, 30, 12, 14, 10, 38, 32, 34, 16, 18, 10] {
            names.add_found(rank(number), number.to_string().as_bytes());
        }
        names.add_found(rank(14), b"other");
        names.sort();
        names
    }

    fn texts(names: Vec<Vec<u8>>) -> Vec<String> {
        names.into_iter().map(|it| String::from_utf8(it).unwrap()).collect()
    }

    #[test]
    fn each_name_is_there_once() {
        let mut names = names();
        assert_eq!(names.len(), 12);
        names.add_new(rank(14), b"other".to_vec());
        names.add_new(rank(15), b"15".to_vec());
        let within = names.within(rank(12)..rank(17));
        assert_eq!(within.iter().map(|(rank, _)| rank.0).collect::<Vec<_>>(), [12, 13, 14, 14, 15, 16]);
        assert!(names.covers(rank(10)) && names.covers(rank(39)));
        assert!(!names.covers(rank(9)) && !names.covers(rank(20)) && !names.covers(rank(40)));
    }

    #[test]
    fn names_of_one_rank_are_on_one_side() {
        let mut names = names();
        let cut = |names: &Names, lo, count| names.cut(rank(lo)..rank(20), count).0;
        assert_eq!([1, 2, 3, 4, 5].map(|count| cut(&names, 10, count)), [12, 13, 14, 16, 16]);
        names.add_new(rank(14), b"new".to_vec());
        assert_eq!([4, 5, 6, 7].map(|count| cut(&names, 10, count)), [16, 16, 16, 18]);
        assert_eq!([1, 2, 99].map(|count| cut(&names, 16, count)), [18, 20, 20]);
    }

    #[test]
    fn names_are_taken_once() {
        let mut names = names();
        assert_eq!(texts(names.take(rank(10)..rank(13))), ["10", "12"]);
        assert_eq!(texts(names.take(rank(30)..rank(32))), ["30"]);
        // From the beginning of the span, once more.
        names.add_new(rank(15), b"15".to_vec());
        assert_eq!(texts(names.take(rank(10)..rank(16))), ["14", "other", "13", "15"]);
        assert_eq!(names.take(rank(10)..rank(16)), Vec::<Vec<u8>>::new());
        assert_eq!(texts(names.take(rank(10)..rank(20))), ["16", "18"]);
        assert_eq!(texts(names.take(rank(30)..rank(40))), ["32", "34", "36", "38"]);
        assert_eq!((names.len(), names.new_count), (0, 0));
    }
}
