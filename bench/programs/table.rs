//! Who has which keys: legs in blocks, and sets of spans.

use crate::text::TOP;

/// The most legs of a block.
const MOST: usize = 512;

/// Some legs that follow one another: where each ends, and its value.
struct Block<V> {
    ends: Vec<u64>,
    values: Vec<V>,
}

/// A value for each key. Neighbours of one value are joined within a block, not across two.
pub struct Table<V> {
    firsts: Vec<u64>,
    blocks: Vec<Block<V>>,
}

impl<V: Copy + Eq> Block<V> {
    fn place(&self, key: u64) -> usize {
        self.ends.partition_point(|end| *end <= key)
    }

    fn last(&self) -> u64 {
        self.ends[self.ends.len() - 1]
    }

    /// Gives the keys from `lo` on, below `hi`, the value. All of them are the block's, which begins at `first`.
    fn paint(&mut self, first: u64, lo: u64, hi: u64, value: V) {
        let mut start = self.place(lo);
        if self.values[start] == value && hi <= self.ends[start] {
            return;
        }
        let mut stop = start + self.ends[start..].partition_point(|end| *end < hi);
        let begins = if start == 0 {
            first
        } else {
            self.ends[start - 1]
        };
        let (mut ends, mut values, mut count) = ([0; 3], [value; 3], 0);
        if begins < lo && self.values[start] != value {
            (ends[0], values[0]) = (lo, self.values[start]);
            count = 1;
        } else if begins == lo && start > 0 && self.values[start - 1] == value {
            start -= 1;
        }
        let mut end = hi;
        let mut tail = None;
        if self.ends[stop] == hi {
            if let Some(next) = self.values.get(stop + 1) {
                if *next == value {
                    stop += 1;
                    end = self.ends[stop];
                }
            }
        } else if self.values[stop] == value {
            end = self.ends[stop];
        } else {
            tail = Some((self.ends[stop], self.values[stop]));
        }
        (ends[count], values[count]) = (end, value);
        count += 1;
        if let Some(tail) = tail {
            (ends[count], values[count]) = tail;
            count += 1;
        }
        replace(&mut self.ends, start, stop + 1, &ends[..count]);
        replace(&mut self.values, start, stop + 1, &values[..count]);
    }
}

/// Puts the items in the place of those from `start` on, below `stop`.
fn replace<T: Copy>(list: &mut Vec<T>, start: usize, stop: usize, items: &[T]) {
    let (old, gone, came) = (list.len(), stop - start, items.len());
    if came > gone {
        list.resize(old + came - gone, items[0]);
        list.copy_within(stop..old, start + came);
    } else if came < gone {
        list.copy_within(stop..old, start + came);
        list.truncate(old + came - gone);
    }
    list[start..start + came].copy_from_slice(items);
}

impl<V: Copy + Eq> Table<V> {
    /// The table of legs that rise and follow one another.
    pub fn of(ends: &[u64], values: &[V]) -> Table<V> {
        let (mut firsts, mut blocks, mut first) = (Vec::new(), Vec::new(), 0);
        for (ends, values) in ends.chunks(MOST / 2).zip(values.chunks(MOST / 2)) {
            let block = Block {
                ends: ends.to_vec(),
                values: values.to_vec(),
            };
            firsts.push(first);
            first = block.last();
            blocks.push(block);
        }
        Table { firsts, blocks }
    }

    /// The table that has one value.
    pub fn all(value: V) -> Table<V> {
        Table::of(&[TOP], &[value])
    }

    fn block(&self, key: u64) -> usize {
        self.firsts.partition_point(|first| *first <= key) - 1
    }

    pub fn value(&self, key: u64) -> V {
        let block = &self.blocks[self.block(key)];
        block.values[block.place(key)]
    }

    /// Gives the keys from `lo` on, below `hi`, the value.
    pub fn paint(&mut self, lo: u64, hi: u64, value: V) {
        let at = self.block(lo);
        let end = self.blocks[at].last();
        if hi > end {
            self.clear(at, lo, hi);
            self.blocks[at].paint(self.firsts[at], lo, hi, value);
        } else {
            self.blocks[at].paint(self.firsts[at], lo, hi, value);
        }
        if self.blocks[at].ends.len() > MOST {
            self.split(at);
        }
    }

    /// Lets the block reach up to `hi` by its last leg, and takes these keys from the blocks behind it.
    fn clear(&mut self, at: usize, lo: u64, hi: u64) {
        let mut last = at + 1;
        while self.blocks[last].last() <= hi && last + 1 < self.blocks.len() {
            last += 1;
        }
        let block = &mut self.blocks[last];
        if block.last() <= hi {
            last += 1;
        } else {
            let gone = block.place(hi);
            block.ends.drain(..gone);
            block.values.drain(..gone);
            self.firsts[last] = hi.max(self.firsts[last]);
        }
        self.firsts.drain(at + 1..last);
        self.blocks.drain(at + 1..last);
        let block = &mut self.blocks[at];
        let kept = block.place(lo) + 1;
        block.ends.truncate(kept);
        block.values.truncate(kept);
        block.ends[kept - 1] = hi;
    }

    fn split(&mut self, at: usize) {
        let block = &mut self.blocks[at];
        let half = block.ends.len() / 2;
        let mut upper = Block {
            ends: Vec::with_capacity(MOST + 2),
            values: Vec::with_capacity(MOST + 2),
        };
        upper.ends.extend(block.ends.drain(half..));
        upper.values.extend(block.values.drain(half..));
        self.firsts.insert(at + 1, block.last());
        self.blocks.insert(at + 1, upper);
    }

    /// Shows the legs that have keys from `lo` on, below `hi`, cut to these.
    pub fn legs(&self, lo: u64, hi: u64, mut show: impl FnMut(u64, u64, V)) {
        let first = self.block(lo);
        let mut begin = lo;
        let mut last = None;
        for (at, block) in self.blocks.iter().enumerate().skip(first) {
            let start = if at == first { block.place(lo) } else { 0 };
            for (end, value) in block.ends[start..].iter().zip(&block.values[start..]) {
                if let Some((end, old)) = last {
                    if end >= hi {
                        return show(begin, hi, old);
                    }
                    if old != *value {
                        show(begin, end, old);
                        begin = end;
                    }
                }
                last = Some((*end, *value));
            }
        }
        if let Some((_, value)) = last {
            show(begin, hi, value);
        }
    }
}

/// A set of keys: spans by rising key that don't touch.
#[derive(Default)]
pub struct Spans {
    pub list: Vec<(u64, u64)>,
}

impl Spans {
    pub fn has(&self, key: u64) -> bool {
        self.beyond(key).first().is_some_and(|it| it.0 <= key)
    }

    /// The spans that end beyond the bound.
    pub fn beyond(&self, lo: u64) -> &[(u64, u64)] {
        &self.list[self.list.partition_point(|it| it.1 <= lo)..]
    }

    pub fn insert(&mut self, lo: u64, hi: u64) {
        let list = &mut self.list;
        match list.last_mut() {
            Some(last) if last.1 >= lo => {
                if last.0 <= lo {
                    last.1 = last.1.max(hi);
                    return;
                }
            }
            _ => return list.push((lo, hi)),
        }
        let start = list.partition_point(|it| it.1 < lo);
        if hi < list[start].0 {
            return list.insert(start, (lo, hi));
        }
        let mut stop = start + 1;
        while stop < list.len() && list[stop].0 <= hi {
            stop += 1;
        }
        list[start] = (list[start].0.min(lo), list[stop - 1].1.max(hi));
        list.drain(start + 1..stop);
    }

    pub fn remove(&mut self, lo: u64, hi: u64) {
        let start = self.list.partition_point(|it| it.1 <= lo);
        let stop = start + self.list[start..].partition_point(|it| it.0 < hi);
        if start == stop {
            return;
        }
        let (first, last) = (self.list[start].0, self.list[stop - 1].1);
        match (first < lo, hi < last) {
            (true, true) => {
                replace(&mut self.list, start, stop, &[(first, lo), (hi, last)]);
            }
            (true, false) => replace(&mut self.list, start, stop, &[(first, lo)]),
            (false, true) => replace(&mut self.list, start, stop, &[(hi, last)]),
            (false, false) => replace(&mut self.list, start, stop, &[]),
        }
    }
}
