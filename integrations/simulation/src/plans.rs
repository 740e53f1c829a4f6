//! The plans of the courses, in slots.

use crate::failure::Why;
use squall::Rank;
use std::ops::Range;

/// How many partitions there are before the course, and how many come with it.
pub const OLD_PARTS: u32 = 24;
pub const NEW_PARTS: u32 = 8;
pub const PARTS: u32 = OLD_PARTS + NEW_PARTS;
/// How many slots routers know that learn by redirects, and how many roots a slot has.
pub const SLOTS: u64 = 16_368;
const SLOT: u64 = 200;
/// How many slots an old partition has, and how many of them move.
const SLOTS_OF_ONE: u64 = SLOTS / OLD_PARTS as u64;
pub const MOVED_OF_ONE: u64 = SLOTS_OF_ONE / 4;
/// How many chunks a move has, and how many slots a chunk.
pub const CHUNKS: u64 = 17;
const SLOTS_OF_CHUNK: u64 = MOVED_OF_ONE / CHUNKS;
/// How many ranks a chunk has.
pub const RANKS_OF_CHUNK: u64 = (SLOTS_OF_CHUNK * SLOT) << 32;
/// Nothing divides a cell: it is a chunk, or what an old partition keeps.
const CELLS_OF_ONE: u64 = CHUNKS + 1;
pub const CELLS: usize = OLD_PARTS as usize * CELLS_OF_ONE as usize;

/// The text of a plan of these ranges: where each begins and ends, in slots, and its partition. The keys
/// after the last slot are those of partition 0. Nobody asks for them.
fn plan(ranges: impl Iterator<Item = (u64, u64, u32)>) -> String {
    let range =
        |(lo, hi, part)| format!(r#"{{"part":{part},"from":[{},0],"to":[{},0]}},"#, lo * SLOT, hi * SLOT);
    let rest = format!(r#"{{"part":0,"from":[{},0],"to":"end"}}"#, SLOTS * SLOT);
    format!(r#"{{"plan":[{}{rest}]}}"#, ranges.map(range).collect::<String>())
}

/// The plan before the course.
pub fn old_plan() -> String {
    plan((0..OLD_PARTS).map(|part| {
        let lo = u64::from(part) * SLOTS_OF_ONE;
        (lo, lo + SLOTS_OF_ONE, part)
    }))
}

/// The plan after it: of each old partition a quarter has gone to a new one.
pub fn new_plan() -> String {
    plan((0..OLD_PARTS).flat_map(|part| {
        let lo = u64::from(part) * SLOTS_OF_ONE;
        let (cut, hi) = (lo + SLOTS_OF_ONE - MOVED_OF_ONE, lo + SLOTS_OF_ONE);
        [(lo, cut, part), (cut, hi, new_part(part))]
    }))
}

/// The new partition to which an old one gives.
fn new_part(part: u32) -> u32 {
    OLD_PARTS + part % NEW_PARTS
}

/// A key of a slot.
pub fn key_of(slot: u64) -> Rank {
    Rank::new((slot * SLOT) as u32, 7)
}

/// The old partition that has the keys of a cell before the course.
pub fn part_of_cell(cell: usize) -> u32 {
    (cell as u64 / CELLS_OF_ONE) as u32
}

/// The slots of a cell.
pub fn slots_of_cell(cell: usize) -> Range<u64> {
    begin_of_cell(cell)..begin_of_cell(cell + 1)
}

fn begin_of_cell(cell: usize) -> u64 {
    let (part, at) = (cell as u64 / CELLS_OF_ONE, cell as u64 % CELLS_OF_ONE);
    let kept = if at == 0 { 0 } else { SLOTS_OF_ONE - MOVED_OF_ONE + (at - 1) * SLOTS_OF_CHUNK };
    part * SLOTS_OF_ONE + kept
}

/// The cell of a slot.
pub fn cell_of(slot: u64) -> usize {
    let (part, at) = (slot / SLOTS_OF_ONE, slot % SLOTS_OF_ONE);
    let within = match at.checked_sub(SLOTS_OF_ONE - MOVED_OF_ONE) {
        None => 0,
        Some(moved) => 1 + moved / SLOTS_OF_CHUNK,
    };
    (part * CELLS_OF_ONE + within) as usize
}

/// The cells of the keys between two ranks, but for those after the last slot. Each rank has to be where a
/// cell begins.
pub fn cells_of(lo: Rank, hi: Rank) -> Result<Range<usize>, Why> {
    Ok(cell_from(lo)?..cell_from(hi.min(end_of_cells()))?)
}

fn cell_from(rank: Rank) -> Result<usize, Why> {
    let slot = (rank.0 >> 32) / SLOT;
    let cell = cell_of(slot);
    if begin_of(cell) == rank {
        Ok(cell)
    } else {
        Err(Why::Divided { slot })
    }
}

/// The first rank of a cell.
fn begin_of(cell: usize) -> Rank {
    Rank::new((begin_of_cell(cell) * SLOT) as u32, 0)
}

/// The first rank after the last cell.
fn end_of_cells() -> Rank {
    begin_of(CELLS)
}

/// The ranks of cells.
pub fn ranks_of(cells: Range<usize>) -> Range<Rank> {
    begin_of(cells.start)..begin_of(cells.end)
}

#[cfg(test)]
mod tests {
    use super::*;

    #[test]
    fn cells_are_all_slots() {
        let mut next = 0;
        for cell in 0..CELLS {
            let (slots, ranks) = (slots_of_cell(cell), ranks_of(cell..cell + 1));
            assert_eq!(slots.start, next);
            assert!(slots.clone().all(|slot| cell_of(slot) == cell && ranks.contains(&key_of(slot))));
            assert_eq!(cells_of(ranks.start, ranks.end), Ok(cell..cell + 1));
            assert_eq!(cells_of(key_of(slots.start), ranks.end), Err(Why::Divided { slot: slots.start }));
            next = slots.end;
        }
        assert_eq!(next, SLOTS);
        assert_eq!(cells_of(Rank(0), Rank::END), Ok(0..CELLS));
    }
}
