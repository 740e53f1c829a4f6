//! Where each router sends each key, and whether it is served there at each moment.

use crate::failure::Why;
use crate::ground::Ground;
use crate::plans::{self, part_of_cell, CELLS, PARTS};
use squall::Router;
use std::ops::Range;

/// Where each router sends each cell.
pub struct Check {
    /// By router and cell.
    routes: Vec<Vec<u8>>,
    /// By cell and partition, how many routers send it there.
    counts: Vec<[u32; PARTS as usize]>,
    /// How many routes were followed, and the most partitions that one of them named after its first.
    pub followed: u64,
    pub most: u32,
}

impl Check {
    /// Routers that know the old plan.
    pub fn new(routers: usize) -> Check {
        let routes: Vec<u8> = (0..CELLS).map(|cell| part_of_cell(cell) as u8).collect();
        let counts = (0..CELLS).map(|cell| {
            let mut counts = [0; PARTS as usize];
            counts[part_of_cell(cell) as usize] = routers as u32;
            counts
        });
        Check { counts: counts.collect(), routes: vec![routes; routers], followed: 0, most: 0 }
    }

    /// The router has heard what may change where it sends these cells.
    pub fn router(
        &mut self,
        at: usize,
        router: &Router,
        cells: Range<usize>,
        ground: &Ground,
    ) -> Result<(), Why> {
        for leg in router.legs(plans::ranks_of(cells)) {
            for cell in plans::cells_of(leg.lo, leg.hi)? {
                let before = std::mem::replace(&mut self.routes[at][cell], leg.part as u8);
                if u32::from(before) == leg.part {
                    continue;
                }
                self.counts[cell][before as usize] -= 1;
                self.counts[cell][leg.part as usize] += 1;
                // Where another router sends it too was looked at before.
                if self.counts[cell][leg.part as usize] == 1 {
                    self.follow(cell, leg.part, ground)?;
                }
            }
        }
        Ok(())
    }

    /// What partitions reply for these cells may have changed.
    pub fn ground(&mut self, cells: Range<usize>, ground: &Ground) -> Result<(), Why> {
        for cell in cells {
            for part in (0..PARTS).filter(|&part| self.counts[cell][part as usize] > 0).collect::<Vec<_>>() {
                self.follow(cell, part, ground)?;
            }
        }
        Ok(())
    }

    fn follow(&mut self, cell: usize, part: u32, ground: &Ground) -> Result<(), Why> {
        self.followed += 1;
        self.most = self.most.max(ground.follow(cell, part)?);
        Ok(())
    }
}
