//! A router that hears all reports.

use crate::board::{Board, Place};
use crate::frame::{Taker, bounds, shared};
use crate::plan::{Course, Plan};
use crate::table::Table;
use std::rc::Rc;

pub struct Router {
    first: (Rc<Plan>, Rc<Plan>),
    course: Course,
    table: Table<u16>,
    pub board: Board,
}

/// The table of a course of which nothing was reported.
pub fn table_of(course: &Course) -> Table<u16> {
    Table::of(&course.old.ends, &course.old.parts)
}

impl Router {
    pub fn new(old: Rc<Plan>, new: Rc<Plan>) -> Router {
        let course = Course::new(1, old.clone(), new.clone());
        let table = table_of(&course);
        Router {
            first: (old, new),
            course,
            table,
            board: Board::default(),
        }
    }

    pub fn old_plan(&self) -> Rc<Plan> {
        self.first.0.clone()
    }

    pub fn new_plan(&self) -> Rc<Plan> {
        self.first.1.clone()
    }

    pub fn route(&self, key: u64) -> u16 {
        self.table.value(key)
    }

    pub fn legs(&self, lo: u64, hi: u64, show: impl FnMut(u64, u64, u16)) {
        self.table.legs(lo, hi, show);
    }

    pub fn loaded(&mut self, place: Place, lo: u64, hi: u64) {
        self.board.cell(place).spans.insert(lo, hi);
        if place.number() == self.course.number {
            arrive(&mut self.table, &self.course, place, lo, hi);
        }
    }

    pub fn done(&mut self, place: Place) {
        let was_done = std::mem::replace(&mut self.board.cell(place).done, true);
        if !was_done && place.number() == self.course.number {
            finish(&mut self.table, &self.course, place);
        }
    }

    pub fn issued(&mut self, number: u32, pair: Option<(Rc<Plan>, Rc<Plan>)>) {
        self.board.issue(number, pair);
        let (number, pair) = self.board.newest().unwrap_or((1, &self.first));
        if number == self.course.number {
            return;
        }
        self.course = Course::new(number, pair.0.clone(), pair.1.clone());
        self.table = table_of(&self.course);
        for (place, cell) in self.board.cells_of(number) {
            if cell.done {
                finish(&mut self.table, &self.course, place);
            }
            for (lo, hi) in &cell.spans.list {
                arrive(&mut self.table, &self.course, place, *lo, *hi);
            }
        }
    }
}

/// Keys were loaded.
pub fn arrive(table: &mut Table<u16>, course: &Course, place: Place, lo: u64, hi: u64) {
    for (lo, hi) in course.coming(place.sub(), place.part(), lo, hi) {
        table.paint(lo, hi, place.part());
    }
}

/// All keys that come in the sub-plan were loaded.
pub fn finish(table: &mut Table<u16>, course: &Course, place: Place) {
    for one in course.arriving(place.sub(), place.part()) {
        table.paint(one.lo, one.hi, place.part());
    }
}

impl Taker for Router {
    fn open(&mut self, number: u32, count: u32) {
        self.board.open(number, count);
    }

    fn issue(&mut self, number: u32, pair: Option<(Plan, Plan)>) {
        self.issued(number, pair.map(shared));
    }

    fn cell(&mut self, place: Place, done: bool, spans: &[[u8; 16]]) {
        if done {
            self.done(place);
        }
        let is_newest = place.number() == self.course.number;
        let cell = self.board.cell(place);
        for span in spans {
            let (lo, hi) = bounds(span);
            cell.spans.insert(lo, hi);
            if is_newest {
                arrive(&mut self.table, &self.course, place, lo, hi);
            }
        }
    }
}
