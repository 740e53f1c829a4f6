//! What the nodes of a world are told, and the routers that go by it.

use crate::board::Place;
use crate::plan::Course;
use crate::router::{arrive, finish, table_of};
use crate::table::Table;

/// What a node did, and the others are told.
#[derive(Clone, Copy)]
pub enum Fact {
    /// The leader has begun the next course.
    Begun,
    /// The leader has opened the next sub-plan of the course that was begun last.
    Opened(u32),
    Loaded(Place, u64, u64),
    Done(Place),
}

/// A router: the course that it goes by, and its table.
pub struct Way {
    number: u32,
    pub table: Table<u16>,
}

impl Way {
    /// A router that goes by the first course.
    pub fn new(first: &Course) -> Way {
        Way {
            number: 1,
            table: table_of(first),
        }
    }

    /// Takes what it is told anew of one node.
    pub fn hear(&mut self, courses: &[Course], fresh: &[Fact]) {
        let begun = fresh.iter().filter(|it| matches!(it, Fact::Begun)).count();
        if begun > 0 {
            self.number += begun as u32;
            self.table = table_of(&courses[self.number as usize - 1]);
        }
        let course = &courses[self.number as usize - 1];
        for fact in fresh {
            match *fact {
                Fact::Loaded(place, lo, hi) if place.number() == self.number => {
                    arrive(&mut self.table, course, place, lo, hi);
                }
                Fact::Done(place) if place.number() == self.number => {
                    finish(&mut self.table, course, place);
                }
                _ => {}
            }
        }
    }
}
