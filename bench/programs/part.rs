//! A partition of a world.

use crate::board::Place;
use crate::plan::Course;
use crate::table::{Spans, Table};
use crate::world::Chunk;

/// What comes to a partition by a course and is not loaded, by sub-plan.
struct Awaited {
    number: u32,
    subs: Vec<Spans>,
}

pub struct Part {
    id: u16,
    /// The number of the newest course that it knows; it knows all before that.
    pub newest: u32,
    /// How many sub-plans it knows to be opened, by the number of their course.
    pub opened: Vec<u32>,
    pub held: Spans,
    /// The number of the last course by which it gave each key, or 0.
    gave: Table<u32>,
    /// The courses by which something is awaited, by rising number.
    awaited: Vec<Awaited>,
    /// The sub-plans of the newest course which it has reported to be done.
    done: Vec<u32>,
    /// The number and sub-plan of the last gift, and how many moves before it have nothing left.
    given: (u32, u32, usize),
}

pub enum Finish {
    Done,
    /// It has reported so before.
    Again,
    NotOpen,
    /// The first keys that are missing.
    NotAll(u64, u64),
    NothingDue,
}

pub enum Serve {
    Held,
    Pending(u16),
    Moved(u16, u32),
    Behind,
    Elsewhere(u16),
}

impl Part {
    /// A partition that knows the first course.
    pub fn new(id: u16, first: &Course) -> Part {
        let mut part = Part {
            id,
            newest: 0,
            opened: Vec::new(),
            held: Spans::default(),
            gave: Table::all(0),
            awaited: Vec::new(),
            done: Vec::new(),
            given: (0, 0, 0),
        };
        part.learn(std::slice::from_ref(first));
        part
    }

    /// Learns of the next course.
    pub fn learn(&mut self, courses: &[Course]) {
        let course = &courses[self.newest as usize];
        self.newest += 1;
        self.opened.push(0);
        self.done.clear();
        let mut subs: Vec<Spans> = Vec::new();
        subs.resize_with(course.subplans as usize, Spans::default);
        for (sub, awaited) in subs.iter_mut().enumerate() {
            for one in course.arriving(sub as u32, self.id) {
                awaited.insert(one.lo, one.hi);
            }
        }
        if subs.iter().any(|it| !it.list.is_empty()) {
            self.awaited.push(Awaited {
                number: self.newest,
                subs,
            });
        }
    }

    /// Gives on the first keys that are left, at most so many.
    pub fn give(&mut self, courses: &[Course], most: u64) -> Result<(Chunk, u32), &'static str> {
        let number = self.newest;
        let Some(sub) = self.opened[number as usize - 1].checked_sub(1) else {
            return Err("NotOpen");
        };
        let moves = courses[number as usize - 1].leaving(sub, self.id);
        // What leaves in a sub-plan is held from its beginning on, and never comes back in it.
        if (self.given.0, self.given.1) != (number, sub) {
            self.given = (number, sub, 0);
        }
        let first = moves[self.given.2..]
            .iter()
            .enumerate()
            .find_map(|(at, one)| {
                let held = self.held.beyond(one.lo).first()?;
                (held.0 < one.hi).then_some((at, one, held))
            });
        let Some((passed, one, held)) = first else {
            self.given.2 = moves.len();
            return Err("NothingLeft");
        };
        self.given.2 += passed;
        if most == 0 {
            return Err("ZeroMax");
        }
        let lo = held.0.max(one.lo);
        let hi = held.1.min(one.hi).min(lo.saturating_add(most));
        self.held.remove(lo, hi);
        self.gave.paint(lo, hi, number);
        Ok((
            Chunk {
                place: Place::new(number, sub, one.to),
                lo,
                hi,
            },
            sub,
        ))
    }

    /// Loads the keys of a chunk. Whether some of them were not loaded.
    pub fn load(&mut self, place: Place, lo: u64, hi: u64) -> Result<bool, &'static str> {
        let (number, sub) = (place.number(), place.sub());
        if number > self.newest {
            return Err("Stranger");
        }
        if self.opened[number as usize - 1] <= sub {
            return Err("NotOpen");
        }
        let Some(at) = self.awaited.iter().position(|it| it.number == number) else {
            return Ok(false);
        };
        let awaited = &mut self.awaited[at].subs[sub as usize];
        let mut is_new = false;
        for span in awaited.beyond(lo).iter().take_while(|it| it.0 < hi) {
            self.held.insert(span.0.max(lo), span.1.min(hi));
            is_new = true;
        }
        awaited.remove(lo, hi);
        if self.awaited[at].subs.iter().all(|it| it.list.is_empty()) {
            self.awaited.remove(at);
        }
        Ok(is_new)
    }

    /// Whether it has all keys of the sub-plan.
    pub fn finish(&mut self, courses: &[Course], sub: u32) -> Finish {
        let number = self.newest;
        if self.opened[number as usize - 1] <= sub {
            return Finish::NotOpen;
        }
        let awaited = self.awaited.last().filter(|it| it.number == number);
        if let Some((lo, hi)) = awaited.and_then(|it| it.subs[sub as usize].list.first()) {
            return Finish::NotAll(*lo, *hi);
        }
        if courses[number as usize - 1]
            .arriving(sub, self.id)
            .is_empty()
        {
            return Finish::NothingDue;
        }
        if self.done.contains(&sub) {
            return Finish::Again;
        }
        self.done.push(sub);
        Finish::Done
    }

    /// The reply for the key to whoever followed a move of the number `after`.
    pub fn serve(&self, courses: &[Course], key: u64, after: u32) -> Serve {
        if self.held.has(key) {
            return Serve::Held;
        }
        let gave = self.gave.value(key);
        let later = self.awaited.iter().rev().take_while(|it| it.number > gave);
        for awaited in later {
            if awaited.subs.iter().any(|it| it.has(key)) {
                return Serve::Pending(courses[awaited.number as usize - 1].old.owner(key));
            }
        }
        if gave > after {
            return Serve::Moved(courses[gave as usize - 1].new.owner(key), gave);
        }
        if after > self.newest {
            return Serve::Behind;
        }
        Serve::Elsewhere(courses[self.newest as usize - 1].old.owner(key))
    }
}
