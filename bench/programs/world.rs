//! A world: a leader, partitions and routers, and what reaches them.

use crate::board::Place;
use crate::part::{Finish, Part, Serve};
use crate::plan::{Course, Plan};
use crate::router::Router;
use crate::text::{Piece, Words, put, put_key, put_number, refuse};
use crate::way::{Fact, Way};
use Piece::{Count, Number, Span, Text};
use std::collections::BTreeSet;
use std::rc::Rc;

/// Where a node stands in the list of all.
type Node = usize;

const LEADER: Node = 0;

/// How much of each node's facts is known, by its place in the list. What a node is told by another is all that the
/// other knows, so that it is always the first facts of each node.
type Clock = Vec<u32>;

/// Keys on their way.
pub struct Chunk {
    pub place: Place,
    pub lo: u64,
    pub hi: u64,
}

pub struct World {
    /// The courses by their numbers, from 1 on.
    courses: Vec<Course>,
    /// How many sub-plans of the newest course are opened.
    opened: u32,
    /// Who has not reported to the leader that it has all keys of the sub-plan opened last.
    waited: BTreeSet<u16>,
    parts: Vec<Part>,
    ways: Vec<Way>,
    /// The place among the parts of each partition.
    places: Vec<u16>,
    /// What each node knows: the leader, the routers, and the partitions.
    clocks: Vec<Clock>,
    /// What each node did.
    facts: Vec<Vec<Fact>>,
    messages: Vec<Clock>,
    chunks: Vec<Chunk>,
}

const NONE: u16 = u16::MAX;

fn no_such(out: &mut Vec<u8>) {
    out.extend_from_slice(b"no NoSuch\n");
}

fn no(out: &mut Vec<u8>, why: &str) {
    put(out, &[Text("no "), Text(why)]);
}

impl World {
    pub fn new(router: &Router, routers: u32) -> World {
        let course = Course::new(1, router.old_plan(), router.new_plan());
        let ways = (0..routers).map(|_| Way::new(&course)).collect();
        let mut world = World {
            courses: Vec::new(),
            opened: 0,
            waited: BTreeSet::new(),
            parts: Vec::new(),
            ways,
            places: vec![NONE; 10000],
            clocks: vec![Clock::new(); 1 + routers as usize],
            facts: vec![Vec::new(); 1 + routers as usize],
            messages: Vec::new(),
            chunks: Vec::new(),
        };
        world.add_parts(&course.old, &course);
        world.add_parts(&course.new, &course);
        for (lo, hi, part) in course.old.ranges() {
            world.parts[usize::from(world.places[usize::from(part)])]
                .held
                .insert(lo, hi);
        }
        world.courses.push(course);
        world
    }

    pub fn parts(&self) -> usize {
        self.parts.len()
    }

    /// Adds the partitions of the plan that are not there, which know the first course alone.
    fn add_parts(&mut self, plan: &Plan, first: &Course) {
        for part in &plan.parts {
            let place = &mut self.places[usize::from(*part)];
            if *place == NONE {
                *place = self.parts.len() as u16;
                self.parts.push(Part::new(*part, first));
                self.clocks.push(Clock::new());
                self.facts.push(Vec::new());
            }
        }
    }

    /// The place of a partition among the parts.
    fn place(&self, part: u32) -> Option<usize> {
        let place = *self.places.get(part as usize)?;
        (place != NONE).then_some(usize::from(place))
    }

    /// The node of a partition, by its place among them.
    fn part_node(&self, place: usize) -> Node {
        1 + self.ways.len() + place
    }

    fn node(&self, words: &mut Words) -> Option<Node> {
        match words.node() {
            (b'l', _) => Some(LEADER),
            (b'r', at) => ((at as usize) < self.ways.len()).then_some(1 + at as usize),
            (_, part) => self.place(part).map(|place| self.part_node(place)),
        }
    }

    fn did(&mut self, node: Node, fact: Fact) {
        self.facts[node].push(fact);
        let count = self.facts[node].len() as u32;
        let clock = &mut self.clocks[node];
        if clock.len() <= node {
            clock.resize(node + 1, 0);
        }
        clock[node] = count;
    }

    /// Plays an event.
    pub fn play(&mut self, word: &[u8], words: &mut Words, out: &mut Vec<u8>) {
        match word {
            b"serve" => self.serve(words, out),
            b"route" => self.route(words, out),
            b"deliver" => self.deliver(words, out),
            b"send" => self.send(words, out),
            b"load" => self.load(words, out),
            b"give" => self.give(words, out),
            b"finish" => self.finish(words, out),
            b"open" => self.open(out),
            b"begin" => return self.begin(&Plan::read(words.rest()), out),
            _ => refuse("an event is of a kind that is not played here"),
        }
        words.end();
    }

    fn course(&self) -> &Course {
        &self.courses[self.courses.len() - 1]
    }

    fn is_over(&self) -> bool {
        self.opened == self.course().subplans && self.waited.is_empty()
    }

    fn begin(&mut self, plan: &Plan, out: &mut Vec<u8>) {
        if !self.is_over() {
            return no(out, "Running");
        }
        let number = self.courses.len() as u32 + 1;
        let new = Rc::new(Plan {
            ends: plan.ends.clone(),
            parts: plan.parts.clone(),
        });
        let course = Course::new(number, self.course().new.clone(), new);
        self.courses.push(course);
        let courses = std::mem::take(&mut self.courses);
        self.add_parts(plan, &courses[0]);
        self.courses = courses;
        self.opened = 0;
        self.did(LEADER, Fact::Begun);
        put(
            out,
            &[
                Text("begun "),
                Number(number),
                Text(" "),
                Count(self.parts.len()),
            ],
        );
    }

    fn open(&mut self, out: &mut Vec<u8>) {
        if let Some(part) = self.waited.first() {
            return put(
                out,
                &[
                    Text("no NotDone "),
                    Number(self.opened - 1),
                    Text(" "),
                    Number((*part).into()),
                ],
            );
        }
        if self.opened == self.course().subplans {
            return no(out, "NoMore");
        }
        let sub = self.opened;
        self.waited = self.course().receivers(sub).into_iter().collect();
        self.opened += 1;
        self.did(LEADER, Fact::Opened(self.courses.len() as u32));
        put(out, &[Text("opened "), Number(sub)]);
    }

    fn give(&mut self, words: &mut Words, out: &mut Vec<u8>) {
        let (part, most) = (words.number(9999), words.large());
        let Some(at) = self.place(part) else {
            return no_such(out);
        };
        match self.parts[at].give(&self.courses, most) {
            Ok((chunk, sub)) => {
                let (to, index) = (chunk.place.part(), self.chunks.len());
                put_chunk(out, index, sub, part, to);
                put(out, &[Span(chunk.lo, chunk.hi)]);
                self.chunks.push(chunk);
            }
            Err(why) => no(out, why),
        }
    }

    fn load(&mut self, words: &mut Words, out: &mut Vec<u8>) {
        let Some(chunk) = self.chunks.get(words.number(u32::MAX) as usize) else {
            return no_such(out);
        };
        let (place, lo, hi) = (chunk.place, chunk.lo, chunk.hi);
        let at = usize::from(self.places[usize::from(place.part())]);
        match self.parts[at].load(place, lo, hi) {
            Ok(true) => {
                self.did(self.part_node(at), Fact::Loaded(place, lo, hi));
                put(
                    out,
                    &[
                        Text("loaded "),
                        Number(place.part().into()),
                        Text(" "),
                        Span(lo, hi),
                    ],
                );
            }
            Ok(false) => out.extend_from_slice(b"again\n"),
            Err(why) => no(out, why),
        }
    }

    fn finish(&mut self, words: &mut Words, out: &mut Vec<u8>) {
        let (part, sub) = (words.number(9999), words.number(9999));
        let Some(at) = self.place(part) else {
            return no_such(out);
        };
        let finish = self.parts[at].finish(&self.courses, sub);
        if let Finish::Done = finish {
            let place = Place::new(self.parts[at].newest, sub, part as u16);
            self.did(self.part_node(at), Fact::Done(place));
        }
        match finish {
            Finish::Done | Finish::Again => {
                put(out, &[Text("done "), Number(sub), Text(" "), Number(part)])
            }
            Finish::NotOpen => no(out, "NotOpen"),
            Finish::NotAll(lo, hi) => put(out, &[Text("no NotAll "), Span(lo, hi)]),
            Finish::NothingDue => no(out, "NothingDue"),
        }
    }

    fn send(&mut self, words: &mut Words, out: &mut Vec<u8>) {
        let Some(node) = self.node(words) else {
            return no_such(out);
        };
        put(out, &[Text("sent "), Count(self.messages.len())]);
        self.messages.push(self.clocks[node].clone());
    }

    fn deliver(&mut self, words: &mut Words, out: &mut Vec<u8>) {
        let index = words.number(u32::MAX) as usize;
        let (Some(node), true) = (self.node(words), index < self.messages.len()) else {
            return no_such(out);
        };
        let message = &self.messages[index];
        let clock = &mut self.clocks[node];
        if clock.len() < message.len() {
            clock.resize(message.len(), 0);
        }
        // The leader comes first, so that a course is known before what is done under it.
        for (of, (known, told)) in clock.iter_mut().zip(message).enumerate() {
            if *told > *known {
                let fresh = &self.facts[of][*known as usize..*told as usize];
                *known = *told;
                if node == LEADER {
                    heed(
                        &mut self.waited,
                        self.courses.len() as u32,
                        self.opened,
                        fresh,
                    );
                } else if let Some(way) = self.ways.get_mut(node - 1) {
                    way.hear(&self.courses, fresh);
                } else if of == LEADER {
                    let part = &mut self.parts[node - 1 - self.ways.len()];
                    for fact in fresh {
                        match *fact {
                            Fact::Begun => part.learn(&self.courses),
                            Fact::Opened(number) => part.opened[number as usize - 1] += 1,
                            Fact::Loaded(..) | Fact::Done(_) => {}
                        }
                    }
                }
            }
        }
        out.extend_from_slice(b"delivered\n");
    }

    fn route(&mut self, words: &mut Words, out: &mut Vec<u8>) {
        let (at, key) = (words.number(u32::MAX) as usize, words.key());
        let Some(way) = self.ways.get(at) else {
            return no_such(out);
        };
        out.extend_from_slice(b"route ");
        put_key(out, key);
        out.push(b' ');
        put_number(out, way.table.value(key));
        out.push(b'\n');
    }

    fn serve(&mut self, words: &mut Words, out: &mut Vec<u8>) {
        let (part, key) = (words.number(9999), words.key());
        let after = if words.rest().is_empty() {
            0
        } else {
            words.number(u32::MAX)
        };
        let Some(at) = self.place(part) else {
            return no_such(out);
        };
        match self.parts[at].serve(&self.courses, key, after) {
            Serve::Held => out.extend_from_slice(b"held\n"),
            Serve::Pending(from) => put(out, &[Text("pending "), Number(from.into())]),
            Serve::Moved(to, number) => put(
                out,
                &[Text("moved "), Number(to.into()), Text(" "), Number(number)],
            ),
            Serve::Behind => out.extend_from_slice(b"behind\n"),
            Serve::Elsewhere(at) => put(out, &[Text("elsewhere "), Number(at.into())]),
        }
    }
}

fn put_chunk(out: &mut Vec<u8>, index: usize, sub: u32, from: u32, to: u16) {
    out.extend_from_slice(b"chunk ");
    put_number(out, index as u64);
    out.extend_from_slice(b" sub ");
    put_number(out, sub);
    out.push(b' ');
    put_number(out, from);
    out.extend_from_slice(b" to ");
    put_number(out, to);
    out.push(b' ');
}

/// The leader hears who is done.
fn heed(waited: &mut BTreeSet<u16>, newest: u32, opened: u32, fresh: &[Fact]) {
    for fact in fresh {
        if let Fact::Done(place) = fact {
            if place.number() == newest && place.sub() + 1 == opened {
                waited.remove(&place.part());
            }
        }
    }
}
