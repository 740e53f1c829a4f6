//! The rival of squall's program in the benches: it plays the lines of a scenario that the benches need, and answers
//! as squall does. What it does not play ends it, with a message on standard error and status 1.

mod board;
mod frame;
mod part;
mod plan;
mod router;
mod table;
mod text;
mod way;
mod world;

use board::Place;
use frame::Feed;
use plan::{Course, Plan};
use router::Router;
use std::fs::File;
use std::io::{self, BufRead, Read, Write};
use std::rc::Rc;
use text::{Piece, Words, put, put_key, put_number, refuse};
use world::World;

const ROOM: usize = 65536;

/// What is played so far.
enum Stage {
    Start,
    Old(Plan),
    Reports(Box<Router>, Feed),
    Events(World),
}

impl Stage {
    /// Answers a line.
    fn play(&mut self, line: &[u8], out: &mut Vec<u8>) {
        let mut words = Words::new(line);
        let Some(word) = words.next() else {
            return;
        };
        match self {
            _ if word[0] == b'#' => {}
            Stage::Events(world) => world.play(word, &mut words, out),
            Stage::Reports(router, _) if word == b"world" => {
                let routers = words.number(1000);
                let world = World::new(router, routers);
                put(
                    out,
                    &[
                        Piece::Text("world "),
                        Piece::Count(world.parts()),
                        Piece::Text(" "),
                        Piece::Number(routers),
                    ],
                );
                *self = Stage::Events(world);
                words.end();
            }
            Stage::Reports(router, feed) => report(router, feed, word, &mut words, out),
            Stage::Start if word == b"old" => {
                let plan = Plan::read(words.rest());
                put(out, &[Piece::Text("old "), Piece::Count(plan.ends.len())]);
                *self = Stage::Old(plan);
            }
            Stage::Old(old) if word == b"new" => {
                let plan = Plan::read(words.rest());
                put(out, &[Piece::Text("new "), Piece::Count(plan.ends.len())]);
                let old = std::mem::replace(
                    old,
                    Plan {
                        ends: Vec::new(),
                        parts: Vec::new(),
                    },
                );
                *self = Stage::Reports(
                    Box::new(Router::new(Rc::new(old), Rc::new(plan))),
                    Feed::default(),
                );
            }
            _ => refuse("the first lines are not those of both plans"),
        }
    }
}

/// The number of a reconfiguration.
fn number(words: &mut Words) -> u32 {
    match words.number(u32::MAX) {
        0 => refuse("a reconfiguration has the number 0"),
        number => number,
    }
}

/// Where a report belongs: the number of its reconfiguration, its sub-plan and its partition.
fn place(words: &mut Words) -> Place {
    Place::new(number(words), words.number(9999), words.number(9999) as u16)
}

/// Answers a line that is no event.
fn report(router: &mut Router, feed: &mut Feed, word: &[u8], words: &mut Words, out: &mut Vec<u8>) {
    match word {
        b"loaded" => {
            let place = place(words);
            let (lo, hi) = words.span();
            router.loaded(place, lo, hi);
        }
        b"route" => {
            let key = words.key();
            out.extend_from_slice(b"route ");
            put_key(out, key);
            out.push(b' ');
            put_number(out, router.route(key));
            out.push(b'\n');
            return words.end();
        }
        b"done" => {
            let place = place(words);
            router.done(place);
        }
        b"opened" => {
            let number = number(words);
            router.board.open(number, words.number(9999) + 1);
        }
        b"issued" => {
            let number = number(words);
            let pair = (router.new_plan(), Rc::new(Plan::read(words.rest())));
            router.issued(number, Some(pair));
            out.extend_from_slice(b"taken\n");
            return;
        }
        b"legs" => {
            let (lo, hi) = words.span();
            router.legs(lo, hi, |lo, hi, part| {
                put(
                    out,
                    &[
                        Piece::Text("leg "),
                        Piece::Span(lo, hi),
                        Piece::Text(" "),
                        Piece::Number(part.into()),
                    ],
                );
            });
            return words.end();
        }
        b"board" => {
            router.board.show(out);
            return words.end();
        }
        b"hear" => {
            feed.push(words.next().unwrap_or_default());
            let count = feed.take(router);
            for _ in 0..count {
                out.extend_from_slice(b"heard delta\n");
            }
            if count == 0 {
                out.extend_from_slice(b"heard nothing\n");
            }
            return words.end();
        }
        _ => refuse("a line is of a kind that is not played here"),
    }
    words.end();
    out.extend_from_slice(b"taken\n");
}

/// Answers each line of the input; the answers to the lines that a read brings are written before the next read.
fn play(mut input: impl Read, mut output: impl Write) -> io::Result<()> {
    let mut stage = Stage::Start;
    let (mut bytes, mut length, mut out) = (vec![0; ROOM], 0, Vec::new());
    loop {
        if bytes.len() - length < ROOM {
            bytes.resize(2 * bytes.len(), 0);
        }
        let count = input.read(&mut bytes[length..length + ROOM])?;
        let mut rest = &bytes[..length + count];
        if count == 0 {
            stage.play(rest, &mut out);
            return output.write_all(&out);
        }
        // What was read before has no end of a line.
        let mut skipped = &rest[length..];
        let mut end = length + skipped.skip_until(b'\n')?;
        while rest[end - 1] == b'\n' {
            let line = &rest[..end - 1];
            stage.play(line.strip_suffix(b"\r").unwrap_or(line), &mut out);
            rest = &rest[end..];
            let mut skipped = rest;
            end = skipped.skip_until(b'\n')?;
            if end == 0 {
                break;
            }
        }
        let (start, left) = (length + count - rest.len(), rest.len());
        bytes.copy_within(start..start + left, 0);
        length = left;
        output.write_all(&out)?;
        out.clear();
    }
}

fn read(file: &str) -> io::Result<Plan> {
    let mut text = Vec::new();
    File::open(file)?.read_to_end(&mut text)?;
    Ok(Plan::read(&text))
}

fn check(plan: &Plan) -> Vec<u8> {
    let mut out = Vec::new();
    for (lo, hi, part) in plan.ranges() {
        put(
            &mut out,
            &[
                Piece::Text("range "),
                Piece::Number(part.into()),
                Piece::Text(" "),
                Piece::Span(lo, hi),
            ],
        );
    }
    put(
        &mut out,
        &[Piece::Text("plan "), Piece::Count(plan.ends.len())],
    );
    out
}

fn course(old: Plan, new: Plan) -> Vec<u8> {
    use Piece::{Count, Number, Span, Text};
    let course = Course::new(1, Rc::new(old), Rc::new(new));
    let mut out = Vec::new();
    put(&mut out, &[Text("moves "), Count(course.moves.len())]);
    put(&mut out, &[Text("sub-plans "), Number(course.subplans)]);
    for it in &course.moves {
        let (from, to, sub) = (
            Number(it.from.into()),
            Number(it.to.into()),
            Number(it.sub.into()),
        );
        put(
            &mut out,
            &[
                Text("move "),
                Span(it.lo, it.hi),
                Text(" "),
                from,
                Text(" to "),
                to,
                Text(" sub "),
                sub,
            ],
        );
    }
    out
}

fn main() -> io::Result<()> {
    let words: Vec<String> = std::env::args().skip(1).collect();
    let words: Vec<&str> = words.iter().map(String::as_str).collect();
    let mut output = io::stdout().lock();
    match words[..] {
        [] | ["run", "-"] => play(io::stdin().lock(), output),
        ["run", file] => play(File::open(file)?, output),
        ["check", file] => output.write_all(&check(&read(file)?)),
        ["course", old, new] => output.write_all(&course(read(old)?, read(new)?)),
        _ => refuse("the words are none of `run FILE`, `check PLAN` and `course OLD NEW`"),
    }
}
