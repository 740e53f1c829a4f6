//! The rival of squall's commands status, merge, beyond and digest: it writes what they write.

mod board;
mod frame;
mod plan;
mod spans;

use board::{Board, Cell};
use plan::{moves, Move, Plan};
use spans::{within, Span, TOP};
use std::collections::BTreeSet;
use std::fmt::{self, Display};
use std::io::{self, Write};
use std::process::ExitCode;
use std::slice::from_ref;

/// What ends a command: what it writes, and its status.
struct Stop(String, u8);

struct Bound(u64);

impl Display for Bound {
    fn fmt(&self, f: &mut fmt::Formatter) -> fmt::Result {
        match self.0 {
            TOP => f.write_str("end"),
            rank => write!(f, "{}:{}", rank >> 32, rank as u32),
        }
    }
}

struct Shown(Span);

impl Display for Shown {
    fn fmt(&self, f: &mut fmt::Formatter) -> fmt::Result {
        write!(f, "[{},{})", Bound(self.0 .0), Bound(self.0 .1))
    }
}

fn read(name: &str) -> Result<Vec<u8>, Stop> {
    std::fs::read(name).map_err(|_| Stop(format!("squall: cannot open {name}\n"), 3))
}

fn read_plan(which: &str, name: &str) -> Result<Plan, Stop> {
    Plan::read(&read(name)?).ok_or_else(|| Stop(format!("refused {which}\n"), 1))
}

fn read_board(names: &[String]) -> Result<Board, Stop> {
    let mut board = Board::default();
    for name in names {
        frame::hear(&read(name)?, &mut board)
            .map_err(|fault| Stop(format!("refused {name} {}\n", fault.0), 1))?;
    }
    Ok(board)
}

/// How far a move is: how many of its keys are there, and the first that are missing.
fn progress(board: &Board, number: u32, it: &Move) -> (u64, Option<Span>) {
    match board.cells.get(&(number, it.sub, it.to)) {
        Some(Cell { done: true, .. }) => (it.span.1 - it.span.0, None),
        Some(cell) => within(&cell.spans, it.span),
        None => (0, Some(it.span)),
    }
}

fn status(words: &[String], only_waiting: bool) -> Result<Vec<u8>, Stop> {
    let [old, new, files @ ..] = words else {
        return Err(Stop("too few words\n".into(), 2));
    };
    let first = (read_plan("old", old)?, read_plan("new", new)?);
    let board = read_board(files)?;
    let (number, plans) = board.newest().unwrap_or_else(|| (1, first.into()));
    let (moves, count) = moves(&plans.0, &plans.1);
    let far: Vec<_> = moves.iter().map(|it| progress(&board, number, it)).collect();
    let mut out = Vec::with_capacity(64 * moves.len());
    let shown = write_status(&mut out, &board, number, &moves, count, &far, only_waiting);
    shown.map(|()| out).map_err(|_| Stop("squall: write failed\n".into(), 3))
}

/// The mean of the shares of the moves, in thousandths.
fn share(moves: &[Move], far: &[(u64, Option<Span>)]) -> u128 {
    let one = |span: Span, count: u64| u128::from(count) * 1000 / u128::from(span.1 - span.0);
    let sum: u128 = moves.iter().zip(far).map(|(it, (count, _))| one(it.span, *count)).sum();
    if moves.is_empty() {
        1000
    } else {
        sum / moves.len() as u128
    }
}

fn write_status(
    out: &mut Vec<u8>,
    board: &Board,
    number: u32,
    moves: &[Move],
    count: u32,
    far: &[(u64, Option<Span>)],
    only_waiting: bool,
) -> io::Result<()> {
    let total: u64 = moves.iter().map(|it| it.span.1 - it.span.0).sum();
    let came: u64 = far.iter().map(|it| it.0).sum();
    let over = far.iter().filter(|it| it.1.is_none()).count();
    let receivers: BTreeSet<_> = moves.iter().map(|it| (it.sub, it.to)).collect();
    let is_done = |sub: u32, part: u16| board.cells.get(&(number, sub, part)).is_some_and(|it| it.done);
    let subplans: Vec<_> = (0..count)
        .map(|sub| {
            let due = receivers.range((sub, 0)..=(sub, u16::MAX));
            due.fold((0, 0), |(all, done), it| (all + 1, done + usize::from(is_done(sub, it.1))))
        })
        .collect();
    let ended = subplans.iter().filter(|(all, done)| all == done).count();
    write!(out, "course {number} moves {over} of {} sub-plans {ended} of {count} open ", moves.len())?;
    match board.opened.get(&number).copied().unwrap_or(0).min(count) {
        0 => write!(out, "none")?,
        opened => write!(out, "{}", opened - 1)?,
    }
    writeln!(out, " loaded {came} of {total} keys share {}/1000", share(moves, far))?;
    for (sub, (all, done)) in subplans.iter().enumerate() {
        writeln!(out, "sub-plan {sub} receivers {done} of {all} done")?;
    }
    for (it, (count, missing)) in moves.iter().zip(far) {
        if only_waiting && missing.is_none() {
            continue;
        }
        write!(out, "move {} {} to {} sub {} ", Shown(it.span), it.from, it.to, it.sub)?;
        match missing {
            None => writeln!(out, "complete")?,
            Some(_) if *count == 0 => writeln!(out, "not started")?,
            Some(first) => {
                writeln!(out, "loaded {count} of {} missing {}", it.span.1 - it.span.0, Shown(*first))?;
            }
        }
    }
    Ok(())
}

fn answer(words: &[String]) -> Result<Vec<u8>, Stop> {
    let (flags, words): (Vec<String>, Vec<String>) =
        words.iter().cloned().partition(|it| it.starts_with("--"));
    match words.split_first().map(|(command, rest)| (command.as_str(), rest)) {
        Some(("status", rest)) => status(rest, !flags.is_empty()),
        Some(("merge", rest)) => Ok(frame::frames(&read_board(rest)?)),
        Some(("beyond", [one, other])) => {
            let (one, other) = (read_board(from_ref(one))?, read_board(from_ref(other))?);
            let rest = one.beyond(&other);
            match flags.is_empty() {
                true => Ok(frame::frames(&rest)),
                false if rest.is_empty() => Ok(Vec::new()),
                false => Err(Stop(String::new(), 1)),
            }
        }
        Some(("digest", [one])) => {
            frame::digest(&read_board(from_ref(one))?).ok_or_else(|| Stop("no TooLong\n".into(), 1))
        }
        _ => Err(Stop("no command of this program\n".into(), 2)),
    }
}

fn main() -> ExitCode {
    let words: Vec<String> = std::env::args().skip(1).collect();
    let (out, status) = match answer(&words) {
        Ok(out) => (out, 0),
        Err(Stop(text, status)) => (text.into_bytes(), status),
    };
    match io::stdout().write_all(&out) {
        Ok(()) => ExitCode::from(status),
        Err(_) => ExitCode::from(3),
    }
}
