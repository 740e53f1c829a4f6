//! When the loads of a destination are on its disk. Only then may the source forget them: otherwise a destination
//! whose machine crashes comes back without rows that nobody else has.

use super::partition::Partition;
use super::steps::Step;
use crate::conn::{Conn, Server};
use crate::course::Move;
use crate::fault::{Done, Fault};
use crate::resp::Value;
use crate::stop;
use std::mem;
use std::time::{Duration, Instant};

/// How old a write is on the disk of a server that flushes its log each second. It may be one second late.
const LAG: Duration = Duration::from_secs(2);
/// How long a server may take to say that it is.
const PATIENCE: &str = "20000";

/// A load that the source has not forgotten.
#[derive(Clone, Copy, Debug)]
pub struct Loaded {
    /// Its move.
    pub it: Move,
    /// How far it brought the destination.
    pub step: Step,
}

/// How it is known.
enum Rule {
    /// The answer to a load says it, or the server has no log.
    AtOnce,
    /// By the time that has passed.
    After,
    /// The server is asked (WAITAOF), on a connection of its own, which waits meanwhile.
    Ask(Box<Conn>),
}

/// The loads of a destination that may not be on its disk.
pub struct Disk {
    part: u32,
    rule: Rule,
    waiting: Vec<Loaded>,
    /// How many of them there were when it was looked last, and when that was.
    asked: Option<(usize, Instant)>,
    /// When the last one came.
    last: Instant,
}

impl Disk {
    /// That of a destination, none of whose loads are known.
    pub fn of(dest: &mut Partition, server: &Server) -> Done<Disk> {
        let mut setting = |name| -> Done<String> {
            let said = dest.ask(&["CONFIG", "GET", name])?.list().pop();
            Ok(said.map_or(String::new(), Value::text))
        };
        let is_late = setting("appendonly")? == "yes" && setting("appendfsync")? == "everysec";
        let rule = match is_late {
            false => Rule::AtOnce,
            true if can_be_asked(dest)? => Rule::Ask(Box::new(Conn::open(server)?)),
            true => Rule::After,
        };
        Ok(Disk { part: dest.part, rule, waiting: Vec::new(), asked: None, last: Instant::now() })
    }

    /// Adds a load.
    pub fn add(&mut self, load: Loaded) {
        let is_asked = self.asked.is_some_and(|(count, _)| count == self.waiting.len());
        let last = self.waiting.last_mut().filter(|last| last.it.lo == load.it.lo && !is_asked);
        match last {
            Some(last) => last.step = load.step,
            None => self.waiting.push(load),
        }
        self.last = Instant::now();
    }

    /// Takes those that are on the disk by now. It does not wait.
    pub fn take(&mut self) -> Done<Vec<Loaded>> {
        if let Rule::AtOnce = self.rule {
            return Ok(mem::take(&mut self.waiting));
        }
        let mut taken = Vec::new();
        if let Some((count, _)) = self.asked.filter(|(_, since)| since.elapsed() >= LAG) {
            self.hear()?;
            taken = self.waiting.drain(..count).collect();
        }
        if self.asked.is_none() && !self.waiting.is_empty() {
            self.ask()?;
        }
        Ok(taken)
    }

    /// Waits until all are on the disk, and takes them.
    ///
    /// # Errors
    ///
    /// The mover was asked to end before that.
    pub fn rest(&mut self) -> Done<Vec<Loaded>> {
        match self.rule {
            _ if self.waiting.is_empty() => {}
            Rule::AtOnce => {}
            Rule::After => {
                stop::sleep(LAG.saturating_sub(self.last.elapsed()));
                stop::check()?;
            }
            Rule::Ask(_) => {
                self.hear()?;
                self.ask()?;
                self.hear()?;
            }
        }
        self.asked = None;
        Ok(mem::take(&mut self.waiting))
    }

    /// Asks the server to say when all writes before are on its disk. The log has one order, so a mark in it is
    /// enough.
    fn ask(&mut self) -> Done<()> {
        self.asked = Some((self.waiting.len(), Instant::now()));
        if let Rule::Ask(conn) = &mut self.rule {
            conn.put(&["FCALL", "squall_mark", "0"]);
            conn.put(&["WAITAOF", "1", "0", PATIENCE]);
            conn.flush()?;
        }
        Ok(())
    }

    /// Hears what it was asked last, if it was.
    fn hear(&mut self) -> Done<()> {
        let is_asked = self.asked.take().is_some();
        let Rule::Ask(conn) = &mut self.rule else {
            return Ok(());
        };
        if !is_asked {
            return Ok(());
        }
        let said = conn.hear_all(2)?;
        match &said[..] {
            [Value::Status(_), Value::List(counts)] if counts.first() == Some(&Value::Int(1)) => Ok(()),
            _ => Err(Fault::new(format!(
                "partition {}: its log does not get to its disk: {said:?}",
                self.part
            ))),
        }
    }
}

/// Whether the server can say what is on its disk, as from version 7.2 on.
fn can_be_asked(dest: &mut Partition) -> Done<bool> {
    let said = dest.ask(&["COMMAND", "INFO", "waitaof"])?.list();
    Ok(said.iter().any(|it| matches!(it, Value::List(words) if !words.is_empty())))
}
