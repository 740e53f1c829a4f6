//! The load of one connection.

use super::command::Command;
use super::key::{Act, Held, Key, Loose, Use};
use crate::conn::{Conn, Server};
use crate::dice::Dice;
use crate::fault::note;
use crate::resp::Value;
use std::fmt;
use std::path::PathBuf;
use std::sync::atomic::{AtomicU64, Ordering::Relaxed};
use std::thread;
use std::time::Duration;

/// What all connections have counted.
#[derive(Default)]
pub struct Tally {
    /// Commands that were answered.
    pub commands: AtomicU64,
    /// Commands whose answer was an error, or did not come.
    pub errors: AtomicU64,
    /// Answers that can't be right.
    pub wrong: AtomicU64,
    /// Keys that in the end don't hold what they have to.
    pub lost: AtomicU64,
    /// Keys that could not be read in the end.
    pub unread: AtomicU64,
    shown: AtomicU64,
}

impl fmt::Display for Tally {
    fn fmt(&self, f: &mut fmt::Formatter<'_>) -> fmt::Result {
        let of = |count: &AtomicU64| count.load(Relaxed);
        let Tally { commands, errors, wrong, lost, unread, .. } = self;
        write!(
            f,
            "commands {} errors {} lost {} wrong {} unread {}",
            of(commands),
            of(errors),
            of(lost),
            of(wrong),
            of(unread)
        )
    }
}

impl Tally {
    /// Counts one, and shows the first few.
    fn fault(&self, count: &AtomicU64, words: impl FnOnce() -> String) {
        count.fetch_add(1, Relaxed);
        if self.shown.fetch_add(1, Relaxed) < 20 {
            note(words().chars().take(200).collect::<String>());
        }
    }
}

/// What all connections do.
pub struct Load<'a> {
    pub proxies: Vec<Server>,
    /// How many commands each of them makes.
    pub commands: u64,
    /// It goes on while this file is there.
    pub file: Option<PathBuf>,
    /// How many it sends at once.
    pub depth: usize,
    /// How many keys it has, and over how many roots they lie.
    pub keys: usize,
    pub roots: u64,
    pub padding: String,
    pub seed: u64,
    pub prefix: String,
    /// The pause between two rounds.
    pub pause: Duration,
    /// How often a key is read in the end, until it is answered.
    pub reads: u64,
    /// Whether answers may be missing, since what is tested is killed.
    pub is_tolerant: bool,
    pub tally: &'a Tally,
}

/// One connection.
pub(super) struct Session<'a> {
    pub(super) load: &'a Load<'a>,
    own: u64,
    pub(super) dice: Dice,
    conn: Option<Conn>,
    opened: usize,
    pub(super) keys: Vec<Key>,
    loose: Vec<Loose>,
    pub(super) version: u64,
}

impl Load<'_> {
    /// All that one connection does.
    pub fn run(&self, own: u64) {
        let keys = (0..self.keys).map(|at| self.key(own, at)).collect();
        let mut session = Session {
            load: self,
            own,
            dice: Dice::of(self.seed.wrapping_mul(1000).wrapping_add(own)),
            conn: None,
            opened: 0,
            keys,
            loose: Vec::new(),
            version: 0,
        };
        let mut made = 0;
        while made < self.commands || self.file.as_ref().is_some_and(|file| file.exists()) {
            made += session.round() as u64;
            thread::sleep(self.pause);
        }
        session.verify();
    }
}

impl Session<'_> {
    /// Sends some commands at once, and judges their answers: how many there were.
    fn round(&mut self) -> usize {
        let commands: Vec<Command> = (0..self.load.depth).map(|_| self.command()).collect();
        let words: Vec<&Vec<String>> = commands.iter().flat_map(|it| &it.lines).collect();
        let mut answers = self.ask(&words).into_iter();
        // The last line of a command has its answer.
        let ends = commands.iter().map_while(|it| answers.nth(it.lines.len() - 1));
        let answers: Vec<Value> = ends.collect();
        self.load.tally.commands.fetch_add(answers.len() as u64, Relaxed);
        let missing = commands.len() - answers.len();
        if missing > 0 {
            self.load.tally.errors.fetch_add(missing as u64, Relaxed);
            self.conn = None;
        }
        let mut unknown: Vec<(usize, Act)> = Vec::new();
        for (at, command) in commands.iter().enumerate() {
            let is_loose = |key: usize| unknown.iter().any(|&(other, _)| other == key);
            match answers.get(at) {
                // Its keys are judged as long as it is known what was done before.
                Some(answer) if !command.acts.iter().any(|&(key, _)| is_loose(key)) => {
                    if self.judge(command, answer) {
                        unknown.extend(&command.acts);
                    }
                }
                _ => unknown.extend(&command.acts),
            }
        }
        self.give_up(&unknown);
        commands.len()
    }

    /// The answers of as many commands as the proxy answers.
    fn ask<W: AsRef<[u8]>>(&mut self, commands: &[&Vec<W>]) -> Vec<Value> {
        let Some(conn) = self.connect() else {
            thread::sleep(Duration::from_millis(20));
            return Vec::new();
        };
        for words in commands {
            conn.put(words);
        }
        let mut answers = Vec::new();
        if conn.flush().is_ok() {
            while answers.len() < commands.len() {
                match conn.hear() {
                    Ok(answer) => answers.push(answer),
                    Err(_) => break,
                }
            }
        }
        answers
    }

    /// The connection, or another one to the next proxy.
    fn connect(&mut self) -> Option<&mut Conn> {
        if self.conn.is_none() {
            let all = &self.load.proxies;
            let server = &all[(self.own as usize + self.opened) % all.len()];
            self.opened += 1;
            self.conn = Conn::open(server).ok();
        }
        self.conn.as_mut()
    }

    /// Judges an answer, and notes what the keys hold after it: whether it is not known what was done.
    fn judge(&mut self, command: &Command, answer: &Value) -> bool {
        let tally = self.load.tally;
        if let Value::Error(error) = answer {
            if self.load.is_tolerant {
                tally.errors.fetch_add(1, Relaxed);
            } else {
                tally.fault(&tally.errors, || format!("error: {}: {error}", command.name()));
            }
            // A command that was refused in one piece was not done.
            return !error.starts_with("TRYAGAIN") || command.is_split();
        }
        let Some(after) = command.judge(answer, &self.load.padding, |key| &self.keys[key].held) else {
            tally.fault(&tally.wrong, || {
                let held: Vec<_> = command.acts.iter().map(|&(key, _)| &self.keys[key].held).collect();
                format!("wrong: {}: {answer:.60?}, held {held:?}", command.name())
            });
            // A count that is wrong once would be wrong for ever.
            return true;
        };
        for (key, held) in after {
            self.keys[key].held = held;
        }
        false
    }

    /// Gives up keys of which it is not known what was done, or when it will be, for new ones.
    fn give_up(&mut self, unknown: &[(usize, Act)]) {
        for at in 0..self.keys.len() {
            let acts: Vec<Act> = unknown.iter().filter(|&&(key, _)| key == at).map(|&(_, act)| act).collect();
            if acts.is_empty() {
                continue;
            }
            let key = &mut self.keys[at];
            self.loose.push(Loose::new(key, &acts));
            key.turn += 1;
            key.held = Held::Nothing;
        }
    }

    /// Reads each key once more.
    fn verify(&mut self) {
        let known: Vec<Loose> = self
            .keys
            .iter()
            .map(|key| Loose { name: key.name(), purpose: key.purpose, may_hold: vec![key.held.clone()] })
            .chain(std::mem::take(&mut self.loose))
            .collect();
        for key in known {
            let tally = self.load.tally;
            match self.read(&key) {
                None => tally.fault(&tally.unread, || format!("unread: {}", key.name)),
                Some(value) => {
                    let padding = &self.load.padding;
                    if !key.may_hold.iter().any(|held| held.is_read_as(&value, padding)) {
                        tally.fault(&tally.lost, || {
                            format!("lost: {} is {value:.60?}, and not {:?}", key.name, key.may_hold)
                        });
                    }
                }
            }
        }
    }

    /// What a key holds, once it is answered.
    fn read(&mut self, key: &Loose) -> Option<Value> {
        let words: &[&str] = match key.purpose {
            Use::List => &["LRANGE", &key.name, "0", "-1"],
            _ => &["GET", &key.name],
        };
        let words = words.to_vec();
        for _ in 0..self.load.reads {
            match self.ask(&[&words]).pop() {
                Some(Value::Error(_)) => thread::sleep(Duration::from_millis(20)),
                Some(value) => return Some(value),
                None => self.conn = None,
            }
        }
        None
    }
}
