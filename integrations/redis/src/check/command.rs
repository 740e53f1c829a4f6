//! The commands of a load, and which answers to them are right.

use super::key::{text, Act, Held, Key, Use};
use super::load::{Load, Session};
use crate::resp::Value;

/// Keys of a command that has many.
const MANY: usize = 5;
/// How long a command waits for a text of a list.
const WAIT: &str = "0.01";
/// Sets the second key, and counts by the first one.
const SCRIPT: &str = "redis.call('SET', KEYS[2], ARGV[1]) return redis.call('INCR', KEYS[1])";

/// How a command's answer says what became of its keys.
#[derive(Clone, Copy, PartialEq)]
enum Form {
    /// It is that of its one act.
    One,
    /// It has one for each act.
    List,
    /// It is one OK for all acts.
    Done,
    /// It is that of its last act.
    Last,
    /// It has one for each act, or nothing was done.
    ListOrNothing,
}

/// A command: its lines, of which the last one has the answer, and what it does to its keys, in order.
pub struct Command {
    /// The words of each line.
    pub lines: Vec<Vec<String>>,
    /// The keys, and what is done to each.
    pub acts: Vec<(usize, Act)>,
    form: Form,
}

impl Command {
    fn one(words: &[&str], key: usize, act: Act) -> Command {
        Command { lines: vec![line(words)], acts: vec![(key, act)], form: Form::One }
    }

    /// Its first words, as a fault shows them.
    pub fn name(&self) -> String {
        self.lines.iter().map(|line| line[..line.len().min(2)].join(" ")).collect::<Vec<_>>().join(", ")
    }

    /// Whether some of it may be done and some not.
    pub fn is_split(&self) -> bool {
        self.acts.len() > 1 && self.lines.len() == 1 && self.form != Form::Last
    }

    /// What the keys hold after it, in order; none if the answer can't be right.
    pub fn judge<'a>(
        &self,
        answer: &Value,
        padding: &str,
        held: impl Fn(usize) -> &'a Held,
    ) -> Option<Vec<(usize, Held)>> {
        if self.form == Form::ListOrNothing && *answer == Value::Nil {
            return Some(Vec::new());
        }
        let mut after: Vec<(usize, Held)> = Vec::new();
        for (at, &(key, act)) in self.acts.iter().enumerate() {
            let before = after.iter().rev().find(|(other, _)| *other == key);
            let before = before.map_or_else(|| held(key).clone(), |(_, held)| held.clone());
            let own = self.answer_of(at, answer)?;
            if !own.is_none_or(|own| before.answers(act, own, padding)) {
                return None;
            }
            after.push((key, before.after(act)));
        }
        Some(after)
    }

    /// The answer to that act, if there is one of its own; none if the answer has another form.
    fn answer_of<'a>(&self, at: usize, answer: &'a Value) -> Option<Option<&'a Value>> {
        let is_last = at + 1 == self.acts.len();
        match (self.form, answer) {
            (Form::One | Form::Done, _) => Some(Some(answer)),
            (Form::Last, _) => Some(Some(answer).filter(|_| is_last)),
            (Form::List | Form::ListOrNothing, Value::List(all)) if all.len() == self.acts.len() => {
                Some(Some(&all[at]))
            }
            _ => None,
        }
    }
}

fn line(words: &[&str]) -> Vec<String> {
    words.iter().map(|word| word.to_string()).collect()
}

impl Load<'_> {
    /// A key that no other connection has. One of four is mapped by a hash, the others by a pair. One of
    /// sixteen is a list. Of each eight a count and a text have one pair.
    pub fn key(&self, own: u64, at: usize) -> Key {
        let place = (at - usize::from(at % 8 == 6)) as u64 * 1009 + own;
        let stem = if at % 4 == 3 {
            format!("{}{own}:{at}", self.prefix)
        } else {
            let twin = if at % 8 == 6 { "t" } else { "" };
            format!("{}:{}:{}{own}{twin}", place % self.roots, place / self.roots, self.prefix)
        };
        let purpose = match at % 16 {
            5 | 13 => Use::Count,
            7 => Use::List,
            _ => Use::Text,
        };
        Key { stem, turn: 0, purpose, held: Held::Nothing }
    }
}

impl Session<'_> {
    /// The next command.
    pub(super) fn command(&mut self) -> Command {
        let key = self.dice.below(self.keys.len() as u64) as usize;
        match self.dice.below(100) {
            0..=2 => self.many("MGET"),
            3..=5 => self.many("MSET"),
            6..=8 => self.together(),
            kind => self.single(key, kind),
        }
    }

    /// A command on one key.
    fn single(&mut self, key: usize, kind: u64) -> Command {
        let name = self.keys[key].name();
        let is_empty = self.keys[key].held == Held::Nothing;
        match (self.keys[key].purpose, kind) {
            (Use::List, _) if is_empty || kind < 55 => {
                let version = self.next_version();
                let text = text(version, &self.load.padding);
                Command::one(&["RPUSH", &name, &text], key, Act::Push(version))
            }
            (Use::List, _) => Command::one(&["BLPOP", &name, WAIT], key, Act::Pop),
            (_, ..=39) => Command::one(&["GET", &name], key, Act::Get),
            (_, 40..=47) => Command::one(&["DEL", &name], key, Act::Del),
            (Use::Count, _) => Command::one(&["INCR", &name], key, Act::Incr),
            (Use::Text, _) => {
                let version = self.next_version();
                let text = text(version, &self.load.padding);
                Command::one(&["SET", &name, &text], key, Act::Set(version))
            }
        }
    }

    /// A transaction or a script on a count and a text of one pair.
    fn together(&mut self) -> Command {
        let eights = self.keys.len() as u64 / 8;
        let count = self.dice.below(eights) as usize * 8 + 5;
        let (own, twin) = (self.keys[count].name(), self.keys[count + 1].name());
        let version = self.next_version();
        let text = text(version, &self.load.padding);
        let (incr, set) = ((count, Act::Incr), (count + 1, Act::Set(version)));
        let body = [line(&["INCR", &own]), line(&["SET", &twin, &text]), line(&["GET", &own])];
        let acts = vec![incr, set, (count, Act::Get)];
        let transaction = [vec![line(&["MULTI"])], body.to_vec(), vec![line(&["EXEC"])]].concat();
        match self.dice.below(3) {
            0 => Command { lines: transaction, acts, form: Form::List },
            1 => {
                let watch = vec![line(&["WATCH", &own, &twin]), line(&["GET", &own])];
                Command { lines: [watch, transaction].concat(), acts, form: Form::ListOrNothing }
            }
            _ => {
                let words = line(&["EVAL", SCRIPT, "2", &own, &twin, &text]);
                Command { lines: vec![words], acts: vec![set, incr], form: Form::Last }
            }
        }
    }

    fn next_version(&mut self) -> u64 {
        self.version += 1;
        self.version
    }

    /// A command on several keys that hold texts.
    fn many(&mut self, name: &str) -> Command {
        let mut words = vec![name.to_string()];
        let mut acts: Vec<(usize, Act)> = Vec::new();
        while acts.len() < MANY {
            let key = self.dice.below(self.keys.len() as u64) as usize;
            if self.keys[key].purpose != Use::Text || acts.iter().any(|&(other, _)| other == key) {
                continue;
            }
            words.push(self.keys[key].name());
            let mut act = Act::Get;
            if name == "MSET" {
                let version = self.next_version();
                words.push(text(version, &self.load.padding));
                act = Act::Set(version);
            }
            acts.push((key, act));
        }
        let form = if name == "MGET" { Form::List } else { Form::Done };
        Command { lines: vec![words], acts, form }
    }
}

#[cfg(test)]
mod tests {
    use super::*;

    fn judged(form: Form, answer: Value) -> Option<Vec<(usize, Held)>> {
        let acts = vec![(0, Act::Incr), (1, Act::Set(7)), (0, Act::Get)];
        let command = Command { lines: vec![], acts, form };
        command.judge(&answer, "x", |_| &Held::Nothing)
    }

    #[test]
    fn transactions_are_judged_as_a_whole() {
        let (ok, one) = (Value::Status("OK".into()), Value::Bulk(b"1".to_vec()));
        let all = Value::List(vec![Value::Int(1), ok.clone(), one.clone()]);
        let after = vec![(0, Held::Count(1)), (1, Held::Text(7)), (0, Held::Count(1))];
        assert_eq!(judged(Form::List, all.clone()), Some(after.clone()));
        assert_eq!(judged(Form::ListOrNothing, all), Some(after.clone()));
        assert_eq!(judged(Form::ListOrNothing, Value::Nil), Some(vec![]));
        assert_eq!(judged(Form::List, Value::Nil), None);
        assert_eq!(judged(Form::List, Value::List(vec![Value::Int(1), ok.clone()])), None);
        assert_eq!(judged(Form::List, Value::List(vec![Value::Int(2), ok, one.clone()])), None);
        assert_eq!(judged(Form::Last, one), Some(after));
    }
}
