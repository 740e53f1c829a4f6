//! What a key may hold, and what a command may be answered.

use crate::resp::Value;

/// What a key holds.
#[derive(Clone, Debug, PartialEq)]
pub enum Held {
    /// Nothing.
    Nothing,
    /// The text of that version.
    Text(u64),
    /// A count.
    Count(i64),
    /// A list of texts of these versions.
    List(Vec<u64>),
}

/// A command on one key.
#[derive(Clone, Copy, Debug, PartialEq)]
pub enum Act {
    /// Reads it.
    Get,
    /// Sets the text of that version.
    Set(u64),
    /// Counts one more.
    Incr,
    /// Deletes it.
    Del,
    /// Appends the text of that version to a list.
    Push(u64),
    /// Waits for the first text of a list, and takes it.
    Pop,
}

/// What keys are for.
#[derive(Clone, Copy, Debug, PartialEq)]
pub enum Use {
    /// Texts are set.
    Text,
    /// It counts.
    Count,
    /// It is a list.
    List,
}

impl Held {
    /// What it holds after a command.
    pub fn after(&self, act: Act) -> Held {
        match (act, self) {
            (Act::Get, held) => held.clone(),
            (Act::Set(version), _) => Held::Text(version),
            (Act::Incr, Held::Count(count)) => Held::Count(count + 1),
            (Act::Incr, _) => Held::Count(1),
            (Act::Del, _) => Held::Nothing,
            (Act::Push(version), _) => Held::List([self.versions(), &[version]].concat()),
            (Act::Pop, _) => match self.versions() {
                [] | [_] => Held::Nothing,
                [_, rest @ ..] => Held::List(rest.to_vec()),
            },
        }
    }

    /// The versions of a list's texts.
    fn versions(&self) -> &[u64] {
        match self {
            Held::List(versions) => versions,
            _ => &[],
        }
    }

    /// Whether a read of it may answer this.
    pub fn is_read_as(&self, value: &Value, padding: &str) -> bool {
        match (self, value) {
            (Held::Nothing, Value::Nil) => true,
            (Held::Text(version), Value::Bulk(bytes)) => *bytes == text(*version, padding).into_bytes(),
            (Held::Count(count), Value::Bulk(bytes)) => *bytes == count.to_string().into_bytes(),
            (held, Value::List(values)) => {
                let all: Vec<Value> = held.versions().iter().map(|&version| bulk(version, padding)).collect();
                *values == all
            }
            _ => false,
        }
    }

    /// Whether a command on it may answer this.
    pub fn answers(&self, act: Act, value: &Value, padding: &str) -> bool {
        match (act, value) {
            (Act::Get, value) => self.is_read_as(value, padding),
            (Act::Set(_), Value::Status(status)) => status == "OK",
            (Act::Incr, Value::Int(count)) => self.after(act) == Held::Count(*count),
            (Act::Del, Value::Int(count)) => *count == i64::from(*self != Held::Nothing),
            (Act::Push(_), Value::Int(count)) => *count == 1 + self.versions().len() as i64,
            (Act::Pop, Value::Nil) => self.versions().is_empty(),
            (Act::Pop, Value::List(popped)) => {
                let first = self.versions().first().map(|&version| bulk(version, padding));
                first.is_some() && popped.get(1) == first.as_ref()
            }
            _ => false,
        }
    }
}

/// The text of a version.
pub fn text(version: u64, padding: &str) -> String {
    format!("v{version}:{padding}")
}

fn bulk(version: u64, padding: &str) -> Value {
    Value::Bulk(text(version, padding).into_bytes())
}

/// A key of a connection, and what it may hold.
pub struct Key {
    /// Its name, without the number of the key that it took the place of.
    pub stem: String,
    /// How many keys of that stem were given up.
    pub turn: u32,
    /// What it is for.
    pub purpose: Use,
    /// What it holds.
    pub held: Held,
}

impl Key {
    /// Its name.
    pub fn name(&self) -> String {
        format!("{}-{}", self.stem, self.turn)
    }
}

/// A key that was given up, since it is not known whether a command on it was done, and when: what it
/// may hold.
pub struct Loose {
    /// Its name, and what it is for.
    pub name: String,
    pub purpose: Use,
    /// What it may hold.
    pub may_hold: Vec<Held>,
}

impl Loose {
    /// A key, after commands that were not answered.
    pub fn new(key: &Key, acts: &[Act]) -> Loose {
        let mut may_hold = vec![key.held.clone()];
        for &act in acts {
            for at in 0..may_hold.len() {
                let after = may_hold[at].after(act);
                if !may_hold.contains(&after) {
                    may_hold.push(after);
                }
            }
        }
        Loose { name: key.name(), purpose: key.purpose, may_hold }
    }
}

#[cfg(test)]
mod tests {
    use super::*;

    #[test]
    fn answers_are_judged() {
        let bulk = |text: &str| Value::Bulk(text.as_bytes().to_vec());
        assert!(Held::Text(3).answers(Act::Get, &bulk("v3:x"), "x"));
        assert!(!Held::Text(3).answers(Act::Get, &bulk("v2:x"), "x"));
        assert!(!Held::Text(3).answers(Act::Get, &Value::Nil, "x"));
        assert!(Held::Count(4).answers(Act::Incr, &Value::Int(5), "x"));
        assert!(!Held::Count(4).answers(Act::Incr, &Value::Int(4), "x"));
        assert!(Held::Nothing.answers(Act::Del, &Value::Int(0), "x"));
        assert!(!Held::Nothing.answers(Act::Del, &Value::Int(1), "x"));
    }

    #[test]
    fn lists_keep_their_order() {
        let list = Held::Nothing.after(Act::Push(1)).after(Act::Push(2));
        let popped = |version| Value::List(vec![Value::Bulk(b"k".to_vec()), bulk(version, "x")]);
        assert!(list.answers(Act::Pop, &popped(1), "x") && !list.answers(Act::Pop, &popped(2), "x"));
        assert!(!list.answers(Act::Pop, &Value::Nil, "x"));
        let rest = list.after(Act::Pop);
        assert!(rest.answers(Act::Push(3), &Value::Int(2), "x"));
        assert!(rest.is_read_as(&Value::List(vec![bulk(2, "x")]), "x"));
        let none = rest.after(Act::Pop);
        assert_eq!(none, Held::Nothing);
        assert!(none.answers(Act::Pop, &Value::Nil, "x") && none.is_read_as(&Value::List(vec![]), "x"));
    }

    #[test]
    fn each_command_of_a_loose_key_may_be_done() {
        let key = |held| Key { stem: "k".into(), turn: 0, purpose: Use::Count, held };
        let loose = Loose::new(&key(Held::Count(1)), &[Act::Incr, Act::Incr]);
        assert_eq!(loose.may_hold, [Held::Count(1), Held::Count(2), Held::Count(3)]);
        let loose = Loose::new(&key(Held::Nothing), &[Act::Set(1), Act::Del]);
        assert_eq!(loose.may_hold, [Held::Nothing, Held::Text(1)]);
    }
}
