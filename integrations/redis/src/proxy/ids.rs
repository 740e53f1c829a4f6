//! The IDs `$` of an `XREAD` that waits. Each is the last ID of its stream when the command came. A wait may be sent several
//! times, and to several partitions, so it is sent on with what `$` was at first. Else entries between two of them were
//! missed.

use super::commands::Keys;
use super::plan::{Plan, Words};
use crate::resp::{push, Value};

/// The ID of a stream that has had no entry.
const NONE: &[u8] = b"0-0";

/// The IDs of a command that are to be found, and those that were.
#[derive(Default)]
pub struct Ids {
    /// The indices of each one and of its stream's key.
    open: Vec<(usize, usize)>,
    /// The indices of the others, and what takes their place.
    known: Vec<(usize, Vec<u8>)>,
}

impl Ids {
    /// Those of a command that waits.
    pub fn of(plan: &Plan, words: Words) -> Ids {
        let command = plan.command();
        let places = command.places(words.count(), |at| words.at(at));
        if command.keys != Keys::Streams || command.name != "XREAD" {
            return Ids::default();
        }
        let keys: Vec<usize> = places.map(Iterator::collect).unwrap_or_default();
        let pairs = keys.iter().map(|&key| (key + keys.len(), key));
        Ids { open: pairs.filter(|&(id, _)| words.at(id) == b"$").collect(), known: Vec::new() }
    }

    /// Whether some are to be found.
    pub fn are_open(&self) -> bool {
        !self.open.is_empty()
    }

    /// Appends the questions that find them: how many these are.
    pub fn ask(&self, words: Words, out: &mut Vec<u8>) -> usize {
        for &(_, key) in &self.open {
            push(out, &[b"XREVRANGE", words.at(key), b"+", b"-", b"COUNT", b"1"]);
        }
        self.open.len()
    }

    /// Takes the list of their answers. No entry lies between the last one and the last ID, so both say the same.
    ///
    /// # Errors
    ///
    /// The list has an error, which answers the command.
    pub fn take(&mut self, answers: &[u8]) -> Result<(), Vec<u8>> {
        let answers = Value::read(answers).ok().flatten().map(|(list, _)| list.list()).unwrap_or_default();
        if let Some(Value::Error(text)) = answers.iter().find(|it| matches!(it, Value::Error(_))) {
            return Err(crate::resp::error(text));
        }
        for ((id, _), entries) in self.open.drain(..).zip(answers) {
            let last = entries.list().into_iter().next().and_then(|entry| entry.list().into_iter().next());
            self.known.push((id, last.map_or(NONE.to_vec(), Value::bytes)));
        }
        Ok(())
    }

    /// The words of the command with those that are known.
    pub fn words(&self, words: Words) -> Vec<Vec<u8>> {
        let mut all = words.all();
        for (at, id) in &self.known {
            all[*at].clone_from(id);
        }
        all
    }
}

#[cfg(test)]
mod tests {
    use super::*;
    use crate::resp::Parser;

    #[test]
    fn ids_are_found_once() {
        let line = ["XREAD", "BLOCK", "5", "STREAMS", "1:0:a", "1:0:b", "1:0:c", "$", "7-7", "$"];
        let mut bytes = Vec::new();
        push(&mut bytes, &line);
        let mut parser = Parser::default();
        parser.read(&bytes, 100).unwrap();
        let words = Words { bytes: &bytes, places: parser.words() };
        let mut ids = Ids::of(&Plan::of(words).unwrap(), words);
        let (mut asked, mut wanted) = (Vec::new(), Vec::new());
        assert_eq!(ids.ask(words, &mut asked), 2);
        for key in ["1:0:a", "1:0:c"] {
            push(&mut wanted, &["XREVRANGE", key, "+", "-", "COUNT", "1"]);
        }
        assert_eq!(asked, wanted);
        assert_eq!(ids.take(b"*2\r\n*0\r\n-WRONGTYPE no\r\n"), Err(b"-WRONGTYPE no\r\n".to_vec()));
        let answers = b"*2\r\n*0\r\n*1\r\n*2\r\n$3\r\n5-1\r\n*2\r\n$1\r\nf\r\n$1\r\nv\r\n";
        assert!(ids.take(answers).is_ok() && !ids.are_open());
        let known = ids.words(words).split_off(7);
        assert_eq!(known, [&b"0-0"[..], b"7-7", b"5-1"]);
    }
}
