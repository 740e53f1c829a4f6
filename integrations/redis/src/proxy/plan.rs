//! What a command asks for: the keys that it touches, and how its answer is made.

use super::commands::{find, Command, Guard, Keys, Split};
use super::pages;
use super::topics::Topic;
use crate::keymap;
use crate::mover::is_own;
use crate::resp::{error, push};
use squall::Rank;
use std::ops::Range;

/// The words of a command in the bytes of a client.
#[derive(Clone, Copy)]
pub struct Words<'a> {
    /// The bytes, which begin with the command.
    pub bytes: &'a [u8],
    /// The places of the words.
    pub places: &'a [Range<usize>],
}

impl<'a> Words<'a> {
    /// How many there are.
    pub fn count(&self) -> usize {
        self.places.len()
    }

    /// All of them.
    pub fn all(&self) -> Vec<Vec<u8>> {
        (0..self.count()).map(|at| self.at(at).to_vec()).collect()
    }

    /// The word of that index, which is there.
    pub fn at(&self, index: usize) -> &'a [u8] {
        &self.bytes[self.places[index].clone()]
    }
}

/// How a command is done.
pub enum Plan {
    /// As it is: all its keys have one rank.
    One(&'static Command, Rank),
    /// As it is, at any partition: it has no key. The rank is that of the empty key, by which all proxies ask one.
    Free(&'static Command, Rank),
    /// As it is, if all its keys are at one partition.
    Joint(&'static Command, Vec<Rank>),
    /// In parts, one for each key.
    Parts(&'static Command, Split, Vec<Part>),
}

/// A part of a command that is split.
pub struct Part {
    /// The rank of its key.
    pub rank: Rank,
    /// The indices of its key, and of what comes with the key.
    pub words: Range<usize>,
}

impl Plan {
    /// The plan of a command, or the error that answers it.
    pub fn of(words: Words) -> Result<Plan, Vec<u8>> {
        let name = words.at(0);
        let Some(command) = find(name) else {
            return Err(error(&format!("ERR this proxy does not serve the command '{}'", shown(name))));
        };
        let wrong = |why| error(&format!("ERR {why} for '{}' command", shown(name)));
        let is_function = command.name.starts_with("FCALL") && words.count() > 1;
        if is_function && words.at(1).starts_with(b"squall_") {
            return Err(error("ERR functions that begin with 'squall_' are the partition's own"));
        }
        let places = command.places(words.count(), |at| words.at(at));
        let mut places = places.map_err(wrong)?;
        let Some(first) = places.next() else {
            return Ok(Plan::Free(command, keymap::rank(b"")));
        };
        if command.keys == Keys::Channel {
            return channel(words.at(first)).map(|rank| Plan::One(command, rank));
        }
        let rank = rank_at(words, first)?;
        let mut ranks = vec![];
        for at in places {
            let next = rank_at(words, at)?;
            if next != rank || command.split.is_some() {
                ranks.push((at, next));
            }
        }
        Ok(if ranks.iter().all(|&(_, other)| other == rank) {
            Plan::One(command, rank)
        } else if let Some(split) = command.split {
            ranks.insert(0, (first, rank));
            Plan::Parts(command, split, parts(&ranks, words.count()))
        } else {
            let mut all: Vec<Rank> = ranks.into_iter().map(|(_, rank)| rank).collect();
            all.push(rank);
            all.sort_unstable();
            all.dedup();
            Plan::Joint(command, all)
        })
    }

    /// The command.
    pub fn command(&self) -> &'static Command {
        match self {
            Plan::One(command, _)
            | Plan::Free(command, _)
            | Plan::Joint(command, _)
            | Plan::Parts(command, _, _) => command,
        }
    }

    /// The ranks of all its keys.
    pub fn all_ranks(&self) -> Vec<Rank> {
        (0..self.len()).flat_map(|part| self.ranks(part)).copied().collect()
    }

    /// How many requests it takes.
    pub fn len(&self) -> usize {
        match self {
            Plan::Parts(_, _, parts) => parts.len(),
            _ => 1,
        }
    }

    /// The ranks of a request, of which there is at least one.
    pub fn ranks(&self, part: usize) -> &[Rank] {
        match self {
            Plan::One(_, rank) | Plan::Free(_, rank) => std::slice::from_ref(rank),
            Plan::Joint(_, ranks) => ranks,
            Plan::Parts(_, _, parts) => std::slice::from_ref(&parts[part].rank),
        }
    }

    /// Whether it is done where its key is routed, also while that moves: it is about no key.
    pub fn is_free(&self) -> bool {
        self.command().keys == Keys::Channel
    }

    /// Whether a script may do it for a client of that protocol, without a change of its reply.
    pub fn may_be_guarded(&self, is_resp3: bool) -> bool {
        match self.command().guard {
            Guard::Both | Guard::Two => true,
            Guard::Resp2 => !is_resp3,
            Guard::Never => false,
        }
    }

    /// Whether it reads a page of a walk over the members of a key.
    pub fn is_page(&self) -> bool {
        pages::is_walk(self.command())
    }

    /// Appends a request to the partition `to` as a plain command. The whole one has `len` bytes.
    pub fn put(&self, out: &mut Vec<u8>, (part, to): (usize, u32), words: Words, len: usize) {
        let mut cursor = String::new();
        match self {
            Plan::Parts(_, _, parts) => push(out, &part_words(&parts[part], words)),
            _ if self.is_page() => push(out, &page_words(words, to, &mut cursor)),
            _ => out.extend_from_slice(&words.bytes[..len]),
        }
    }

    /// Appends a request by the guard of the partition `to` in the course `number`.
    pub fn put_guarded(
        &self,
        out: &mut Vec<u8>,
        (part, to): (usize, u32),
        words: Words,
        (number, is_resp3): (u32, bool),
    ) {
        let mut cursor = String::new();
        let ranks = self.ranks(part);
        let proto = if is_resp3 && self.command().guard == Guard::Both { "3" } else { "2" };
        let texts: Vec<String> = [number.to_string(), proto.into(), ranks.len().to_string()]
            .into_iter()
            .chain(ranks.iter().map(|&rank| keymap::hex(rank)))
            .collect();
        let mut all: Vec<&[u8]> = vec![b"FCALL", self.command().function().as_bytes(), b"0"];
        all.extend(texts.iter().map(|text| text.as_bytes()));
        match self {
            Plan::Parts(_, _, parts) => all.extend(part_words(&parts[part], words)),
            _ if self.is_page() => all.extend(page_words(words, to, &mut cursor)),
            _ => all.extend((0..words.count()).map(|at| words.at(at))),
        }
        push(out, &all);
    }
}

/// The words of a command that reads a page, with the cursor of a partition.
fn page_words<'a>(words: Words<'a>, to: u32, cursor: &'a mut String) -> Vec<&'a [u8]> {
    let mut all: Vec<&[u8]> = (0..words.count()).map(|at| words.at(at)).collect();
    pages::ask(&mut all, to, cursor);
    all
}

/// The words of a part.
fn part_words<'a>(part: &Part, words: Words<'a>) -> Vec<&'a [u8]> {
    let own = part.words.clone().map(|at| words.at(at));
    std::iter::once(words.at(0)).chain(own).collect()
}

/// The parts of keys at these places. What is between two keys comes with the first one.
fn parts(keys: &[(usize, Rank)], count: usize) -> Vec<Part> {
    let ends = keys.iter().skip(1).map(|&(at, _)| at).chain([count]);
    let parts = keys.iter().zip(ends);
    parts.map(|(&(at, rank), end)| Part { rank, words: at..end }).collect()
}

/// The rank of a key that has the name of a channel.
fn channel(name: &[u8]) -> Result<Rank, Vec<u8>> {
    if Topic::is_own(name) {
        return Err(error("ERR channels that begin with '__key' are the servers' own"));
    }
    Ok(keymap::rank(name))
}

fn rank_at(words: Words, at: usize) -> Result<Rank, Vec<u8>> {
    let key = words.at(at);
    if is_own(key) {
        return Err(error("ERR keys that begin with 'squall:' are the partition's own"));
    }
    Ok(keymap::rank(key))
}

/// A name as a client may read it: printable, and not long.
pub fn shown(name: &[u8]) -> String {
    let name = &name[..name.len().min(40)];
    name.iter().map(|&byte| if byte.is_ascii_graphic() { byte as char } else { '?' }).collect()
}

#[cfg(test)]
mod tests {
    use super::*;
    use crate::resp::Parser;

    fn with_plan<T>(line: &str, see: impl FnOnce(Result<Plan, String>, Words, usize) -> T) -> T {
        let words: Vec<&str> = line.split(' ').collect();
        let mut bytes = Vec::new();
        push(&mut bytes, &words);
        let mut parser = Parser::default();
        parser.read(&bytes, 100).unwrap();
        let words = Words { bytes: &bytes, places: parser.words() };
        let plan = Plan::of(words).map_err(|error| String::from_utf8(error).unwrap());
        see(plan, words, parser.len())
    }

    fn kind(line: &str) -> String {
        with_plan(line, |plan, _, _| match plan {
            Ok(Plan::One(_, rank)) => format!("one {rank}"),
            Ok(Plan::Free(..)) => "free".into(),
            Ok(Plan::Joint(_, ranks)) => format!("joint {}", ranks.len()),
            Ok(Plan::Parts(_, split, parts)) => format!("{split:?} {}", parts.len()),
            Err(error) => error,
        })
    }

    #[test]
    fn plans_are_made() {
        assert_eq!(kind("get 2:7"), "one 2:7");
        assert_eq!(kind("RENAME 2:7:a 2:7:b"), "one 2:7");
        assert_eq!(kind("MGET 2:7:a 2:7:b"), "one 2:7");
        assert_eq!(kind("RENAME 2:7 2:8"), "joint 2");
        assert_eq!(kind("SINTER 1:1 1:2 1:1"), "joint 2");
        assert_eq!(kind("MGET 2:7 2:7 2:8"), "List 3");
        assert_eq!(kind("MSET 2:7 a 2:8 b"), "Done 2");
        assert_eq!(kind("del 1:1 1:2"), "Sum 2");
        assert_eq!(kind("EVAL x 0 2:7"), "free");
        assert_eq!(kind("SORT 2:7 STORE 2:8"), "joint 2");
        assert_eq!(kind("XREAD STREAMS 2:7 2:7:a 0 0"), "one 2:7");
        assert!(kind("SORT 2:7 BY w_*").starts_with("-ERR a pattern of BY or GET"));
        assert!(kind("SORT 2:7 STORE squall:x").starts_with("-ERR keys that begin"));
        assert!(kind("KEYS *").starts_with("-ERR this proxy does not serve"));
        assert!(kind("GET squall:number").starts_with("-ERR keys that begin"));
        assert!(kind("MSET 2:7 a 2:8").starts_with("-ERR wrong number"));
    }

    #[test]
    fn requests_are_written() {
        with_plan("MSET 2:7 a 2:8 b", |plan, words, len| {
            let mut out = Vec::new();
            plan.unwrap().put(&mut out, (1, 1), words, len);
            assert_eq!(out, b"*3\r\n$4\r\nMSET\r\n$3\r\n2:8\r\n$1\r\nb\r\n");
        });
        with_plan("GET 2:7", |plan, words, len| {
            let plan = plan.unwrap();
            let (mut plain, mut guarded, mut wanted) = (Vec::new(), Vec::new(), Vec::new());
            plan.put(&mut plain, (0, 1), words, len);
            assert_eq!(plain, words.bytes);
            plan.put_guarded(&mut guarded, (0, 1), words, (5, true));
            let all = ["FCALL", "squall_read", "0", "5", "3", "1", "0000000200000007", "GET", "2:7"];
            push(&mut wanted, &all);
            assert_eq!(guarded, wanted);
        });
        // Partition 1 has given the cursor 5.
        with_plan("HSCAN 2:7 81922", |plan, words, len| {
            let plan = plan.unwrap();
            for (to, cursor) in [(1, "5"), (2, "0")] {
                let (mut out, mut wanted) = (Vec::new(), Vec::new());
                plan.put(&mut out, (0, to), words, len);
                push(&mut wanted, &["HSCAN", "2:7", cursor]);
                assert_eq!(out, wanted);
            }
        });
    }
}
