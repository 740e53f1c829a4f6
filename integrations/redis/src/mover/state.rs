//! What a partition says of itself: how far it is, what it has seen of others, and since when its server runs.

use super::partition::{rank, Partition};
use crate::fault::{Done, Fault};
use crate::resp::Value;
use squall::Rank;
use std::collections::BTreeMap;

/// What a partition knows. One without a course, or of an earlier version of these programs, has zeros.
#[derive(Clone, Debug, Default)]
pub struct State {
    /// The number of its course.
    pub number: u32,
    /// Raised by each of its steps.
    pub generation: u64,
    /// The course of which it knows that it has begun at all partitions.
    pub fence: u32,
    /// The run of the server in which it let routers in last.
    pub run: Option<String>,
    /// The highest generation that was seen of other partitions.
    pub seen: BTreeMap<u32, u64>,
    /// The moves of its course, by rising key.
    pub moves: Vec<Stand>,
    /// Whether it gives nothing more in that course.
    pub is_closed: bool,
}

/// How far a partition is with a move.
#[derive(Clone, Debug)]
pub struct Stand {
    /// The first key.
    pub lo: Rank,
    /// Where the keys end.
    pub hi: Rank,
    /// How it takes part.
    pub role: Role,
    /// The partition at the other end, or the source.
    pub peer: u32,
    /// Below it keys were given, at a source, or loaded, at a destination.
    pub edge: Rank,
    /// Below it the source has forgotten them.
    pub forgot: Rank,
    /// How many rows the source has removed.
    pub gone: u64,
    /// The ranks that have moved ahead of the edge.
    pub pulled: BTreeMap<Rank, Pulled>,
}

/// How far a rank is that moves ahead of the edge.
#[derive(Clone, Copy, Debug, PartialEq)]
pub enum Pulled {
    /// The source has given its keys.
    Given,
    /// The destination has loaded its keys, and the source has removed that number of rows.
    Forgotten(u64),
    /// The destination has loaded its keys.
    Loaded,
}

/// How a partition takes part in a move.
#[derive(Clone, Copy, Debug, PartialEq)]
pub enum Role {
    /// The keys go from it.
    Out,
    /// They come to it.
    In,
    /// They go past it.
    Beside,
}

/// The run of a server, which ends when it is started anew.
#[derive(Clone, Debug, Default)]
pub struct Life {
    /// Its name.
    pub run: String,
    /// Whether the server writes a log. Otherwise it comes back with its last snapshot.
    pub has_log: bool,
}

impl State {
    /// Its stand with the move that begins there, if it is in that course.
    pub fn stand(&self, number: u32, lo: Rank) -> Option<&Stand> {
        let at = self.moves.binary_search_by_key(&lo, |it| it.lo).ok()?;
        self.moves.get(at).filter(|_| self.number == number)
    }

    fn read(said: Value) -> Option<State> {
        let mut words = said.list();
        let is_closed = words.len() > 6 && words.pop()?.text() == "closed";
        let [number, generation, fence, run, seen, moves] = <[Value; 6]>::try_from(words).ok()?;
        let seen: Vec<u64> =
            seen.list().into_iter().map(|it| it.text().parse().ok()).collect::<Option<_>>()?;
        let run = Some(run.text()).filter(|run| !run.is_empty());
        Some(State {
            number: number.text().parse().ok()?,
            generation: generation.text().parse().unwrap_or(0),
            fence: fence.text().parse().unwrap_or(0),
            run,
            seen: seen.chunks_exact(2).map(|pair| (pair[0] as u32, pair[1])).collect(),
            moves: moves.list().into_iter().map(|line| Stand::read(&line.text())).collect::<Option<_>>()?,
            is_closed,
        })
    }
}

impl Stand {
    /// Whether a key of that rank was given, at a source, or loaded, at a destination.
    pub fn has_passed(&self, rank: Rank) -> bool {
        rank < self.edge || self.pulled.contains_key(&rank)
    }

    /// The ranks that are so far ahead of the edge.
    pub fn ahead(&self, is_so_far: fn(&Pulled) -> bool) -> impl Iterator<Item = Rank> + '_ {
        self.pulled.iter().filter(move |(_, it)| is_so_far(it)).map(|(&rank, _)| rank)
    }

    fn read(line: &str) -> Option<Stand> {
        let words: Vec<&str> = line.split(' ').collect();
        let [lo, hi, role, peer, edge, forgot, gone, pulled @ ..] = &words[..] else {
            return None;
        };
        Some(Stand {
            lo: rank(lo)?,
            hi: rank(hi)?,
            role: match *role {
                "out" => Role::Out,
                "in" => Role::In,
                _ => Role::Beside,
            },
            peer: peer.parse().ok()?,
            edge: rank(edge)?,
            forgot: rank(forgot)?,
            gone: gone.parse().ok()?,
            pulled: pulled.iter().map(|word| read_pulled(word)).collect::<Option<_>>()?,
        })
    }
}

/// A rank and how far it is.
fn read_pulled(word: &str) -> Option<(Rank, Pulled)> {
    let (digits, state) = word.split_once(':')?;
    let pulled = match state {
        "given" => Pulled::Given,
        "loaded" => Pulled::Loaded,
        state => Pulled::Forgotten(state.strip_prefix("forgotten:")?.parse().ok()?),
    };
    Some((rank(digits)?, pulled))
}

impl Life {
    /// Whether a server that says this of itself is loading its data.
    pub fn is_loading(info: &str) -> bool {
        info.lines().any(|line| line.trim() == "loading:1")
    }

    /// What a server says of itself.
    pub fn read(info: &str) -> Option<Life> {
        let field = |name: &str| info.lines().find_map(|line| line.strip_prefix(name)).map(str::trim);
        Some(Life { run: field("run_id:")?.to_string(), has_log: field("aof_enabled:")? != "0" })
    }
}

impl Partition {
    /// What it says of itself.
    pub fn state(&mut self) -> Done<State> {
        // A server that has lost all it had has no functions either. A mover loads them, and a supervisor does not.
        let is_empty = self.ask(&["EXISTS", "squall:number"])?.text() == "0";
        if is_empty && self.ask(&["FUNCTION", "LIST", "LIBRARYNAME", "squall"])?.list().is_empty() {
            return Ok(State::default());
        }
        let said = self.ask(&["FCALL", "squall_state", "0"])?;
        State::read(said)
            .ok_or_else(|| Fault::new(format!("partition {}: a state of another form", self.part)))
    }
}

#[cfg(test)]
mod tests {
    use super::*;

    #[test]
    fn a_state_is_read() {
        let bulk = |text: &str| Value::Bulk(text.into());
        let line = "0000000200000000 0000000300000000 out 3 0000000200000005 0000000200000000 7";
        let lists = [Value::List(vec![bulk("3"), bulk("9")]), Value::List(vec![bulk(line)])];
        let mut said = [bulk("2"), bulk("5"), bulk(""), bulk("abc")].to_vec();
        said.extend(lists);
        let state = State::read(Value::List(said.clone())).unwrap();
        assert_eq!((state.number, state.generation, state.fence, state.is_closed), (2, 5, 0, false));
        said.push(bulk("closed"));
        assert!(State::read(Value::List(said)).unwrap().is_closed);
        assert_eq!((state.run.as_deref(), state.seen.get(&3)), (Some("abc"), Some(&9)));
        let stand = state.stand(2, Rank::new(2, 0)).unwrap();
        assert_eq!((stand.role, stand.peer, stand.edge, stand.gone), (Role::Out, 3, Rank::new(2, 5), 7));
        assert!(state.stand(1, Rank::new(2, 0)).is_none() && stand.pulled.is_empty());
        assert!(State::read(Value::Nil).is_none());
        let pulled = format!("{line} 0000000200000009:given 0000000200000008:forgotten:3");
        let stand = Stand::read(&pulled).unwrap();
        assert_eq!(stand.pulled.get(&Rank::new(2, 8)), Some(&Pulled::Forgotten(3)));
        assert_eq!(
            [4, 5, 8, 9].map(|second| stand.has_passed(Rank::new(2, second))),
            [true, false, true, true]
        );
        assert!(Stand::read(&format!("{line} 0000000200000009:gone")).is_none());
    }

    #[test]
    fn a_life_is_read() {
        let life = Life::read("# Server\r\nrun_id:ab12\r\n# Persistence\r\naof_enabled:1\r\n").unwrap();
        assert_eq!((life.run.as_str(), life.has_log), ("ab12", true));
        assert!(Life::read("run_id:ab12").is_none());
        assert!(Life::is_loading("loading:1\r\naof_enabled:0\r\n") && !Life::is_loading("loading:0\r\n"));
    }
}
