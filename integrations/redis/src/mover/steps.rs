//! The steps of a move at one partition. Each carries the generation of the other end, and says its own.

use super::partition::{rank, Partition};
use crate::course::Move;
use crate::fault::{Done, Fault};
use crate::keymap::hex;
use crate::resp::Value;
use squall::Rank;

/// How many keys are unlinked at once.
pub(super) const UNLINKED: usize = 256;

/// How far a step has brought a partition.
#[derive(Clone, Copy, Debug)]
pub struct Step {
    /// Below it keys are given, loaded or forgotten now.
    pub edge: Rank,
    /// Its generation then.
    pub generation: u64,
}

/// A partition and its generation, as a step at the other end of a move tells it.
pub(super) type Seen = (u32, u64);

/// What becomes of a give.
pub enum Given {
    /// Keys are given up to there.
    Below(Step),
    /// Nothing is: of the keys that were named the one at this place is too large, and has so many bytes.
    TooLarge(usize, u64),
}

/// What becomes of a chunk that is to go back to its source.
pub enum Back {
    /// This was done there.
    Done(Step),
    /// The partition has done another step meanwhile.
    Changed,
}

/// A step that is asked for.
pub(super) struct Asked<'a> {
    pub function: &'a str,
    pub keys: &'a [Vec<u8>],
    /// The first key of the move, and the edge.
    pub span: (Rank, Rank),
    /// What the other end had done before. Before a give it has done nothing.
    pub seen: Option<Seen>,
    /// A word that the function takes after these.
    pub more: Option<String>,
}

impl Partition {
    /// Gives the keys of the move below the edge, unless one of those that are named has a dump of more bytes.
    pub fn give(&mut self, it: &Move, edge: Rank, keys: &[Vec<u8>], most: u64) -> Done<Given> {
        let span = (it.lo, edge);
        let more = Some(most.to_string());
        match self.try_step(&Asked { function: "squall_give", keys, span, seen: None, more })? {
            Ok(step) => Ok(Given::Below(step)),
            Err(error) => match read_large(&error) {
                Some((at, size)) if at < keys.len() => Ok(Given::TooLarge(at, size)),
                _ => Err(self.explain(&error)),
            },
        }
    }

    /// Up to where keys of the move are given, and the partition's generation.
    pub fn given(&mut self, it: &Move) -> Done<Step> {
        self.step("squall_give", &[], (it.lo, it.lo), None)
    }

    /// Loads the keys of the move below the edge: up to where keys are loaded now.
    pub fn load(&mut self, it: &Move, edge: Rank, given: u64) -> Done<Step> {
        self.step("squall_load", &[], (it.lo, edge), Some((it.source, given)))
    }

    /// Loads nothing any more that the source has given above the edge, up to that generation of it.
    pub fn give_back(&mut self, it: &Move, edge: Rank, given: u64) -> Done<Back> {
        let (span, seen) = ((it.lo, edge), Some((it.source, given)));
        let said = self.try_step(&Asked { function: "squall_back", keys: &[], span, seen, more: None })?;
        self.read_back(said)
    }

    /// Whether rows of the move were put from that edge on.
    pub fn has_arrived(&mut self, it: &Move, edge: Rank) -> Done<bool> {
        let (first, last) = (format!("[{}", hex(edge)), format!("({}", hex(it.hi)));
        Ok(self.ask(&["ZLEXCOUNT", "squall:arrived", &first, &last])? != Value::Int(0))
    }

    /// The generation of the source up to which nothing is loaded any more, if the partition has done `give_back`.
    pub fn gives_back(&mut self, it: &Move) -> Done<Option<u64>> {
        Ok(self.ask(&["HGET", "squall:back", &hex(it.lo)])?.text().parse().ok())
    }

    /// Has the keys above the edge again, which it gave up to that generation, and which the destination does not load.
    pub fn take_back(&mut self, it: &Move, edge: Rank, refused: u64, given: u64) -> Done<Back> {
        let (span, seen) = ((it.lo, edge), Some((it.dest, refused)));
        let more = Some(given.to_string());
        let said = self.try_step(&Asked { function: "squall_take", keys: &[], span, seen, more })?;
        self.read_back(said)
    }

    /// Unlinks keys that were given and loaded, and then has forgotten all below the edge.
    pub fn forget(&mut self, it: &Move, keys: &[Vec<u8>], edge: Rank, loaded: u64) -> Done<()> {
        let (first, last) = keys.split_at(keys.len() - keys.len() % UNLINKED);
        for block in first.chunks(UNLINKED) {
            self.step("squall_forget", block, (it.lo, it.lo), Some((it.dest, loaded)))?;
        }
        self.step("squall_forget", last, (it.lo, edge), Some((it.dest, loaded))).map(drop)
    }

    fn step(
        &mut self,
        function: &str,
        keys: &[Vec<u8>],
        span: (Rank, Rank),
        seen: Option<Seen>,
    ) -> Done<Step> {
        let said = self.try_step(&Asked { function, keys, span, seen, more: None })?;
        said.map_err(|error| self.explain(&error))
    }

    /// The same; the partition's own words if it refuses.
    pub(super) fn try_step(&mut self, it: &Asked) -> Done<Result<Step, String>> {
        let said = match self.say(it)? {
            Ok(said) => said,
            Err(error) => return Ok(Err(error)),
        };
        let other = || Fault::new(format!("partition {}: an edge of another form", self.part));
        read_step(&said).map(Ok).ok_or_else(other)
    }

    /// The partition's answer to a step; its own words if it refuses.
    pub(super) fn say(&mut self, it: &Asked) -> Done<Result<String, String>> {
        let (count, number) = (it.keys.len().to_string(), self.number.clone());
        let (part, generation) =
            it.seen.map_or(("-".into(), "0".into()), |(part, at)| (part.to_string(), at.to_string()));
        let args = [number, hex(it.span.0), hex(it.span.1), part, generation];
        let mut words: Vec<&[u8]> = vec![b"FCALL", it.function.as_bytes(), count.as_bytes()];
        words.extend(it.keys.iter().map(Vec::as_slice));
        words.extend(args.iter().chain(&it.more).map(String::as_bytes));
        Ok(match self.try_ask(&words)? {
            Value::Error(error) => Err(error),
            said => Ok(said.text()),
        })
    }

    fn read_back(&self, said: Result<Step, String>) -> Done<Back> {
        match said {
            Ok(step) => Ok(Back::Done(step)),
            Err(error) if error == "SQUALL CHANGED" => Ok(Back::Changed),
            Err(error) => Err(self.explain(&error)),
        }
    }
}

/// The place of a key that is too large, from 0 on, and its size.
pub(super) fn read_large(error: &str) -> Option<(usize, u64)> {
    let (at, size) = error.strip_prefix("SQUALL LARGE ")?.split_once(' ')?;
    Some((at.parse::<usize>().ok()?.checked_sub(1)?, size.parse().ok()?))
}

/// An edge, and a generation, which functions of an earlier version don't say.
fn read_step(said: &str) -> Option<Step> {
    let (edge, generation) = said.split_once(' ').unwrap_or((said, "0"));
    Some(Step { edge: rank(edge)?, generation: generation.parse().ok()? })
}

#[cfg(test)]
mod tests {
    use super::*;

    #[test]
    fn steps_are_read() {
        let step = read_step("0000000200000005 7").unwrap();
        assert_eq!((step.edge, step.generation), (Rank::new(2, 5), 7));
        assert_eq!(read_step("0000000200000005").map(|it| it.generation), Some(0));
        assert!(read_step("x 7").is_none() && read_step("0000000200000005 x").is_none());
        assert_eq!(read_large("SQUALL LARGE 3 700"), Some((2, 700)));
        assert!(read_large("SQUALL LARGE 0 700").is_none() && read_large("ERR LARGE 3 700").is_none());
    }
}
