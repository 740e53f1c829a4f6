//! Plans, and what a course moves between two of them.

use crate::args::Args;
use crate::fault::{Done, Fault, Trying};
use crate::keymap::hex;
pub use squall::Move;
use squall::{Course, Error, Leg, Rank, Span};
use std::collections::BTreeSet;
use std::ops::Range;

/// A plan, as its text and as its ranges.
#[derive(Clone)]
pub struct Plan {
    /// The text.
    pub text: Vec<u8>,
    /// The end of each range and its partition, by rising key: the same for each text of one plan.
    pub ranges: String,
    /// The partitions that it names.
    pub parts: BTreeSet<u32>,
}

impl Plan {
    /// The plan of the file that an option names.
    ///
    /// # Errors
    ///
    /// The file can't be read, or its text is no plan.
    pub fn of(args: &Args, name: &str) -> Done<Plan> {
        let path = args.need(name)?;
        Plan::read(args.file(name)?).trying(|| format!("--{name} {path}"))
    }

    /// The plan of a text.
    ///
    /// # Errors
    ///
    /// The text is no plan.
    pub fn read(text: Vec<u8>) -> Done<Plan> {
        let legs = Course::open(1, &text, &text)?.old_plan();
        let ranges: Vec<String> = legs.iter().map(|leg| format!("{} {}", hex(leg.hi), leg.part)).collect();
        Ok(Plan { text, ranges: ranges.join(" "), parts: legs.iter().map(|leg| leg.part).collect() })
    }

    /// The plan of these ranges, as a partition keeps them.
    ///
    /// # Errors
    ///
    /// They are no plan.
    pub fn of_ranges(ranges: &str) -> Done<Plan> {
        let other = || Fault::new(format!("ranges of another form: {ranges}"));
        let words: Vec<&str> = ranges.split(' ').collect();
        let read = |pair: &[&str]| -> Option<(Rank, u32)> {
            let [hi, part] = pair else { return None };
            Some((Rank(u64::from_str_radix(hi, 16).ok()?), part.parse().ok()?))
        };
        let ends: Vec<_> = words.chunks(2).map(read).collect::<Option<_>>().ok_or_else(other)?;
        Plan::read(text(&ends).into_bytes())
    }
}

/// The plan of where the keys are in a course: those of the spans at their partition of the new plan, and all others at that of
/// the old one. The spans have keys, and may overlap.
///
/// # Errors
///
/// It would have more ranges than a plan may have.
pub fn plan_left(number: u32, old: &Plan, new: &Plan, loaded: &[Span]) -> Done<Plan> {
    match Course::open(number, &old.text, &new.text)?.left(loaded) {
        Err(Error::Limit) => Err(Fault::new("the plan of where the keys are has more than 4096 ranges")),
        text => Plan::read(text?.into_bytes()),
    }
}

/// The text of the plan whose ranges end there.
fn text(ends: &[(Rank, u32)]) -> String {
    let pair = |it: Rank| format!("[{},{}]", it.0 >> 32, it.0 & 0xffff_ffff);
    let mut lo = Rank(0);
    let ranges = ends.iter().map(|&(hi, part)| {
        let to = if hi == Rank::END { "\"end\"".to_string() } else { pair(hi) };
        let range = format!(r#"{{"part":{part},"from":{},"to":{to}}}"#, pair(lo));
        lo = hi;
        range
    });
    format!(r#"{{"plan":[{}]}}"#, ranges.collect::<Vec<_>>().join(","))
}

/// What moves between the plans by rising key, and the frame by which routers learn of the course.
///
/// # Errors
///
/// There is no memory, or the number is 0.
pub fn issue(number: u32, old: &Plan, new: &Plan) -> Done<(Vec<Move>, Vec<u8>)> {
    let course = Course::open(number, &old.text, &new.text)?;
    Ok((course.moves(), course.frame()?))
}

/// How far a course is, in numbers of keys.
#[derive(Clone, Copy, Debug, PartialEq)]
pub struct Progress {
    /// The course's number.
    pub number: u32,
    /// How many moves it has.
    pub moves: usize,
    /// How many keys move.
    pub moving: u64,
    /// How many of these are loaded, as far as is known.
    pub loaded: u64,
}

impl Progress {
    /// That of a course, by the legs of a router or a view of it.
    pub fn of(course: &Course, legs: impl Fn(Range<Rank>) -> Vec<Leg>) -> Progress {
        let moves = course.moves();
        let loaded = |it: &Move| -> u64 {
            let all = legs(it.lo..it.hi).into_iter();
            all.filter(|leg| leg.part == it.dest).map(|leg| leg.hi.0 - leg.lo.0).sum()
        };
        Progress {
            number: course.number(),
            moves: moves.len(),
            moving: moves.iter().map(|it| it.hi.0 - it.lo.0).sum(),
            loaded: moves.iter().map(loaded).sum(),
        }
    }
}

#[cfg(test)]
mod tests {
    use super::*;
    use squall::Router;

    const OLD: &str = r#"{"plan":[{"part":1,"from":[0,0],"to":"end"}]}"#;
    const NEW: &str = r#"{"plan":[{"part":1,"from":[0,0],"to":[2,0]},{"part":3,"from":[2,0],"to":"end"}]}"#;

    fn plan(text: &str) -> Plan {
        Plan::read(text.into()).unwrap()
    }

    #[test]
    fn plans_are_read() {
        let read = plan(NEW);
        assert_eq!(read.parts, BTreeSet::from([1, 3]));
        assert_eq!(read.ranges, plan(&NEW.replace(',', " , ")).ranges);
        assert!(Plan::read(b"{}".to_vec()).is_err());
    }

    #[test]
    fn a_plan_is_read_as_a_partition_keeps_it() {
        let read = Plan::of_ranges(&plan(NEW).ranges).unwrap();
        assert_eq!((read.ranges, read.parts), (plan(NEW).ranges, plan(NEW).parts));
        assert!(["", "0000000200000000", "x 1", "0000000200000000 1"]
            .iter()
            .all(|it| Plan::of_ranges(it).is_err()));
    }

    #[test]
    fn keys_are_where_a_course_leaves_them() {
        let (old, new) = (plan(OLD), plan(NEW));
        let left = |spans: &[(u64, u64)]| {
            let span = |&(lo, hi)| Span { lo: Rank(lo), hi: Rank(hi) };
            plan_left(2, &old, &new, &spans.iter().map(span).collect::<Vec<_>>()).map(|it| it.ranges)
        };
        let (two, end) = (Rank::new(2, 0).0, Rank::END.0);
        assert_eq!(
            (left(&[]).unwrap(), left(&[(two, end)]).unwrap()),
            (old.ranges.clone(), new.ranges.clone())
        );
        // The first keys of the move, and one that was pulled.
        assert_eq!(
            left(&[(two + 8, two + 9), (two, two + 4), (two + 2, two + 5)]).unwrap(),
            "0000000200000000 1 0000000200000005 3 0000000200000008 1 0000000200000009 3 ffffffff00000000 1"
        );
        // Of keys that do not move it says nothing.
        assert_eq!(left(&[(0, two + 5)]).unwrap(), left(&[(two, two + 5)]).unwrap());
        let many: Vec<(u64, u64)> = (0..2048).map(|at| (two + 2 * at + 1, two + 2 * at + 2)).collect();
        assert!(left(&many[1..]).is_ok());
        assert!(left(&many).unwrap_err().to_string().contains("more than 4096 ranges"));
    }

    #[test]
    fn routers_learn_of_what_is_issued() {
        let (moves, frame) = issue(2, &plan(OLD), &plan(NEW)).unwrap();
        assert_eq!(moves.len(), 1);
        assert_eq!((moves[0].lo, moves[0].hi), (Rank::new(2, 0), Rank::END));
        assert_eq!((moves[0].source, moves[0].dest, moves[0].sub), (1, 3, 0));
        let mut router = Router::open(1, OLD.as_bytes(), OLD.as_bytes()).unwrap();
        router.hear(&frame).unwrap();
        let course = router.course().unwrap();
        assert_eq!(course.moves(), moves);
        router.opened(2, 0).unwrap();
        router.loaded(2, 0, 3, Rank::new(2, 0)..Rank::new(2, 7)).unwrap();
        let progress = Progress::of(&course, |keys| router.legs(keys));
        let moving = Rank::END.0 - Rank::new(2, 0).0;
        assert_eq!(progress, Progress { number: 2, moves: 1, moving, loaded: 7 });
        assert!(issue(0, &plan(OLD), &plan(NEW)).is_err());
    }
}
