//! Commands that are done on a connection of the client's own: transactions, scripts on keys that
//! move, commands that wait, and those that visit partition after partition.

use super::commands::Clock;
use super::ids::Ids;
use super::names::Names;
use super::plan::Words;
use super::scan::Cursor;
use super::visit::Visit;
use squall::{Errand, Rank};
use std::time::{Duration, Instant};

/// The pause before a partition is asked again, at first and at most. News end it.
const FIRST: Duration = Duration::from_millis(2);
const LAST: Duration = Duration::from_millis(50);
/// The pause before a key that may be given at any moment is looked at again.
const LOOK: Duration = Duration::from_millis(10);

/// No wait is sent on that is shorter: 0 has no end.
const SHORTEST: Duration = Duration::from_millis(1);

/// The commands of a transaction, until EXEC or DISCARD.
#[derive(Default)]
pub struct Queue {
    /// The bytes of the commands, and how many they are.
    pub bytes: Vec<u8>,
    pub count: usize,
    /// The ranks of their keys.
    pub ranks: Vec<Rank>,
    /// Whether one of them was refused.
    pub is_broken: bool,
}

/// The keys that a client watches at one partition.
pub struct Watch {
    /// The connection, if it was not lost.
    pub upstream: Option<usize>,
    /// The partition, and the course in which the keys were there.
    pub part: u32,
    pub number: u32,
    /// The ranks of the keys.
    pub ranks: Vec<Rank>,
    /// Whether the keys have gone from there.
    pub is_broken: bool,
}

impl Watch {
    /// Whether a transaction can't be done any more, since the keys may have changed unseen.
    pub fn is_over(&self, number: u32) -> bool {
        self.is_broken || self.upstream.is_none() || self.number != number
    }
}

/// What a task does.
pub enum Deed {
    /// Watches keys.
    Watch,
    /// Does a transaction.
    Exec(Queue),
    /// Does a command in one step with its guard.
    One,
    /// Waits for a key.
    Wait(Wait),
    /// Reads names of keys.
    Scan(Cursor),
    /// Reads the names of all keys.
    Names(Names),
    /// Asks each partition, and then answers.
    Visit(Visit),
    /// Gives a script to each partition from this one on.
    Load(u32),
}

/// How a command waits.
pub struct Wait {
    /// Until when, if there is an end. Only a partition says that nothing came.
    pub until: Option<Instant>,
    /// The word that says so.
    pub clock: Clock,
    /// The IDs that are found before it waits.
    pub ids: Ids,
}

impl Wait {
    /// The words of the command that waits from now on.
    pub fn words(&self, words: Words, now: Instant) -> Vec<Vec<u8>> {
        let mut all = self.ids.words(words);
        all[self.clock.at] = self.left(now).into_bytes();
        all
    }

    /// Its word for what is left of the time at that moment. 0 has no end.
    fn left(&self, now: Instant) -> String {
        let left = self.until.map(|until| until.saturating_duration_since(now).max(SHORTEST));
        let left = left.unwrap_or_default();
        if self.clock.is_millis {
            left.as_micros().div_ceil(1000).to_string()
        } else {
            format!("{:.3}", left.as_secs_f64())
        }
    }
}

/// What a connection was asked last.
#[derive(Clone, Copy, PartialEq)]
pub enum Step {
    /// Nothing.
    Idle,
    /// Whether the keys are there.
    Checking,
    /// To do it in one piece.
    Doing,
    /// A plain command.
    Asking,
}

/// A command that is under way on a connection of the client's own.
pub struct Task {
    /// What it does.
    pub deed: Deed,
    /// The ranks of its keys.
    pub ranks: Vec<Rank>,
    /// Its connection, what that was asked, what it has answered, and how many answers are due.
    pub upstream: Option<usize>,
    pub step: Step,
    pub replies: Vec<Vec<u8>>,
    pub due: usize,
    /// Whether the connection was lost before all were there.
    pub is_lost: bool,
    /// The errand of its first key, and the view by which it was begun.
    pub errand: Option<(Errand, u64)>,
    /// When it began, since when no partition serves it, and when to ask again or, while it waits for
    /// answers, when it has asked.
    pub began: Instant,
    pub since: Instant,
    pub again: Instant,
    pause: Duration,
    /// Whether a partition has refused it.
    pub is_refused: bool,
}

impl Task {
    /// A task that has asked nobody.
    pub fn new(deed: Deed, ranks: Vec<Rank>, now: Instant) -> Task {
        Task {
            deed,
            ranks,
            upstream: None,
            step: Step::Idle,
            replies: Vec::new(),
            due: 0,
            is_lost: false,
            errand: None,
            began: now,
            since: now,
            again: now,
            pause: FIRST,
            is_refused: false,
        }
    }

    /// Whether it watches keys, or may depend on those that are watched.
    pub fn is_transaction(&self) -> bool {
        matches!(self.deed, Deed::Watch | Deed::Exec(_))
    }

    /// How many bytes it holds for its answer.
    pub fn held(&self) -> usize {
        match &self.deed {
            Deed::Names(names) => names.bytes,
            _ => 0,
        }
    }

    /// Whether it asks by RESP2, since the proxy reads the answers. Those of the others go to the client as they are.
    pub fn is_read(&self) -> bool {
        matches!(self.deed, Deed::Names(_) | Deed::Visit(_))
    }

    /// Whether it waits for answers.
    pub fn is_waiting(&self) -> bool {
        self.step != Step::Idle && !self.is_lost && self.replies.len() < self.due
    }

    /// A partition has refused it: it asks again after a pause.
    pub fn later(&mut self, now: Instant) {
        self.is_refused = true;
        self.again = now + self.pause;
        self.pause = (self.pause * 2).min(LAST);
    }

    /// A partition has served it, and it found nothing: it looks again soon, and in the end.
    pub fn look_again(&mut self, now: Instant, until: Option<Instant>) {
        let again = until.map_or(now + LOOK, |until| until.min(now + LOOK));
        (self.since, self.again, self.pause) = (now, again, FIRST);
    }

    /// A partition has served it, and it goes on at once.
    pub fn go_on(&mut self, now: Instant) {
        (self.since, self.again, self.pause) = (now, now, FIRST);
    }

    /// Whether it has something to do now.
    pub fn is_due(&self, now: Instant, views: u64) -> bool {
        now >= self.again || self.errand.as_ref().is_some_and(|&(_, begun)| begun != views)
    }
}

#[cfg(test)]
mod tests {
    use super::*;

    #[test]
    fn what_is_left_is_never_0() {
        let now = Instant::now();
        let left = |millis: u64, is_millis| {
            let until = (millis > 0).then(|| now + Duration::from_millis(millis));
            let wait = Wait { until, clock: Clock { at: 1, is_millis }, ids: Ids::default() };
            [wait.left(now), wait.left(now + Duration::from_micros(1_999_500))]
        };
        assert_eq!(left(2000, true), ["2000", "1"]);
        assert_eq!(left(1000, true), ["1000", "1"]);
        assert_eq!(left(2500, false), ["2.500", "0.500"]);
        assert_eq!(left(1000, false), ["1.000", "0.001"]);
        assert_eq!(
            (left(0, true), left(0, false)),
            (["0", "0"].map(String::from), ["0.000", "0.000"].map(String::from))
        );
    }
}
