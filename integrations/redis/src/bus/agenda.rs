//! What a node has to send: its digest, and answers to those of others.

use super::entry::Entry;
use super::node::lock;
use crate::dice::Dice;
use std::sync::{Condvar, Mutex, PoisonError};
use std::time::{Duration, Instant};

/// Between two digests that are asked for at once.
pub const AT_ONCE: Duration = Duration::from_millis(10);
/// The longest pause before an answer, in microseconds.
pub const PAUSE: u64 = 50_000;

/// A digest that is to be answered.
pub struct Answer {
    due: Instant,
    /// Where it was heard, and the digest.
    pub id: String,
    pub digest: Vec<u8>,
}

/// What is to be sent next.
struct Plan {
    is_wanted: bool,
    answers: Vec<Answer>,
}

/// What is to be sent next, and what wakes the thread that sends it.
pub struct Agenda {
    plan: Mutex<Plan>,
    speak: Condvar,
}

impl Agenda {
    /// At first the digest is to be shown.
    pub fn new() -> Agenda {
        Agenda { plan: Mutex::new(Plan { is_wanted: true, answers: Vec::new() }), speak: Condvar::new() }
    }

    /// The digest is to be shown at once.
    pub fn want(&self) {
        lock(&self.plan).is_wanted = true;
        self.speak.notify_one();
    }

    /// Plans the answers to digests, and drops those to digests that others have answered: how many.
    pub fn take(&self, digests: Vec<Entry>, given: &[&String], dice: &mut Dice) -> usize {
        let now = Instant::now();
        let mut plan = lock(&self.plan);
        plan.answers.extend(digests.into_iter().map(|entry| Answer {
            due: now + Duration::from_micros(dice.below(PAUSE)),
            id: entry.id,
            digest: entry.frame,
        }));
        let before = plan.answers.len();
        plan.answers.retain(|answer| !given.contains(&&answer.id));
        self.speak.notify_one();
        before - plan.answers.len()
    }

    /// Waits until answers are due, or for nothing if a digest is.
    pub fn wait(&self, shown: Instant, pause: Duration) -> Option<Vec<Answer>> {
        let mut plan = lock(&self.plan);
        loop {
            let now = Instant::now();
            let (due, later) =
                std::mem::take(&mut plan.answers).into_iter().partition(|answer| answer.due <= now);
            plan.answers = later;
            if !Vec::is_empty(&due) {
                return Some(due);
            }
            let next = shown + if plan.is_wanted { AT_ONCE } else { pause };
            if next <= now {
                plan.is_wanted = false;
                return None;
            }
            let until = plan.answers.iter().map(|answer| answer.due).fold(next, Instant::min);
            let waited = self.speak.wait_timeout(plan, until - now);
            plan = waited.unwrap_or_else(PoisonError::into_inner).0;
        }
    }
}
