//! What was sent to a stream and is not known to be there. One thread hears the answers, and others wait for them.

use super::node::lock;
use crate::fault::{Done, Fault};
use std::collections::BTreeMap;
use std::ops::Range;
use std::sync::{Condvar, Mutex, PoisonError};
use std::time::Duration;

/// The answers that are due.
#[derive(Default)]
pub struct Acks {
    state: Mutex<State>,
    news: Condvar,
}

#[derive(Default)]
struct State {
    /// The number of the next answer.
    next: u64,
    /// The answers that did not come, or are refusals.
    due: BTreeMap<u64, Option<Fault>>,
}

impl State {
    /// Whether one of these did not come, and none is a refusal.
    fn waits(&self, numbers: &Range<u64>) -> bool {
        let mut due = self.due.range(numbers.clone()).peekable();
        due.peek().is_some() && due.all(|(_, why)| why.is_none())
    }
}

impl Acks {
    /// The numbers of so many answers, which no other answer has or had.
    pub fn expect(&self, count: usize) -> Range<u64> {
        let mut state = lock(&self.state);
        let first = state.next;
        state.next += count as u64;
        let numbers = first..state.next;
        state.due.extend(numbers.clone().map(|number| (number, None)));
        numbers
    }

    /// Takes an answer: why it is a refusal, if it is one. Nothing changes if nobody waits for it.
    pub fn take(&self, number: u64, refusal: Option<Fault>) {
        let mut state = lock(&self.state);
        match (state.due.get_mut(&number), refusal) {
            (None, _) => return,
            (Some(why), Some(refusal)) => *why = Some(refusal),
            (Some(_), None) => drop(state.due.remove(&number)),
        }
        self.news.notify_all();
    }

    /// No answer comes any more that is due now.
    pub fn lose(&self) {
        let lost = || Some(Fault::lost("the connection to the stream is lost"));
        lock(&self.state).due.values_mut().for_each(|why| *why = lost());
        self.news.notify_all();
    }

    /// Waits until all of these are there, for so long at most.
    ///
    /// # Errors
    ///
    /// One of them is a refusal, or did not come. It may come later.
    pub fn wait(&self, numbers: Range<u64>, most: Duration) -> Done<()> {
        let state = lock(&self.state);
        let waited = self.news.wait_timeout_while(state, most, |state| state.waits(&numbers));
        let mut state = waited.unwrap_or_else(PoisonError::into_inner).0;
        let mut left = state.due.split_off(&numbers.start);
        state.due.append(&mut left.split_off(&numbers.end));
        let missed = || Fault::lost("the stream does not answer");
        match left.into_values().max_by_key(Option::is_some) {
            None => Ok(()),
            Some(why) => Err(why.unwrap_or_else(missed)),
        }
    }
}

#[cfg(test)]
mod tests {
    use super::*;
    use std::thread;

    const SHORT: Duration = Duration::from_millis(10);
    const LONG: Duration = Duration::from_secs(60);

    #[test]
    fn all_answers_are_waited_for() {
        let acks = Acks::default();
        let (one, two) = (acks.expect(2), acks.expect(1));
        assert_eq!((one.clone(), two.clone()), (0..2, 2..3));
        acks.take(1, None);
        thread::scope(|scope| {
            let waits = scope.spawn(|| acks.wait(one, LONG));
            acks.take(0, None);
            assert!(waits.join().unwrap().is_ok());
        });
        // That of another one is still due, and none of what was never asked for.
        acks.take(9, None);
        let fault = acks.wait(two, SHORT).unwrap_err();
        assert!(fault.is_lost() && fault.to_string().contains("does not answer"));
        acks.take(2, None);
        assert!(lock(&acks.state).due.is_empty() && acks.wait(3..3, SHORT).is_ok());
    }

    #[test]
    fn a_refusal_is_enough() {
        let acks = Acks::default();
        let numbers = acks.expect(3);
        acks.take(1, Some(Fault::new("no")));
        assert_eq!(acks.wait(numbers, LONG).unwrap_err().to_string(), "no");
        let (first, later) = (acks.expect(2), acks.expect(1));
        acks.lose();
        assert!(
            acks.wait(first, LONG).unwrap_err().is_lost() && acks.wait(later, LONG).unwrap_err().is_lost()
        );
        assert!(lock(&acks.state).due.is_empty());
    }
}
