//! Whether a node reaches the bus. A node logs once that the bus is away, and once that it is back. Reports that could not be sent
//! meanwhile are owed.

use super::node::lock;
use crate::fault::Fault;
use crate::log;
use std::sync::Mutex;

/// The two uses that a node makes of the bus.
#[derive(Clone, Copy)]
pub enum Side {
    Hear,
    Tell,
}

/// Whether the bus can be reached, and whether reports are owed.
#[derive(Default)]
pub struct Reach(Mutex<State>);

#[derive(Default)]
struct State {
    /// Why a side does not work now. A refusal, as of a password, is no lost connection.
    faults: [Option<Fault>; 2],
    /// Whether it is logged that the bus is away.
    is_said: bool,
    /// The last refusal that was logged.
    refusal: String,
    /// Whether the bus has taken any report.
    has_taken: bool,
    /// How often something was owed, and how much of that was sent.
    owed: u64,
    paid: u64,
}

impl Reach {
    /// Takes a fault of a side. Each refusal is logged, and of lost connections the first one until the bus is back. Reports
    /// that the bus had taken last may be lost with the connection, so they are owed.
    pub fn lose(&self, side: Side, fault: Fault) {
        let mut state = lock(&self.0);
        state.owed += u64::from(state.has_taken);
        let words = fault.to_string();
        if fault.is_lost() {
            if !state.is_said {
                log::warn(format!("bus: {words}; this is tried again"));
                state.is_said = true;
            }
        } else if words != state.refusal {
            log::warn(format!("bus: {words}"));
            (state.refusal, state.is_said) = (words, true);
        }
        state.faults[side as usize] = Some(fault);
    }

    /// A side works.
    pub fn find(&self, side: Side) {
        let mut state = lock(&self.0);
        state.faults[side as usize] = None;
        if state.is_said && state.faults.iter().all(Option::is_none) {
            log::info("the bus is up again");
            state.is_said = false;
        }
    }

    /// Whether a side does not work.
    pub fn is_lost(&self, side: Side) -> bool {
        lock(&self.0).faults[side as usize].is_some()
    }

    /// Whether one of them does not.
    pub fn is_away(&self) -> bool {
        lock(&self.0).faults.iter().any(Option::is_some)
    }

    /// Why one of them does not; a refusal comes first.
    pub fn fault(&self) -> Option<Fault> {
        let state = lock(&self.0);
        state.faults.iter().flatten().min_by_key(|fault| fault.is_lost()).cloned()
    }

    /// Why the bus refuses this program, from which it has taken nothing yet.
    pub fn refusal(&self) -> Option<Fault> {
        let is_new = !lock(&self.0).has_taken;
        self.fault().filter(|fault| is_new && !fault.is_lost())
    }

    /// The bus has taken a report.
    pub fn take(&self) {
        lock(&self.0).has_taken = true;
    }

    /// Something could not be sent.
    pub fn owe(&self) {
        lock(&self.0).owed += 1;
    }

    /// The number of the last debt, for `pay`; none if all are paid.
    pub fn debt(&self) -> Option<u64> {
        let state = lock(&self.0);
        (state.owed > state.paid).then_some(state.owed)
    }

    /// All was sent that was owed up to that debt.
    pub fn pay(&self, debt: u64) {
        let mut state = lock(&self.0);
        (state.paid, state.has_taken) = (state.paid.max(debt), true);
    }
}

#[cfg(test)]
mod tests {
    use super::*;

    #[test]
    fn both_sides_have_to_work() {
        let reach = Reach::default();
        assert!(!reach.is_away() && !reach.is_lost(Side::Tell));
        reach.lose(Side::Hear, Fault::lost("cut"));
        reach.lose(Side::Tell, Fault::lost("cut"));
        assert!(lock(&reach.0).is_said && reach.refusal().is_none());
        reach.find(Side::Tell);
        assert!(reach.is_away() && !reach.is_lost(Side::Tell) && lock(&reach.0).is_said);
        reach.find(Side::Hear);
        assert!(!reach.is_away() && !lock(&reach.0).is_said);
    }

    #[test]
    fn a_refusal_is_said_once() {
        let reach = Reach::default();
        let refuse = || reach.lose(Side::Hear, Fault::new("who are you"));
        reach.lose(Side::Tell, Fault::lost("cut"));
        for _ in 0..2 {
            refuse();
            assert!(reach.refusal().is_some_and(|fault| fault.to_string() == "who are you"));
            reach.find(Side::Hear);
            assert!(reach.refusal().is_none() && reach.fault().is_some());
        }
        reach.find(Side::Tell);
        refuse();
        assert!(!lock(&reach.0).is_said && reach.is_away());
        reach.take();
        assert!(reach.refusal().is_none() && reach.is_lost(Side::Hear));
    }

    #[test]
    fn what_is_owed_meanwhile_stays() {
        let reach = Reach::default();
        assert!(reach.debt().is_none());
        reach.owe();
        let debt = reach.debt().unwrap();
        reach.owe();
        reach.pay(debt);
        assert_eq!(reach.debt(), Some(2));
        reach.pay(2);
        reach.pay(debt);
        assert!(reach.debt().is_none());
        reach.lose(Side::Hear, Fault::lost("cut"));
        assert_eq!(reach.debt(), Some(3));
        let quiet = Reach::default();
        quiet.lose(Side::Hear, Fault::lost("cut"));
        assert!(quiet.debt().is_none());
    }
}
