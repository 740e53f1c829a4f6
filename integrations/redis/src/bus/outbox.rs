//! Frames of reports, and how a node sends them.

use super::agenda::PAUSE;
use super::node::{lock, Node, FIRST, ROUND};
use super::reach::Side;
use crate::fault::{Done, Fault};
use crate::{log, stop};
use squall::{Error, Router};
use std::thread;
use std::time::{Duration, Instant};

/// A plan for routers that only make frames: opening one of a large plan takes long.
const ANY: &[u8] = br#"{"plan":[{"part":0,"from":[0,0],"to":"end"}]}"#;

/// The frames of the reports that `give` gives a router.
///
/// # Errors
///
/// That of `give`, or [`Error::NoMemory`].
pub fn report(give: impl FnOnce(&mut Router) -> Result<(), Error>) -> Result<Vec<Vec<u8>>, Error> {
    let mut outbox = Router::open(1, ANY, ANY)?;
    give(&mut outbox)?;
    Ok(outbox.board()?.collect())
}

impl Node {
    /// Takes a report, and sends it to all nodes, as `tell_frames`.
    pub fn tell(&self, give: impl FnOnce(&mut Router) -> Result<(), Error>) -> Done<()> {
        self.tell_frames(&report(give)?)
    }

    /// Takes frames, and sends them to all nodes. While the bus is away nothing is sent, and once it is back the node sends
    /// all that it knows.
    ///
    /// # Errors
    ///
    /// There is no memory, or the bus refuses this program, from which it has taken nothing yet.
    pub fn tell_frames(&self, frames: &[Vec<u8>]) -> Done<()> {
        self.learn(frames)?;
        self.give(|| {
            self.bus.write(&self.name, frames, None)?;
            self.reach.take();
            Ok(())
        })
    }

    /// Sends something, unless the bus is away: then it is owed.
    fn give(&self, send: impl FnOnce() -> Done<()>) -> Done<()> {
        let sent = if self.reach.is_lost(Side::Tell) { None } else { Some(send()) };
        if !matches!(sent, Some(Ok(()))) {
            self.reach.owe();
        }
        if let Some(Err(fault)) = sent {
            self.reach.lose(Side::Tell, fault);
        }
        self.reach.refusal().map_or(Ok(()), |fault| Err(Fault::new(format!("bus: {fault}"))))
    }

    /// Sends all that this node knows. A stream that is trimmed then has it at its end. While the bus is away it is owed.
    ///
    /// # Errors
    ///
    /// The same as of `tell_frames`.
    pub fn tell_all(&self) -> Done<()> {
        self.reach.owe();
        self.give(|| self.pay())
    }

    /// Sends all that this node knows, if anything is owed.
    pub(super) fn pay(&self) -> Done<()> {
        let Some(debt) = self.reach.debt() else {
            return Ok(());
        };
        let frames =
            self.within(self.bus.most(), |router, limit| Ok(router.board_within(limit)?.collect()))?;
        self.bus.write(&self.name, &frames, None)?;
        self.reach.pay(debt);
        Ok(())
    }

    /// Waits for so long at most until nothing is owed.
    ///
    /// # Errors
    ///
    /// The bus is still away, or the program was asked to end.
    pub fn wait_paid(&self, most: Duration) -> Done<()> {
        let began = Instant::now();
        if self.reach.debt().is_some() {
            log::warn(format!("the reports wait for the bus, for {} s at most", most.as_secs()));
        }
        while self.reach.debt().is_some() {
            stop::check()?;
            if began.elapsed() >= most {
                let why = self.reach.fault().map_or_else(String::new, |fault| format!(": {fault}"));
                return Err(Fault::new(format!("the bus has not taken all reports{why}")));
            }
            stop::sleep(FIRST);
        }
        Ok(())
    }

    /// Answers others until each node that shows a digest has shown that it knows the same.
    ///
    /// # Errors
    ///
    /// That did not come about in the given time: the names of those whose last digest was another one.
    pub fn settle(&self, most: Duration) -> Result<(), Vec<String>> {
        let began = Instant::now();
        let quiet = ROUND + Duration::from_micros(2 * PAUSE);
        lock(&self.peers).begin(began);
        while began.elapsed() < most && !stop::is_asked() {
            // Those that can't be heard are not known to agree.
            if self.reach.is_away() || self.silence() > 2 * ROUND {
                lock(&self.peers).begin(Instant::now());
            } else if lock(&self.peers).quiet() >= quiet {
                return Ok(());
            }
            thread::sleep(Duration::from_millis(10));
        }
        Err(lock(&self.peers).behind(began))
    }
}
