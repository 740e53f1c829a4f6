//! What passes: a server refuses for a while, since it runs a long script, loads its data, or has no memory or disk left; or
//! a connection is lost.

use crate::args::Args;
use crate::conn::{passes, Conn};
use crate::fault::{Done, Fault};
use crate::log;
use crate::resp::Value;
use crate::stop;
use std::sync::atomic::{AtomicU64, Ordering::Relaxed};
use std::thread;
use std::time::{Duration, Instant};

/// The option that says how long both are borne without any progress, and what it says by default, in seconds.
pub const OPTION: &str = "patience";
static SECONDS: AtomicU64 = AtomicU64::new(60);
/// The pause before a server that refuses is asked again.
const AGAIN: Duration = Duration::from_millis(100);
/// The pause before a connection is tried again, at first and at most.
const FIRST: Duration = Duration::from_millis(50);
const LAST: Duration = Duration::from_secs(1);

/// Takes what the words of the command line say.
///
/// # Errors
///
/// The word is no number of seconds.
pub fn set(args: &Args) -> Done<()> {
    SECONDS.store(args.number(OPTION, SECONDS.load(Relaxed), 0, 31_536_000)?, Relaxed);
    Ok(())
}

/// How long it is borne.
pub fn most() -> Duration {
    Duration::from_secs(SECONDS.load(Relaxed))
}

/// How long a mover has begun again and again, since it loses connections.
#[derive(Default)]
pub struct Endurance {
    since: Option<Instant>,
    pause: Duration,
    steps: usize,
    said: String,
}

impl Endurance {
    /// Whether a mover that has done so many steps begins again after a fault. It waits before that, and says each fault
    /// once.
    pub fn bears(&mut self, fault: &Fault, steps: usize) -> bool {
        if !fault.is_lost() || stop::is_asked() {
            return false;
        }
        if self.since.is_none() || steps > self.steps {
            (self.since, self.steps, self.pause) = (Some(Instant::now()), steps, FIRST);
        }
        if self.since.is_some_and(|since| since.elapsed() >= most()) {
            return false;
        }
        let words = fault.to_string();
        if words != self.said {
            log::warn(format!("{words}; this is tried again for {} s", most().as_secs()));
            self.said = words;
        }
        stop::sleep(self.pause);
        self.pause = LAST.min(self.pause * 2);
        true
    }
}

/// Asks a server until it does not refuse for such a reason. An answer that is an error is a fault.
///
/// # Errors
///
/// The connection is lost, or the answer is an error.
pub fn ask<W: AsRef<[u8]>>(conn: &mut Conn, words: &[W]) -> Done<Value> {
    match Patience::default().ask(conn, words)? {
        Value::Error(error) => Err(Fault::new(format!("{}: {error}", conn.addr()))),
        value => Ok(value),
    }
}

/// How long a server has refused for such a reason.
///
/// Keys that were given and are not loaded are served by nobody. So a mover does not end at once.
#[derive(Default)]
pub struct Patience {
    since: Option<Instant>,
}

impl Patience {
    /// Whether a refusal passes, and it is to be tried again after a pause.
    pub fn bears(&mut self, conn: &Conn, error: &str) -> bool {
        if !passes(error) {
            return false;
        }
        let since = *self.since.get_or_insert_with(|| {
            log::warn(format!("{}: {error}; this is tried again for {} s", conn.addr(), most().as_secs()));
            Instant::now()
        });
        if since.elapsed() >= most() {
            return false;
        }
        // Also if the mover was asked to end: what it has given is still to be loaded.
        thread::sleep(AGAIN);
        true
    }

    /// The server refuses no longer.
    pub fn end(&mut self) {
        self.since = None;
    }

    /// Asks a server until it does not refuse for such a reason.
    ///
    /// # Errors
    ///
    /// The connection is lost.
    pub fn ask<W: AsRef<[u8]>>(&mut self, conn: &mut Conn, words: &[W]) -> Done<Value> {
        loop {
            conn.put(words);
            let answer = conn.hear_all(1)?.pop().unwrap_or(Value::Nil);
            match &answer {
                Value::Error(error) if self.bears(conn, error) => {}
                _ => {
                    self.end();
                    return Ok(answer);
                }
            }
        }
    }
}

#[cfg(test)]
mod tests {
    use super::*;

    #[test]
    fn lost_connections_are_borne_while_there_is_progress() {
        let (lost, mut endurance) = (Fault::lost("cut"), Endurance::default());
        assert!(!endurance.bears(&Fault::new("refused"), 0));
        assert!(endurance.bears(&lost, 0) && endurance.bears(&lost, 0));
        endurance.since = Instant::now().checked_sub(most());
        assert!(!endurance.bears(&lost, 0));
        assert!(endurance.bears(&lost, 1));
    }
}
