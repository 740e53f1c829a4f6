//! How many keys a second may move, of all sources together. An operator may change it while they do.

use crate::args::Args;
use crate::fault::{Done, Fault, Trying};
use crate::log;
use crate::stop;
use std::fs;
use std::path::PathBuf;
use std::sync::atomic::{AtomicU64, Ordering::Relaxed};
use std::sync::{Arc, Mutex, PoisonError};
use std::time::{Duration, Instant};

/// The most keys a second that can be said.
const MOST: u64 = 1_000_000_000;
/// How long a chunk may be waited for at the old rate once there is another one.
const TURN: Duration = Duration::from_millis(200);

/// The rate, and how much of it was used.
pub struct Pace {
    /// Keys a second; 0 has no limit.
    rate: AtomicU64,
    file: Option<PathBuf>,
    /// How many keys have moved beyond what may have by then, and since when that was counted.
    debt: Mutex<(f64, Instant)>,
}

impl Default for Pace {
    fn default() -> Pace {
        Pace { rate: AtomicU64::new(0), file: None, debt: Mutex::new((0.0, Instant::now())) }
    }
}

impl Pace {
    /// What the words of the command line say. From now on SIGHUP reads the file of the rate anew.
    ///
    /// # Errors
    ///
    /// They are no rate, or the system does not let the program hear the signal.
    pub fn of(args: &Args) -> Done<Arc<Pace>> {
        let rate = AtomicU64::new(args.number("rate", 0, 0, MOST)?);
        let file = args.get("rate-file").map(PathBuf::from);
        let pace = Arc::new(Pace { rate, file, ..Pace::default() });
        if pace.file.is_none() {
            return Ok(pace);
        }
        pace.read()?;
        let own = pace.clone();
        stop::on_hang_up(move || match own.read() {
            Ok(0) => log::info("no limit of keys a second"),
            Ok(rate) => log::info(format!("at most {rate} keys a second")),
            Err(fault) => log::warn(format!("{fault}; the rate stays as it is")),
        })?;
        Ok(pace)
    }

    /// Reads the file of the rate, if there is one: the rate.
    fn read(&self) -> Done<u64> {
        if let Some(path) = &self.file {
            let name = || format!("--rate-file {}", path.display());
            let text = fs::read_to_string(path).trying(name)?;
            let number = text.trim().parse().ok().filter(|&rate| rate <= MOST);
            let wrong = || Fault::of_words(format!("{}: not a number between 0 and {MOST}", name()));
            self.rate.store(number.ok_or_else(wrong)?, Relaxed);
        }
        Ok(self.rate())
    }

    /// How many keys a second may move; 0 has no limit.
    pub fn rate(&self) -> u64 {
        self.rate.load(Relaxed)
    }

    /// So many keys have moved.
    pub fn spend(&self, keys: usize) {
        let mut debt = self.debt.lock().unwrap_or_else(PoisonError::into_inner);
        self.pay(&mut debt);
        debt.0 += keys as f64;
    }

    /// How long to wait until more may move, but no longer than a turn. None if they may.
    pub fn wait(&self) -> Option<Duration> {
        let mut debt = self.debt.lock().unwrap_or_else(PoisonError::into_inner);
        self.pay(&mut debt);
        (debt.0 > 0.0).then(|| Duration::from_secs_f64(debt.0 / self.rate().max(1) as f64).min(TURN))
    }

    fn pay(&self, (debt, since): &mut (f64, Instant)) {
        let paid = match self.rate() {
            0 => *debt,
            rate => rate as f64 * since.elapsed().as_secs_f64(),
        };
        (*debt, *since) = ((*debt - paid).max(0.0), Instant::now());
    }
}

#[cfg(test)]
mod tests {
    use super::*;

    #[test]
    fn keys_are_paid_for_by_time() {
        let pace = Pace { rate: 1000.into(), ..Pace::default() };
        assert_eq!(pace.wait(), None);
        pace.spend(10_000);
        assert_eq!(pace.wait(), Some(TURN));
        pace.rate.store(MOST, Relaxed);
        std::thread::sleep(Duration::from_millis(1));
        assert_eq!(pace.wait(), None);
        pace.rate.store(0, Relaxed);
        pace.spend(10_000);
        assert_eq!(pace.wait(), None);
    }
}
