//! How far a mover is, on standard error.

use super::pace::Pace;
use crate::log;
use std::io::{self, IsTerminal, Write};
use std::sync::atomic::{AtomicBool, AtomicUsize, Ordering::Relaxed};
use std::sync::Arc;
use std::thread;
use std::time::{Duration, Instant};

/// How many keys have moved, of how many.
pub struct Progress {
    began: Instant,
    pace: Arc<Pace>,
    moved: AtomicUsize,
    expected: AtomicUsize,
    steps: AtomicUsize,
    is_closed: AtomicBool,
    is_over: AtomicBool,
}

/// The width of the bar.
const WIDTH: usize = 30;

impl Progress {
    /// Nothing has moved.
    pub fn new(pace: Arc<Pace>) -> Progress {
        Progress {
            began: Instant::now(),
            pace,
            moved: AtomicUsize::new(0),
            expected: AtomicUsize::new(0),
            steps: AtomicUsize::new(0),
            is_closed: AtomicBool::new(false),
            is_over: AtomicBool::new(false),
        }
    }

    /// That many keys more are to move.
    pub fn expect(&self, count: usize) {
        self.expected.fetch_add(count, Relaxed);
    }

    /// The mover begins again, with what has not moved.
    pub fn restart(&self) {
        self.expected.store(self.moved(), Relaxed);
    }

    /// A chunk is loaded.
    pub fn step(&self) {
        self.steps.fetch_add(1, Relaxed);
    }

    /// How many chunks are.
    pub fn steps(&self) -> usize {
        self.steps.load(Relaxed)
    }

    /// That many more have moved.
    pub fn forgot(&self, count: usize) {
        self.moved.fetch_add(count, Relaxed);
    }

    /// How many have moved.
    pub fn moved(&self) -> usize {
        self.moved.load(Relaxed)
    }

    /// How many are to move, as far as is known.
    pub fn expected(&self) -> usize {
        self.expected.load(Relaxed)
    }

    /// The course is closed, and what was given in it comes to its end; or no longer.
    pub fn set_closed(&self, is_closed: bool) {
        self.is_closed.store(is_closed, Relaxed);
    }

    /// Whether it is.
    pub fn is_closed(&self) -> bool {
        self.is_closed.load(Relaxed)
    }

    /// How many may move in a second; 0 is no limit.
    pub fn rate(&self) -> u64 {
        self.pace.rate()
    }

    /// How long that took.
    pub fn took(&self) -> Duration {
        self.began.elapsed()
    }

    /// Ends what `show` shows.
    pub fn finish(&self) {
        self.is_over.store(true, Relaxed);
    }

    /// Shows how far it is until it is over: a bar on a terminal, else a line every few seconds.
    pub fn show(&self) {
        let is_bar = io::stderr().is_terminal();
        let mut said = Instant::now();
        while !self.is_over.load(Relaxed) {
            thread::sleep(Duration::from_millis(100));
            if is_bar {
                let _ = write!(io::stderr(), "\r{}", self.bar());
            } else if said.elapsed() >= Duration::from_secs(5) {
                log::info(self.line());
                said = Instant::now();
            }
        }
        if is_bar {
            let _ = write!(io::stderr(), "\r{}\r", " ".repeat(WIDTH + 60));
        }
    }

    fn bar(&self) -> String {
        let all = self.expected.load(Relaxed).max(1);
        let full = (self.moved() * WIDTH / all).min(WIDTH);
        let bar = "#".repeat(full) + &"-".repeat(WIDTH - full);
        format!("[{bar}] {:<50}", self.line())
    }

    fn line(&self) -> String {
        let (moved, all) = (self.moved(), self.expected.load(Relaxed));
        let rate = moved as f64 / self.took().as_secs_f64().max(0.001);
        let left = all.saturating_sub(moved) as f64 / rate.max(1.0);
        let limit = match self.pace.rate() {
            0 => String::new(),
            limit => format!(" of at most {limit}/s"),
        };
        if self.is_closed() {
            return format!("the course is closed; {moved} keys, {rate:.0}/s{limit}");
        }
        format!("{moved} of {all} keys, {rate:.0}/s{limit}, {left:.0} s left")
    }
}

#[cfg(test)]
mod tests {
    use super::*;

    #[test]
    fn the_bar_fills() {
        let progress = Progress::new(Arc::default());
        progress.expect(10);
        assert!(progress.bar().starts_with("[------"));
        progress.forgot(5);
        assert!(progress.bar().starts_with("[###############-"));
        // Keys that came later are moved too.
        progress.forgot(6);
        assert!(progress.bar().contains("11 of 10 keys"));
        progress.set_closed(true);
        assert!(progress.bar().contains("the course is closed; 11 keys"));
    }
}
