//! What a worker counts.

use super::commands::{Kind, KINDS};
use std::fmt::Write as _;
use std::sync::atomic::{AtomicU64, Ordering::Relaxed};
use std::time::Duration;

/// The upper ends of the classes of waits, in milliseconds. No `--wait` is as long as the last one.
const CLASSES: [u64; 14] = [1, 2, 5, 10, 20, 50, 100, 500, 2000, 5000, 10_000, 60_000, 600_000, 4_000_000];

/// What a worker has counted.
#[derive(Default)]
pub struct Counts {
    /// Commands that clients sent.
    pub commands: AtomicU64,
    /// The same, by kind.
    kinds: [AtomicU64; KINDS.len()],
    /// Commands that the proxy does not serve.
    pub refused: AtomicU64,
    /// Replies that name another partition.
    pub moved: AtomicU64,
    /// Replies that a key is on its way.
    pub pending: AtomicU64,
    /// Replies that the partition is in another course.
    pub fenced: AtomicU64,
    /// Log-ins at partitions.
    pub logins: AtomicU64,
    /// Connections to partitions that were lost.
    pub lost: AtomicU64,
    /// Commands that waited too long.
    pub gave_up: AtomicU64,
    /// How often a client had to wait for memory, clients that were closed for want of it, and answers that were too
    /// large.
    pub held_back: AtomicU64,
    pub evicted: AtomicU64,
    pub too_large: AtomicU64,
    /// Messages of channels that clients were given.
    pub messages: AtomicU64,
    /// Commands that waited, by class, and how long they all did, in microseconds.
    waits: [AtomicU64; CLASSES.len() + 1],
    waited: AtomicU64,
}

/// Commands since the last turn of a worker's loop, which are then added to what it has counted.
#[derive(Default)]
pub struct Turn {
    kinds: [u64; KINDS.len()],
}

impl Turn {
    /// A client sent a command of that kind.
    pub fn count(&mut self, kind: Kind) {
        self.kinds[kind as usize] += 1;
    }
}

impl Counts {
    /// A command has waited that long.
    pub fn waited(&self, time: Duration) {
        let class = CLASSES.iter().position(|&most| time <= Duration::from_millis(most));
        self.waits[class.unwrap_or(CLASSES.len())].fetch_add(1, Relaxed);
        self.waited.fetch_add(time.as_micros() as u64, Relaxed);
    }

    /// Adds the commands of a turn, and begins the next one.
    pub fn add(&self, turn: &mut Turn) {
        let mut all = 0;
        for (count, new) in self.kinds.iter().zip(&mut turn.kinds).filter(|(_, new)| **new > 0) {
            count.fetch_add(*new, Relaxed);
            all += *new;
            *new = 0;
        }
        self.commands.fetch_add(all, Relaxed);
    }
}

/// Appends how many commands of each kind clients sent.
pub fn add_kinds(page: &mut String, counts: &[Counts]) {
    let name = "squall_commands_by_kind_total";
    let _ =
        write!(page, "# HELP {name} commands of clients, by what they are about\n# TYPE {name} counter\n");
    for (at, kind) in KINDS.iter().enumerate() {
        let count = sum(counts, |it| &it.kinds[at]);
        let _ = writeln!(page, "{name}{{kind=\"{kind}\"}} {count}");
    }
}

/// Appends the histogram of waits.
pub fn add_waits(page: &mut String, counts: &[Counts]) {
    let name = "squall_wait_seconds";
    let _ = write!(
        page,
        "# HELP {name} how long commands waited for keys on their way\n# TYPE {name} histogram\n"
    );
    let mut count = 0;
    for at in 0..=CLASSES.len() {
        count += sum(counts, |it| &it.waits[at]);
        let end = CLASSES.get(at).map_or("+Inf".into(), |&most| (most as f64 / 1000.0).to_string());
        let _ = writeln!(page, "{name}_bucket{{le=\"{end}\"}} {count}");
    }
    let sum = sum(counts, |it| &it.waited) as f64 / 1e6;
    let _ = write!(page, "{name}_sum {sum}\n{name}_count {count}\n");
}

/// What all workers have counted together.
pub fn sum(counts: &[Counts], of: impl Fn(&Counts) -> &AtomicU64) -> u64 {
    counts.iter().map(|counts| of(counts).load(Relaxed)).sum()
}

#[cfg(test)]
mod tests {
    use super::*;

    #[test]
    fn turns_are_added_once() {
        let counts = [Counts::default(), Counts::default()];
        let mut turn = Turn::default();
        turn.count(Kind::Hash);
        turn.count(Kind::Own);
        counts[0].add(&mut turn);
        counts[0].add(&mut turn);
        assert_eq!(sum(&counts, |it| &it.commands), 2);
        let mut page = String::new();
        add_kinds(&mut page, &counts);
        assert!(page.contains("{kind=\"hash\"} 1\n") && page.contains("{kind=\"own\"} 1\n"), "{page}");
        assert!(page.contains("{kind=\"list\"} 0\n"), "{page}");
    }

    #[test]
    fn waits_are_a_histogram() {
        let counts = [Counts::default()];
        counts[0].waited(Duration::from_millis(3));
        counts[0].waited(Duration::from_secs(60));
        let mut page = String::new();
        add_waits(&mut page, &counts);
        assert!(page.contains("_bucket{le=\"0.002\"} 0\n") && page.contains("_bucket{le=\"0.005\"} 1\n"));
        assert!(page.contains("_bucket{le=\"10\"} 1\n") && page.contains("_bucket{le=\"60\"} 2\n"));
        assert!(page.contains("_sum 60.003\n"), "{page}");
    }
}
