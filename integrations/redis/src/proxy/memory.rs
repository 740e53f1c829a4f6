//! How much memory a proxy takes for what its clients have sent and are answered.
//!
//! Each client has room for some answers, and is sent no more requests for than fit. All of them together have one
//! bound. When it is reached, nothing more is read from those that hold more than their share. If that is not enough,
//! the one that holds most is closed, time after time.

use super::client::Client;
use super::worker::Worker;
use crate::args::Args;
use crate::fault::Done;
use crate::log;
use std::fs;
use std::sync::atomic::{AtomicBool, AtomicUsize, Ordering::Relaxed};
use std::time::{Duration, Instant};

/// The least part of the bound that a client may hold.
const SHARE: usize = 1 << 16;
/// How long the bound may be reached before a client is closed.
const BORNE: Duration = Duration::from_secs(1);
const MIB: usize = 1 << 20;
/// The bound in MiB if the machine does not say what it has, and the least one.
const OTHERWISE: usize = 1024;
const LEAST: usize = 64;

/// The bound of the whole process, and what is held of it.
pub struct Bound {
    most: usize,
    held: AtomicUsize,
    is_said: AtomicBool,
}

impl Bound {
    /// What the words of the command line say: by default a quarter of what the machine has.
    ///
    /// # Errors
    ///
    /// The word is no number of MiB.
    pub fn of(args: &Args) -> Done<Bound> {
        let most = args.number("memory", of_machine() as u64, LEAST as u64, 1 << 24)? as usize * MIB;
        Ok(Bound { most, held: AtomicUsize::new(0), is_said: AtomicBool::new(false) })
    }

    /// How many bytes are held.
    pub fn held(&self) -> usize {
        self.held.load(Relaxed)
    }

    /// A worker holds so many bytes, and held so many before.
    fn change(&self, before: usize, now: usize) {
        if now > before {
            self.held.fetch_add(now - before, Relaxed);
        } else {
            self.held.fetch_sub(before - now, Relaxed);
        }
    }

    /// Whether it is reached. That is said once.
    fn is_reached(&self) -> bool {
        let is_reached = self.held() >= self.most;
        if is_reached && !self.is_said.swap(true, Relaxed) {
            log::warn(format!(
                "--memory {} is reached: nothing more is read from clients that hold more than their \
                 share",
                self.most / MIB
            ));
        }
        is_reached
    }
}

/// A quarter of the memory that the machine has, or that this group of processes may use, in MiB.
fn of_machine() -> usize {
    let read = |path| fs::read_to_string(path).unwrap_or_default();
    let machine = total(&read("/proc/meminfo"));
    let group = read("/sys/fs/cgroup/memory.max").trim().parse().ok().map(|bytes: usize| bytes / MIB);
    let least = machine.into_iter().chain(group).min();
    least.map_or(OTHERWISE, |mib| mib / 4).max(LEAST)
}

/// What the system says that the machine has, in MiB.
fn total(said: &str) -> Option<usize> {
    let line = said.lines().find_map(|line| line.strip_prefix("MemTotal:"))?;
    let kib: usize = line.split_whitespace().next()?.parse().ok()?;
    Some(kib / 1024)
}

/// What a worker knows of the bound.
#[derive(Default)]
pub struct Account {
    /// What its clients and its connections to partitions hold, and what all workers know of that.
    clients: usize,
    upstreams: usize,
    told: usize,
    /// Since when the bound is reached, and what a client may hold until it is not.
    since: Option<Instant>,
    share: usize,
    /// Clients from which nothing is read until then.
    back: Vec<usize>,
}

impl Account {
    /// A client holds so much now.
    pub fn note(&mut self, client: &mut Client) {
        let now = client.footprint();
        self.clients = self.clients + now - client.counted;
        client.counted = now;
    }

    /// A client is gone.
    pub fn forget(&mut self, client: &Client) {
        self.clients -= client.counted;
    }

    /// Whether clients wait for memory.
    pub fn has_waiting(&self) -> bool {
        !self.back.is_empty()
    }

    /// Whether a client has to wait for memory.
    fn is_above(&self, client: &Client) -> bool {
        self.since.is_some() && client.footprint() > self.share
    }
}

impl Worker {
    /// Whether nothing is read from a client, and nothing sent for it, since it holds more than its share.
    pub(super) fn holds_back(&mut self, at: usize, client: &mut Client) -> bool {
        if !self.account.is_above(client) {
            return false;
        }
        if !client.is_back {
            client.is_back = true;
            self.account.back.push(at);
            self.counts().held_back.fetch_add(1, Relaxed);
        }
        true
    }

    /// Tells the others what this worker holds, and looks whether all of them hold too much.
    pub(super) fn weigh(&mut self) {
        let bound = &self.shared.bound;
        let now = self.account.clients + self.account.upstreams;
        bound.change(self.account.told, now);
        self.account.told = now;
        if bound.is_reached() {
            self.account.since.get_or_insert(self.now);
            self.account.share = (bound.most / self.shared.clients.load(Relaxed).max(1)).max(SHARE);
        } else {
            self.account.since = None;
        }
    }

    /// Counts what the connections to partitions hold. Clients that waited for memory go on if there is some, or if others
    /// are gone and their share is larger. If there was none for long, the one that holds most is closed.
    pub(super) fn watch_memory(&mut self) {
        let all = self.upstreams.iter();
        self.account.upstreams = all.map(|it| it.heard.capacity() + it.out.bytes.capacity()).sum();
        for at in std::mem::take(&mut self.account.back) {
            let Some(client) = self.clients.get_mut(at).and_then(Option::as_mut) else {
                continue;
            };
            client.is_back = self.account.is_above(client);
            if client.is_back {
                self.account.back.push(at);
            } else {
                self.wake(at);
            }
        }
        if self.account.since.is_some_and(|since| self.now - since > BORNE) {
            self.evict();
        }
    }

    /// Closes the client that holds most.
    fn evict(&mut self) {
        let all = self.clients.iter().enumerate();
        let held = all.filter_map(|(at, client)| Some((client.as_ref()?.footprint(), at)));
        let Some((_, at)) = held.max().filter(|&(held, _)| held > self.account.share) else {
            return;
        };
        if let Some(client) = self.clients[at].take() {
            self.counts().evicted.fetch_add(1, Relaxed);
            self.put_back(at, client, false);
        }
    }
}

#[cfg(test)]
mod tests {
    use super::*;

    #[test]
    fn the_machine_says_what_it_has() {
        assert_eq!(total("MemTotal:       24682836 kB\nMemFree: 1 kB\n"), Some(24104));
        assert_eq!(total(""), None);
        assert!(of_machine() >= LEAST);
    }
}
