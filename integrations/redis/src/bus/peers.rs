//! Other nodes of a bus, by the digests that they show.

use super::entry::Entry;
use std::collections::BTreeMap;
use std::time::{Duration, Instant};

/// How long it is known what a node has shown.
const KEPT: Duration = Duration::from_secs(60);

/// What other nodes have shown last.
pub struct Peers {
    /// When that was, by their names, and whether it differed from what this node knew.
    shown: BTreeMap<String, (Instant, bool)>,
    /// When a digest was heard last that differs.
    differed: Instant,
}

impl Peers {
    /// Those of a node that begins now.
    pub fn new(now: Instant) -> Peers {
        Peers { shown: BTreeMap::new(), differed: now }
    }

    /// Takes digests, of which this node's own has the given frames.
    pub fn take(&mut self, digests: &[Entry], own: &[Vec<u8>], now: Instant) {
        for entry in digests {
            let differs = !own.contains(&entry.frame);
            self.shown.insert(entry.from.clone(), (now, differs));
            if differs {
                self.differed = now;
            }
        }
        self.shown.retain(|_, (at, _)| now - *at < KEPT);
    }

    /// None counts as different until now.
    pub fn begin(&mut self, now: Instant) {
        self.differed = now;
    }

    /// For how long nobody has shown another digest.
    pub fn quiet(&self) -> Duration {
        self.differed.elapsed()
    }

    /// The names of those whose last digest since then was another one.
    pub fn behind(&self, since: Instant) -> Vec<String> {
        let behind = self.shown.iter().filter(|(_, (at, differs))| *differs && *at >= since);
        behind.map(|(name, _)| name.clone()).collect()
    }
}

#[cfg(test)]
mod tests {
    use super::*;

    #[test]
    fn those_that_lag_are_named() {
        let began = Instant::now();
        let shown = |from: &str, frame: &[u8]| Entry {
            id: String::new(),
            from: from.into(),
            frame: frame.to_vec(),
            re: None,
        };
        let mut peers = Peers::new(began);
        let own = [b"new".to_vec()];
        peers.take(&[shown("a", b"old"), shown("b", b"old"), shown("c", b"new")], &own, began);
        peers.take(&[shown("b", b"new")], &own, began);
        assert_eq!(peers.behind(began), ["a"]);
        assert!(peers.behind(began + Duration::from_millis(1)).is_empty());
        peers.take(&[], &own, began + KEPT);
        assert!(peers.behind(began).is_empty());
    }
}
