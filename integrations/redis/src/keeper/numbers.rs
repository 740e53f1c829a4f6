//! What a node shows to Prometheus.

use crate::args::Args;
use crate::bus::Node;
use crate::fault::Done;
use crate::metrics::{self, add_counters, add_gauges, add_partitions, of_bus, of_course};
use std::collections::BTreeMap;
use std::sync::atomic::{AtomicU64, Ordering::Relaxed};
use std::sync::{Arc, Mutex, OnceLock, PoisonError};
use std::time::Instant;

/// What a node has counted, and seen of the partitions.
pub struct Numbers {
    began: Instant,
    /// The node of the bus, if there is one.
    pub node: OnceLock<Arc<Node>>,
    /// How often the board was written, and could not be.
    pub writes: AtomicU64,
    pub write_faults: AtomicU64,
    /// How often a partition was let in again.
    pub admissions: AtomicU64,
    partitions: Mutex<BTreeMap<u32, bool>>,
}

impl Numbers {
    /// Begins to count, and shows that if the words of the command line name a port.
    ///
    /// # Errors
    ///
    /// The port can't be had.
    pub fn show(args: &Args) -> Done<Arc<Numbers>> {
        let numbers = Arc::new(Numbers {
            began: Instant::now(),
            node: OnceLock::new(),
            writes: AtomicU64::new(0),
            write_faults: AtomicU64::new(0),
            admissions: AtomicU64::new(0),
            partitions: Mutex::default(),
        });
        let own = numbers.clone();
        metrics::serve(args, move || own.page())?;
        Ok(numbers)
    }

    /// Whether a partition lets routers in.
    pub fn see(&self, part: u32, is_up: bool) {
        self.partitions.lock().unwrap_or_else(PoisonError::into_inner).insert(part, is_up);
    }

    fn page(&self) -> Done<String> {
        let mut page = String::new();
        let read = |count: &AtomicU64| count.load(Relaxed);
        let counters = [
            ("board_writes", "how often the board was written", read(&self.writes)),
            ("board_faults", "how often the board could not be written", read(&self.write_faults)),
            ("admissions", "partitions that were let in again", read(&self.admissions)),
        ];
        add_counters(&mut page, &counters);
        if let Some(node) = self.node.get() {
            add_counters(&mut page, &of_bus(node));
            add_gauges(&mut page, &of_course(node)?);
        }
        let uptime = ("uptime_seconds", "seconds since the program began", self.began.elapsed().as_secs());
        add_gauges(&mut page, &[uptime]);
        let partitions = self.partitions.lock().unwrap_or_else(PoisonError::into_inner).clone();
        add_partitions(&mut page, partitions.into_iter());
        Ok(page)
    }
}
