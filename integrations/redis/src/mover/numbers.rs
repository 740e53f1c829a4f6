//! What a mover shows to Prometheus.

use super::progress::Progress;
use super::sizes::AllStuck;
use crate::args::Args;
use crate::bus::Node;
use crate::fault::Done;
use crate::metrics::{self, add_counters, add_gauges, of_bus, of_course};
use std::sync::Arc;

/// Shows how far the mover is, if the words of the command line name a port.
///
/// # Errors
///
/// The port can't be had.
pub fn show(args: &Args, bus: &Arc<Node>, progress: &Arc<Progress>, stuck: &Arc<AllStuck>) -> Done<()> {
    let (bus, progress, stuck) = (bus.clone(), progress.clone(), stuck.clone());
    metrics::serve(args, move || {
        let mut page = String::new();
        let counters = [
            ("moved_keys", "keys that this mover has moved", progress.moved() as u64),
            ("moved_chunks", "chunks that this mover has loaded", progress.steps() as u64),
        ];
        add_counters(&mut page, &counters);
        add_counters(&mut page, &of_bus(&bus));
        add_gauges(&mut page, &of_course(&bus)?);
        let gauges = [
            ("expected_keys", "keys that this mover has found to move", progress.expected() as u64),
            ("stuck_keys", "keys that their destination does not take", stuck.count() as u64),
            (
                "course_closed",
                "whether this mover ends its course, and gives nothing more in it",
                progress.is_closed().into(),
            ),
            ("rate_limit_keys", "keys that may move in a second; 0 is no limit", progress.rate()),
            ("uptime_seconds", "seconds since the program began", progress.took().as_secs()),
        ];
        add_gauges(&mut page, &gauges);
        Ok(page)
    })
}
