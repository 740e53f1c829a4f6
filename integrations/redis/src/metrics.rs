//! What programs count, as Prometheus reads it.

use crate::args::Args;
use crate::bus::Node;
use crate::fault::{Done, Trying};
use crate::http::{self, Answer, Site};
use std::fmt::Write as _;
use std::net::TcpListener;
use std::sync::atomic::{AtomicU64, Ordering::Relaxed};
use std::sync::Arc;
use std::thread;

/// The option that names the port.
pub const OPTION: &str = "metrics";

/// A number: its name, its help and its value.
pub type Number = (&'static str, &'static str, u64);

/// Appends numbers that only rise.
pub fn add_counters(page: &mut String, numbers: &[Number]) {
    for (name, help, value) in numbers {
        let name = format!("squall_{name}_total");
        let _ = write!(page, "# HELP {name} {help}\n# TYPE {name} counter\n{name} {value}\n");
    }
}

/// Appends numbers of now.
pub fn add_gauges(page: &mut String, numbers: &[Number]) {
    for (name, help, value) in numbers {
        let _ =
            write!(page, "# HELP squall_{name} {help}\n# TYPE squall_{name} gauge\nsquall_{name} {value}\n");
    }
}

/// Appends which partitions let routers in.
pub fn add_partitions(page: &mut String, states: impl Iterator<Item = (u32, bool)>) {
    let name = "squall_partition_up";
    let _ = write!(page, "# HELP {name} whether the partition lets proxies in\n# TYPE {name} gauge\n");
    for (part, is_up) in states {
        let _ = writeln!(page, "{name}{{partition=\"{part}\"}} {}", u8::from(is_up));
    }
}

/// What a node of the bus has counted.
pub fn of_bus(node: &Node) -> [Number; 6] {
    let read = |count: &AtomicU64| count.load(Relaxed);
    let counts = &node.counts;
    [
        ("frames_taken", "frames of the bus that were taken", read(&counts.taken)),
        ("frames_refused", "entries of the bus that are no frame", read(&counts.refused)),
        ("entries_foreign", "entries of the bus without this deployment's seal", read(&counts.foreign)),
        ("repairs_sent", "frames of repairs that were sent", read(&counts.repairs)),
        ("repairs_dropped", "repairs that another node sent first", read(&counts.dropped)),
        ("bus_faults", "faults of the connection to the bus", read(&counts.faults)),
    ]
}

/// What a node of the bus knows of the course.
///
/// # Errors
///
/// There is no memory.
pub fn of_course(node: &Node) -> Done<[Number; 5]> {
    let progress = node.progress()?;
    Ok([
        ("course", "the number of the course", u64::from(progress.number)),
        ("moves", "moves of the course", progress.moves as u64),
        ("moving_keys", "keys that the course moves", progress.moving),
        ("loaded_keys", "keys among them whose load is known", progress.loaded),
        ("bus_last_heard_seconds", "seconds since the bus said anything", node.silence().as_secs()),
    ])
}

/// A port that shows numbers alone.
struct Numbers<F>(F);

impl<F: Fn() -> Done<String> + Send + Sync> Site for Numbers<F> {
    fn answer(&self, path: &str) -> Answer {
        match path {
            "/metrics" => Answer::metrics((self.0)()),
            _ => Answer::missing("/metrics"),
        }
    }
}

/// Shows numbers, if the words of the command line name a port.
///
/// # Errors
///
/// The port can't be had.
pub fn serve(args: &Args, page: impl Fn() -> Done<String> + Send + Sync + 'static) -> Done<()> {
    serve_site(args, || Ok(Numbers(page)))
}

/// Shows a site, if the words of the command line name a port.
///
/// # Errors
///
/// The port can't be had.
pub fn serve_site<S: Site + 'static>(args: &Args, site: impl FnOnce() -> Done<S>) -> Done<()> {
    let Some(addr) = args.get(OPTION) else {
        return Ok(());
    };
    let listener = TcpListener::bind(addr).trying(|| format!("--metrics {addr}"))?;
    let site = Arc::new(site()?);
    thread::spawn(move || http::serve(&listener, &site));
    Ok(())
}
