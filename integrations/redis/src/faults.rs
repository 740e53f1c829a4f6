//! Switches that break the protocol on purpose, for the tests that must notice it. Without the
//! feature `faults` each of them is off.

use std::time::Duration;
use std::{env, process, thread};

/// Whether the environment variable SQUALL_FAULT names this one.
pub fn is_on(name: &str) -> bool {
    cfg!(feature = "faults") && env::var("SQUALL_FAULT").is_ok_and(|value| value == name)
}

/// Ends the program at once, as by force, if the environment variable SQUALL_STOP names this point of it. If SQUALL_WAIT does, it
/// waits there for a while.
pub fn stop_at(point: &str) {
    let is_named = |name| cfg!(feature = "faults") && env::var(name).is_ok_and(|value| value == point);
    if is_named("SQUALL_STOP") {
        process::exit(137);
    } else if is_named("SQUALL_WAIT") {
        thread::sleep(Duration::from_secs(1));
    }
}

/// The functions of a partition, of which some leave a look out.
pub fn in_guard(text: &str) -> String {
    let (open, blind) = (is_on("give-when-closed"), is_on("begin-blindly"));
    let text = if open || blind { text.replace("known().is_closed", "false") } else { text.to_string() };
    if blind {
        text.replace("return fault_of_left(course, args)", "return nil")
    } else {
        text
    }
}

/// How many of a hundred frames a node misses: SQUALL_MISS.
pub fn misses() -> u64 {
    if !cfg!(feature = "faults") {
        return 0;
    }
    let value = env::var("SQUALL_MISS").unwrap_or_default();
    value.parse().unwrap_or(0)
}
