//! How a program that is asked to end, by SIGTERM or SIGINT, ends in an orderly way.

use crate::fault::{Done, Fault, Trying};
use signal_hook::consts::{SIGHUP, SIGINT, SIGTERM};
use signal_hook::iterator::Signals;
use std::sync::{Condvar, Mutex, MutexGuard, PoisonError};
use std::thread;
use std::time::Duration;

static ASKED: Mutex<bool> = Mutex::new(false);
static NEWS: Condvar = Condvar::new();

fn lock() -> MutexGuard<'static, bool> {
    ASKED.lock().unwrap_or_else(PoisonError::into_inner)
}

/// From now on a signal only asks the program to end, and calls the function. A second one ends it at once.
///
/// # Errors
///
/// The system does not let it hear signals.
pub fn watch(tell: impl Fn() + Send + 'static) -> Done<()> {
    let mut signals = Signals::new([SIGINT, SIGTERM]).trying(|| "to hear signals".to_string())?;
    thread::spawn(move || {
        let mut signals = signals.forever();
        if signals.next().is_some() {
            *lock() = true;
            NEWS.notify_all();
            tell();
        }
        if let Some(number) = signals.next() {
            std::process::exit(128 + number);
        }
    });
    Ok(())
}

/// From now on SIGHUP calls the function, and does not end the program.
///
/// # Errors
///
/// The system does not let it hear signals.
pub fn on_hang_up(tell: impl Fn() + Send + 'static) -> Done<()> {
    let mut signals = Signals::new([SIGHUP]).trying(|| "to hear signals".to_string())?;
    thread::spawn(move || signals.forever().for_each(|_| tell()));
    Ok(())
}

/// Whether the program was asked to end.
pub fn is_asked() -> bool {
    *lock()
}

/// Nothing, unless the program was asked to end.
///
/// # Errors
///
/// It was.
pub fn check() -> Done<()> {
    if is_asked() {
        return Err(Fault::new("stopped; start it again with the same words"));
    }
    Ok(())
}

/// Sleeps, but no longer than until the program is asked to end.
pub fn sleep(time: Duration) {
    drop(NEWS.wait_timeout_while(lock(), time, |is_asked| !*is_asked));
}

/// Waits until the program is asked to end.
pub fn wait() {
    drop(NEWS.wait_while(lock(), |is_asked| !*is_asked));
}
