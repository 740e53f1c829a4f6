//! The frames of single reports, for hosts that send a report and keep no router.
//!
//! ```
//! use squall::{Rank, Router, frame};
//!
//! let plan = br#"{"plan":[{"part":1,"from":[0,0],"to":"end"}]}"#;
//! let sent = frame::done(1, 0, 3)?;
//! let mut router = Router::open(1, plan, plan)?;
//! router.hear(&sent)?;
//! # Ok::<(), squall::Error>(())
//! ```

use crate::error::Error;
use crate::ffi;
use crate::key::Rank;
use std::ops::Range;

/// The frame of the report that partition `part` has loaded the keys in sub-plan `sub` of course
/// `number`.
///
/// # Errors
///
/// [`Error::Limit`] if there is no such report, as [`Router::loaded`](crate::Router::loaded) says it;
/// [`Error::NoMemory`].
pub fn loaded(number: u32, sub: u32, part: u32, keys: Range<Rank>) -> Result<Vec<u8>, Error> {
    let (lo, hi) = (keys.start.0, keys.end.0);
    written(Error::Limit, |out, room| {
        // SAFETY: the places are writable.
        unsafe { ffi::squall_frame_loaded(number, sub, part, lo, hi, out, room) }
    })
}

/// The frame of the report that the partition has all the keys that the sub-plan brings it.
///
/// # Errors
///
/// As [`loaded`].
pub fn done(number: u32, sub: u32, part: u32) -> Result<Vec<u8>, Error> {
    written(Error::Limit, |out, room| {
        // SAFETY: the places are writable.
        unsafe { ffi::squall_frame_done(number, sub, part, out, room) }
    })
}

/// The frame of the report that the sub-plan has been opened, and all those before it.
///
/// # Errors
///
/// As [`loaded`].
pub fn opened(number: u32, sub: u32) -> Result<Vec<u8>, Error> {
    written(Error::Limit, |out, room| {
        // SAFETY: the places are writable.
        unsafe { ffi::squall_frame_opened(number, sub, out, room) }
    })
}

/// The frame that `write` writes: it answers how many bytes the frame has, and writes them if there is
/// room. `none` if it has none.
pub(crate) fn written(
    none: Error,
    write: impl Fn(*mut u8, usize) -> usize,
) -> Result<Vec<u8>, Error> {
    let mut frame = vec![0; 64];
    loop {
        match write(frame.as_mut_ptr(), frame.len()) {
            0 => return Err(none),
            usize::MAX => return Err(Error::NoMemory),
            count if count <= frame.len() => {
                frame.truncate(count);
                return Ok(frame);
            }
            count => frame.resize(count, 0),
        }
    }
}

/// The same if it is a text, which is ASCII.
pub(crate) fn text(none: Error, write: impl Fn(*mut u8, usize) -> usize) -> Result<String, Error> {
    let bytes = written(none, write)?;
    Ok(String::from_utf8(bytes).expect("a text of the library is ASCII"))
}
