//! Which partition to ask for a key while partitions move.
//!
//! A [`Router`] knows an old and a new partition plan and takes reports of what was loaded where. It
//! says for each key which partition to ask. A [`View`] is what a router said at one moment, for
//! threads that only read. An [`Errand`] follows the replies of partitions until a key is found. A
//! [`Course`] says which keys move, from which partition to which. A [`Part`] gives and loads the keys of
//! a partition and replies to requests for them, and a [`Leader`] begins courses and opens their sub-plans.
//!
//! ```
//! use squall::{Rank, Router};
//!
//! let old = br#"{"plan":[{"part":1,"from":[0,0],"to":"end"}]}"#;
//! let new = br#"{"plan":[{"part":1,"from":[0,0],"to":[2,0]},{"part":3,"from":[2,0],"to":"end"}]}"#;
//! let mut router = Router::open(1, old, new)?;
//! let key = Rank::new(2, 7);
//! assert_eq!(router.route(key), Some(1));
//! router.loaded(1, 0, 3, Rank::new(2, 0)..Rank::new(3, 0))?;
//! assert_eq!(router.route(key), Some(3));
//! # Ok::<(), squall::Error>(())
//! ```
//!
//! This crate is a thin layer over the C library of squall, which is proved: that a router's answers
//! are right, and that its calls end and fault nowhere, rests on that. The layer itself is not
//! proved, and all of its `unsafe` code keeps the rules of the library's header.
//!
//! # Linking
//!
//! The crate has no dependencies. When a program is built, `SQUALL_DIR` names the folder with
//! `libsquall.a`, as `tools/library DIR` makes it or as the release holds it. Without it the library
//! that `pkg-config` finds is linked. `cargo check` and `cargo doc` need neither.
//!
//! # Threads
//!
//! A [`Router`], a [`Course`], an [`Errand`], a [`Part`] and a [`Leader`] serve one call at a time: they
//! are `Send` and not `Sync`. A [`View`] is both. So threads that route at the same time share one, and wait for nothing:
//!
//! ```
//! fn shared_by_threads<T: Send + Sync>() {}
//! shared_by_threads::<squall::View>();
//! ```
//!
//! ```compile_fail
//! fn shared_by_threads<T: Send + Sync>() {}
//! shared_by_threads::<squall::Router>();
//! ```
//!
//! # Memory
//!
//! The library allocates by `malloc`. If that fails, a call answers [`Error::NoMemory`] and has
//! changed nothing. Rooms and what this layer gives out, as the legs of [`Router::legs`], are
//! allocated as all else in Rust is.

use std::ffi::CStr;

mod course;
mod errand;
mod error;
mod ffi;
pub mod frame;
mod frames;
mod key;
mod leader;
#[cfg(squall_missing)]
mod missing;
mod part;
mod room;
mod router;
mod told;
mod view;

pub use course::{Course, Move, Place};
pub use errand::{Errand, Next, Reply};
pub use error::{Error, FrameFault, LeaderFault, PartFault, PlanFault};
pub use frames::Frames;
pub use key::{Leg, Rank, Span, key_of};
pub use leader::Leader;
pub use part::{Chunk, Loaded, Part};
pub use router::Router;
pub use told::Counts;
pub use view::View;

/// The version of the library that is linked, as `1.2.3`.
pub fn version() -> &'static str {
    // SAFETY: the library answers a text that ends in a 0 byte, never changes and is never freed.
    let text = unsafe { CStr::from_ptr(ffi::squall_version()) };
    text.to_str().unwrap_or_default()
}
