//! What a router says of itself, and what changes between two views.

use crate::error::Error;
use crate::ffi;
use crate::frame;
use crate::key::{Rank, Span};
use crate::router::Router;
use crate::view::View;
use std::ops::Range;
use std::ptr;

/// How much a router heard, or by [`Router::limit`] may hear. A number that does not fit is the
/// greatest one that does.
#[repr(C)]
#[derive(Clone, Copy, Debug, Default, PartialEq, Eq)]
pub struct Counts {
    /// Of how many partitions in a sub-plan of a course something was reported.
    pub cells: u64,
    /// The spans of keys that were loaded, over all cells.
    pub spans: u64,
    /// The sub-plans that are opened, over all courses.
    pub opened: u64,
    /// The numbers under which plans were issued.
    pub issues: u64,
}

impl Counts {
    /// No limit, for [`Router::limit`]. A limit on some of the numbers takes the others from here, as
    /// `Counts { cells: 1000, ..Counts::NO_LIMIT }`.
    pub const NO_LIMIT: Counts = Counts {
        cells: u64::MAX,
        spans: u64::MAX,
        opened: u64::MAX,
        issues: u64::MAX,
    };
}

/// How many spans are asked for in one call.
const AT_ONCE: usize = 64;

impl Router {
    /// Whether it heard of different pairs of plans under a number above that of its course. Such a
    /// number has no course.
    ///
    /// # Errors
    ///
    /// [`Error::NoMemory`].
    pub fn clashed(&self) -> Result<bool, Error> {
        // SAFETY: the router was opened.
        match unsafe { ffi::squall_router_clashed(self.room.get()) } {
            usize::MAX => Err(Error::NoMemory),
            answer => Ok(answer == 1),
        }
    }

    /// How much it heard.
    ///
    /// # Errors
    ///
    /// [`Error::NoMemory`].
    pub fn counts(&self) -> Result<Counts, Error> {
        let mut counts = Counts::default();
        // SAFETY: the router was opened, and there is one place to write to.
        match unsafe { ffi::squall_router_counts(self.room.get(), &mut counts, 1) } {
            usize::MAX => Err(Error::NoMemory),
            _ => Ok(counts),
        }
    }

    /// How far its course has come, in the lines of the command `squall status`.
    ///
    /// ```
    /// use squall::Router;
    ///
    /// let plan = br#"{"plan":[{"part":1,"from":[0,0],"to":"end"}]}"#;
    /// let router = Router::open(1, plan, plan)?;
    /// let line =
    ///     "course 1 moves 0 of 0 sub-plans 0 of 0 open none loaded 0 of 0 keys share 1000/1000\n";
    /// assert_eq!(router.status_text()?, line);
    /// # Ok::<(), squall::Error>(())
    /// ```
    ///
    /// # Errors
    ///
    /// [`Error::NoMemory`].
    pub fn status_text(&self) -> Result<String, Error> {
        frame::text(Error::NoMemory, |out, room| {
            // SAFETY: the router was opened, and the places are writable.
            unsafe { ffi::squall_router_status_text(self.room.get(), out, room) }
        })
    }

    /// A picture of how far its course has come, in SVG.
    ///
    /// # Errors
    ///
    /// [`Error::NoMemory`].
    pub fn picture(&self) -> Result<String, Error> {
        frame::text(Error::NoMemory, |out, room| {
            // SAFETY: the router was opened, and the places are writable.
            unsafe { ffi::squall_router_picture(self.room.get(), out, room) }
        })
    }
}

impl View {
    /// The spans of the keys for which this view and a later one have different routes, by rising key,
    /// each as long as can be. Ranks from [`Rank::END`] on are no keys, and in none of them.
    ///
    /// A proxy that holds requests back wakes only those that are for keys of these spans:
    ///
    /// ```
    /// # use squall::{Rank, Router, Span};
    /// # let old = br#"{"plan":[{"part":1,"from":[0,0],"to":"end"}]}"#;
    /// # let new = br#"{"plan":[{"part":3,"from":[0,0],"to":"end"}]}"#;
    /// # let mut router = Router::open(1, old, new)?;
    /// let before = router.view()?;
    /// let (lo, hi) = (Rank::new(2, 0), Rank::new(3, 0));
    /// router.loaded(1, 0, 3, lo..hi)?;
    /// let changed = before.changes(&router.view()?, Rank(0)..Rank::END);
    /// assert_eq!(changed, [Span { lo, hi }]);
    /// # Ok::<(), squall::Error>(())
    /// ```
    pub fn changes(&self, after: &View, keys: Range<Rank>) -> Vec<Span> {
        let mut spans = Vec::new();
        // The call needs two handles, and a view does not differ from itself.
        if ptr::eq(self, after) {
            return spans;
        }
        let (before, after) = (self.room.get(), after.room.get());
        let mut lo = keys.start;
        let mut block = [Span { lo, hi: lo }; AT_ONCE];
        loop {
            // SAFETY: both views were opened, their handles differ, and the places are writable.
            let count = unsafe {
                ffi::squall_view_changes(
                    before,
                    after,
                    lo.0,
                    keys.end.0,
                    block.as_mut_ptr(),
                    block.len(),
                )
            };
            spans.extend_from_slice(&block[..count]);
            if count < block.len() {
                return spans;
            }
            lo = block[count - 1].hi;
        }
    }
}
