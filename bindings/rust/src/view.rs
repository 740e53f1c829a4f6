//! Views.

use crate::course::Place;
use crate::errand::Errand;
use crate::error::Error;
use crate::ffi::{self, RawView};
use crate::key::{Leg, Rank, all_legs};
use crate::room::Room;
use std::ops::Range;
use std::sync::{Mutex, PoisonError};

/// What a router said at one moment. It stays as it is, whatever the router takes later.
///
/// Any number of threads may route by one view at once, by `&View` or an `Arc`. They share nothing that
/// a call changes, so no call waits for another one. A clone shares the table, and is dropped by itself.
pub struct View {
    /// What the calls ask that only read a view.
    pub(crate) room: Room<RawView>,
    /// One more view of the same, from which clones are made: that call needs a view alone.
    spare: Mutex<Room<RawView>>,
}

// SAFETY: by rule 3 of the header any number of the calls that only read a view may run at once with
// one. With `room` no other call is made by a shared borrow. `spare` is behind a lock, and both are
// closed when the view is dropped, and nobody borrows it then.
unsafe impl Sync for View {}

impl View {
    /// No partition: what [`View::routes`] writes for a rank that is no key's.
    pub const NOWHERE: u32 = ffi::NOWHERE;

    /// The view that `open` opens.
    ///
    /// # Safety
    ///
    /// As for [`Room::new`].
    pub(crate) unsafe fn open(open: impl FnOnce(*mut RawView)) -> Result<View, Error> {
        // SAFETY: the caller keeps it.
        let room = unsafe { View::checked(open) }?;
        // SAFETY: the view was opened, and nobody else has it yet.
        let spare = unsafe { View::checked(|spare| ffi::squall_view_again(room.get(), spare)) }?;
        Ok(View {
            room,
            spare: Mutex::new(spare),
        })
    }

    /// The room of the view that `open` opens.
    ///
    /// # Safety
    ///
    /// As for [`Room::new`].
    unsafe fn checked(open: impl FnOnce(*mut RawView)) -> Result<Room<RawView>, Error> {
        // SAFETY: the caller keeps it.
        let room = unsafe { Room::new(open) };
        // SAFETY: the view was opened.
        Error::check(unsafe { ffi::squall_view_status(room.get()) }, u64::MAX)?;
        Ok(room)
    }

    /// One more view of the same, for a clone. No table is copied.
    fn another(&self) -> Room<RawView> {
        // A call with the spare one does not panic, so a lock that is poisoned says nothing of it.
        let spare = self.spare.lock().unwrap_or_else(PoisonError::into_inner);
        // SAFETY: the view was opened, and the lock keeps other calls from it.
        let again = unsafe { View::checked(|room| ffi::squall_view_again(spare.get(), room)) };
        // The status of a view that stands is passed on; no memory is asked for.
        again.expect("more views of one table than can be counted")
    }

    /// The partition to ask for the key of that rank; none where the rank is no key's.
    pub fn route(&self, key: Rank) -> Option<u32> {
        // SAFETY: the view was opened.
        let part = unsafe { ffi::squall_view_route(self.room.get(), key.0) };
        (part != ffi::NOWHERE).then_some(part)
    }

    /// Writes the partitions to ask for the keys of those ranks to the front of `parts`, as many as it
    /// holds, and says how many. [`View::NOWHERE`] stands for a rank that is no key's.
    pub fn routes(&self, keys: &[Rank], parts: &mut [u32]) -> usize {
        let ranks = keys.as_ptr().cast::<u64>();
        // SAFETY: the view was opened, a rank is a number, and the places are writable.
        unsafe {
            ffi::squall_view_routes(
                self.room.get(),
                ranks,
                keys.len(),
                parts.as_mut_ptr(),
                parts.len(),
            )
        }
    }

    /// Writes where those keys stand to the front of `places`, as many as it holds, and says how many.
    /// [`Place::NO_KEY`] stands for a rank that is no key's.
    pub fn locate(&self, keys: &[Rank], places: &mut [Place]) -> usize {
        let ranks = keys.as_ptr().cast::<u64>();
        // SAFETY: the view was opened, a rank is a number, and the places are writable.
        unsafe {
            ffi::squall_view_locate(
                self.room.get(),
                ranks,
                keys.len(),
                places.as_mut_ptr(),
                places.len(),
            )
        }
    }

    /// Where the key of that rank stands; none if the rank is no key's.
    pub fn place(&self, key: Rank) -> Option<Place> {
        let mut place = [Place::NO_KEY];
        self.locate(&[key], &mut place);
        (place[0] != Place::NO_KEY).then_some(place[0])
    }

    /// The legs of the keys, by rising key: neighbours have different partitions. None where there
    /// are no keys or a rank is above [`Rank::END`].
    pub fn legs(&self, keys: Range<Rank>) -> Vec<Leg> {
        let view = self.room.get();
        let hi = keys.end;
        all_legs(keys.start, hi, |lo, block| {
            // SAFETY: the view was opened, and the places are writable.
            unsafe { ffi::squall_view_legs(view, lo.0, hi.0, block.as_mut_ptr(), block.len()) }
        })
    }

    /// The number of the course by which its routes go.
    pub fn number(&self) -> u32 {
        // SAFETY: the view was opened.
        unsafe { ffi::squall_view_number(self.room.get()) }
    }

    /// An errand for the key, which begins at the partition to which the view routes it.
    ///
    /// # Errors
    ///
    /// [`Error::Limit`] where the rank is no key's.
    pub fn errand(&self, key: Rank) -> Result<Errand, Error> {
        // SAFETY: the view was opened.
        unsafe { Errand::open(|room| ffi::squall_errand_start_at(self.room.get(), key.0, room)) }
    }
}

/// One more view of the same. No table is copied.
impl Clone for View {
    fn clone(&self) -> View {
        View {
            room: self.another(),
            spare: Mutex::new(self.another()),
        }
    }
}
