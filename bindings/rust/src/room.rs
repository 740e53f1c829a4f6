//! Rooms: the memory in which routers, views, errands, courses, partitions and leaders live.

use crate::ffi::{self, RawCourse, RawErrand, RawLeader, RawPart, RawRouter, RawView};
use std::mem::MaybeUninit;
use std::ptr::{self, NonNull};

/// What can be in a room.
pub(crate) trait Handle: Sized {
    /// How many bytes its room has.
    fn size() -> usize;

    /// Closes it.
    ///
    /// # Safety
    ///
    /// It stands at `at`, and no call is made with `at` afterwards but one that opens.
    unsafe fn close(at: *mut Self);
}

/// Says by which functions of the library the size of a room is asked, and what is in it is closed.
macro_rules! handles {
    ($($raw:ty: $size:ident, $close:ident;)*) => {
        $(impl Handle for $raw {
            fn size() -> usize {
                ffi::$size()
            }

            unsafe fn close(at: *mut $raw) {
                // SAFETY: the caller keeps it.
                unsafe { ffi::$close(at) }
            }
        })*
    };
}

handles! {
    RawRouter: squall_router_size, squall_router_close;
    RawView: squall_view_size, squall_view_close;
    RawErrand: squall_errand_size, squall_errand_close;
    RawCourse: squall_course_size, squall_course_close;
    RawPart: squall_part_size, squall_part_close;
    RawLeader: squall_leader_size, squall_leader_close;
}

/// As much of a room as its alignment.
#[repr(C, align(16))]
struct Block([MaybeUninit<u8>; 16]);

/// A room in which something was opened. It is closed when the room is dropped.
///
/// It is not `Sync`, since a handle serves one call at a time. Only calls that read a view may share one,
/// which is why a `View` is `Sync`.
pub(crate) struct Room<H: Handle> {
    at: NonNull<H>,
    blocks: usize,
}

// SAFETY: a handle may pass from thread to thread as long as its calls are ordered, as those by an
// owned value or an exclusive borrow are. `Room` is not `Sync`, and no two threads borrow one.
unsafe impl<H: Handle> Send for Room<H> {}

impl<H: Handle> Room<H> {
    /// A room in which `open` opens something.
    ///
    /// # Safety
    ///
    /// `open` calls the function of the library that opens an `H`, once, with the pointer that it
    /// is given, which leads to a room for one.
    pub(crate) unsafe fn new(open: impl FnOnce(*mut H)) -> Room<H> {
        let blocks = H::size().div_ceil(size_of::<Block>());
        let room: Box<[Block]> = (0..blocks)
            .map(|_| Block([MaybeUninit::uninit(); 16]))
            .collect();
        let at = NonNull::from(Box::leak(room)).cast();
        open(at.as_ptr());
        Room { at, blocks }
    }

    /// What stands in the room, for calls that read.
    pub(crate) fn get(&self) -> *const H {
        self.at.as_ptr()
    }

    /// What stands in the room, for calls that change it.
    pub(crate) fn get_mut(&mut self) -> *mut H {
        self.at.as_ptr()
    }
}

impl<H: Handle> Drop for Room<H> {
    fn drop(&mut self) {
        let room = ptr::slice_from_raw_parts_mut(self.at.as_ptr().cast::<Block>(), self.blocks);
        // SAFETY: `new` opened what stands here, and nothing else closes it or frees the room.
        unsafe {
            H::close(self.at.as_ptr());
            drop(Box::from_raw(room));
        }
    }
}
