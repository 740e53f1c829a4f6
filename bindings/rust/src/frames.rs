//! The frames that a router, a partition or a leader makes.

use crate::ffi::{self, RawLeader, RawPart, RawRouter};
use crate::room::Room;

/// The frames that a router, a partition or a leader has made, each with its bytes. Those that are not
/// taken are dropped when it makes others.
pub struct Frames<'a> {
    maker: &'a mut (dyn Maker + Send + 'static),
}

/// No limit but that of the format.
pub(crate) const NO_LIMIT: usize = usize::MAX;

/// What makes frames.
pub(crate) trait Maker {
    /// Writes the next frame that waits if there is room, and says how many bytes it has: 0 if none
    /// waits. It waits no longer once it is written.
    fn write_next(&mut self, out: &mut [u8]) -> usize;
}

impl Maker for Room<RawRouter> {
    fn write_next(&mut self, out: &mut [u8]) -> usize {
        // SAFETY: the router was opened, and the places are writable.
        unsafe { ffi::squall_router_frame(self.get_mut(), out.as_mut_ptr(), out.len()) }
    }
}

impl Maker for Room<RawPart> {
    fn write_next(&mut self, out: &mut [u8]) -> usize {
        // SAFETY: the partition was opened, and the places are writable.
        unsafe { ffi::squall_part_frame(self.get_mut(), out.as_mut_ptr(), out.len()) }
    }
}

impl Maker for Room<RawLeader> {
    fn write_next(&mut self, out: &mut [u8]) -> usize {
        // SAFETY: the leader was opened, and the places are writable.
        unsafe { ffi::squall_leader_frame(self.get_mut(), out.as_mut_ptr(), out.len()) }
    }
}

impl<'a> Frames<'a> {
    /// The frames that wait in it.
    pub(crate) fn of(maker: &'a mut (dyn Maker + Send + 'static)) -> Frames<'a> {
        Frames { maker }
    }
}

impl Iterator for Frames<'_> {
    type Item = Vec<u8>;

    fn next(&mut self) -> Option<Vec<u8>> {
        let len = self.maker.write_next(&mut []);
        if len == 0 {
            return None;
        }
        let mut frame = vec![0; len];
        self.maker.write_next(&mut frame);
        Some(frame)
    }
}
