//! Keys, bounds, spans and legs.

use crate::ffi;
use std::fmt;

/// The rank of a key or a bound, which is what keys are ordered by: that of root:second is
/// `root * 2^32 + second`. The keys are below [`Rank::END`].
#[repr(transparent)]
#[derive(Clone, Copy, Debug, PartialEq, Eq, PartialOrd, Ord, Hash)]
pub struct Rank(pub u64);

impl Rank {
    /// The end of all keys, and no key itself.
    pub const END: Rank = Rank(0xffff_ffff_0000_0000);

    /// The rank of root:second.
    pub const fn new(root: u32, second: u32) -> Rank {
        Rank((root as u64) << 32 | second as u64)
    }
}

/// `root:second`, or `end`.
impl fmt::Display for Rank {
    fn fmt(&self, f: &mut fmt::Formatter<'_>) -> fmt::Result {
        if *self == Rank::END {
            f.write_str("end")
        } else {
            write!(f, "{}:{}", self.0 >> 32, self.0 & 0xffff_ffff)
        }
    }
}

/// The key to which a row belongs whose own key is these bytes. All programs of a deployment have to map
/// a row to the same key, and this is the map.
///
/// Bytes that begin with two numbers, as `2:7` or `2:7:cart`, belong to the key of these numbers. A
/// number has 1 to 10 decimal digits and is at most 4294967295, the first one at most 4294967294. All
/// other bytes belong to the key of a hash. It is that of the bytes between the first `{` and the next
/// `}` after it, if there is at least one, or else that of all bytes.
///
/// ```
/// use squall::{Rank, key_of};
///
/// assert_eq!(key_of(b"2:7:cart"), Rank::new(2, 7));
/// assert_eq!(key_of(b"cart{17}"), key_of(b"basket{17}"));
/// ```
pub fn key_of(row: &[u8]) -> Rank {
    // SAFETY: the bytes of a slice are readable, and do not change while it is borrowed.
    Rank(unsafe { ffi::squall_key_of(row.as_ptr(), row.len()) })
}

/// The keys from `lo` on, below `hi`.
#[repr(C)]
#[derive(Clone, Copy, Debug, PartialEq, Eq)]
pub struct Span {
    /// The first key.
    pub lo: Rank,
    /// Where the keys end.
    pub hi: Rank,
}

/// The keys from `lo` on, below `hi`, are to be asked for at the partition.
#[repr(C)]
#[derive(Clone, Copy, Debug, PartialEq, Eq)]
pub struct Leg {
    /// The first key.
    pub lo: Rank,
    /// Where the keys end.
    pub hi: Rank,
    /// The partition to ask.
    pub part: u32,
}

/// How many legs are asked for in one call.
const AT_ONCE: usize = 64;

/// All legs of the keys from `lo` on, below `hi`, by calls of `fill`, which writes as many as there
/// is room for, the first that begins at its argument, and says how many.
pub(crate) fn all_legs(
    mut lo: Rank,
    hi: Rank,
    fill: impl Fn(Rank, &mut [Leg; AT_ONCE]) -> usize,
) -> Vec<Leg> {
    let none = Leg {
        lo,
        hi: lo,
        part: 0,
    };
    let mut block = [none; AT_ONCE];
    let mut legs = Vec::new();
    while lo < hi {
        let count = fill(lo, &mut block);
        legs.extend_from_slice(&block[..count]);
        match block[..count].last() {
            Some(last) => lo = last.hi,
            None => break,
        }
    }
    legs
}
