//! Sets of keys: spans by rising key that do not touch.

pub type Span = (u64, u64);

/// The rank of the bound above all keys.
pub const TOP: u64 = 0xffff_ffff_0000_0000;

/// The keys of either set.
pub fn union(one: &[Span], other: &[Span]) -> Vec<Span> {
    let mut found: Vec<Span> = Vec::with_capacity(one.len() + other.len());
    let (mut i, mut j) = (0, 0);
    while i < one.len() || j < other.len() {
        let takes_one = j == other.len() || (i < one.len() && one[i].0 <= other[j].0);
        let (lo, hi) = if takes_one { one[i] } else { other[j] };
        i += usize::from(takes_one);
        j += usize::from(!takes_one);
        match found.last_mut() {
            Some(last) if lo <= last.1 => last.1 = last.1.max(hi),
            _ => found.push((lo, hi)),
        }
    }
    found
}

/// The keys of the first set that the second lacks.
pub fn minus(one: &[Span], other: &[Span]) -> Vec<Span> {
    let mut found = Vec::new();
    let mut from = 0;
    for &(mut lo, hi) in one {
        from += other[from..].partition_point(|it| it.1 <= lo);
        for &(start, end) in other[from..].iter().take_while(|it| it.0 < hi) {
            if lo < start {
                found.push((lo, start));
            }
            lo = lo.max(end);
        }
        if lo < hi {
            found.push((lo, hi));
        }
    }
    found
}

/// How many keys of the span the set has, and the first that it lacks.
pub fn within(set: &[Span], (lo, hi): Span) -> (u64, Option<Span>) {
    let from = set.partition_point(|it| it.1 <= lo);
    let (mut count, mut at, mut missing) = (0, lo, None);
    for &(start, end) in set[from..].iter().take_while(|it| it.0 < hi) {
        if at < start {
            missing.get_or_insert((at, start));
        }
        at = end.min(hi);
        count += at - start.max(lo);
    }
    if at < hi {
        missing.get_or_insert((at, hi));
    }
    (count, missing)
}
