//! Dumps of keys, as a source gives them and a destination takes them.

use super::sizes::Why;
use crate::conn::passes;
use crate::resp::Value;
use squall::Rank;

/// How many keys are copied at once at most, and about how many bytes of them. Both servers and the mover
/// hold them meanwhile.
const BLOCK: usize = 64;
const BYTES: usize = 8 << 20;
/// What `PEXPIRETIME` says of a key that is not there.
const GONE: i64 = -2;

/// What was copied: how many bytes, and which of the keys can't be, if one can't. Those before it were copied.
#[derive(Default)]
pub struct Copied {
    pub bytes: usize,
    pub left: Option<(usize, Why)>,
}

/// Up to where all keys of a span were copied: its end, or the key that is left.
pub struct Put {
    pub end: Rank,
    pub left: Option<(Vec<u8>, Why)>,
}

/// Of the answers to puts the first one that refuses a row for good, by its place, and those that are no such refusals. A
/// refusal by the partition's own functions is none: it holds of all rows.
pub fn split(said: Vec<Value>) -> (Option<(usize, String)>, Vec<Value>) {
    let (mut refused, mut rest) = (None, Vec::new());
    for (at, value) in said.into_iter().enumerate() {
        match value {
            Value::Error(error) if !passes(&error) && !error.starts_with("SQUALL ") => {
                refused = refused.or(Some((at, error)));
            }
            value => rest.push(value),
        }
    }
    (refused, rest)
}

/// How many keys are copied at once after so many that had that many bytes: at most twice as many.
pub fn next_block(count: usize, bytes: usize) -> usize {
    (BYTES * count / bytes.max(1)).clamp(1, BLOCK.min(2 * count))
}

/// What a source has said of a key: its dump, and when it ends. None in it if the key has ended, was deleted, or
/// another mover has loaded it and forgotten it here. A large value may end while it is dumped. None if it is no dump.
pub fn dumped(said: &[Value]) -> Option<Option<(&[u8], i64)>> {
    match said {
        [Value::Nil, _] | [Value::Bulk(_), Value::Int(GONE)] => Some(None),
        [Value::Bulk(dump), Value::Int(ends)] => Some(Some((dump, *ends))),
        _ => None,
    }
}

#[cfg(test)]
mod tests {
    use super::*;

    #[test]
    fn large_values_are_copied_one_by_one() {
        assert_eq!([next_block(1, 100), next_block(16, 1600), next_block(64, 6400)], [2, 32, 64]);
        assert_eq!([next_block(64, 64 << 20), next_block(8, 80 << 20), next_block(1, 100 << 20)], [8, 1, 1]);
        assert_eq!(next_block(3, 0), 6);
    }

    #[test]
    fn rows_that_are_refused_are_told_from_servers_that_refuse() {
        let error = |text: &str| Value::Error(text.into());
        let put = || Value::Status("put".into());
        let said = vec![put(), error("OOM x"), error("ERR Bad"), error("SQUALL BACK 2"), error("ERR other")];
        let (refused, rest) = split(said);
        assert_eq!(refused, Some((2, "ERR Bad".to_string())));
        assert_eq!(rest, [put(), error("OOM x"), error("SQUALL BACK 2")]);
    }

    #[test]
    fn keys_that_have_ended_are_not_put() {
        let dump = || Value::Bulk(b"x".to_vec());
        assert_eq!(dumped(&[dump(), Value::Int(-1)]), Some(Some((&b"x"[..], -1))));
        assert_eq!(dumped(&[dump(), Value::Int(7)]), Some(Some((&b"x"[..], 7))));
        // Without an end it would be put for ever.
        assert_eq!(dumped(&[dump(), Value::Int(-2)]), Some(None));
        assert_eq!(dumped(&[Value::Nil, Value::Int(-2)]), Some(None));
        assert_eq!(dumped(&[Value::Int(1), Value::Int(1)]), None);
    }
}
