//! Patterns of keys, as Redis has them.

/// Whether the pattern is that of all of the text.
pub fn matches(mut pattern: &[u8], mut text: &[u8]) -> bool {
    // What follows the last star, and the text that was left when it was met.
    let mut star: Option<(&[u8], &[u8])> = None;
    loop {
        if let Some(rest) = pattern.strip_prefix(b"*") {
            star = Some((rest, text));
            pattern = rest;
        } else if pattern.is_empty() && text.is_empty() {
            return true;
        } else if let Some(rest) = one(pattern, text) {
            (pattern, text) = (rest, &text[1..]);
        } else {
            match star {
                Some((rest, from)) if !from.is_empty() => {
                    star = Some((rest, &from[1..]));
                    (pattern, text) = (rest, &from[1..]);
                }
                _ => return false,
            }
        }
    }
}

/// What is left of the pattern if its beginning is the first byte of the text.
fn one<'a>(pattern: &'a [u8], text: &[u8]) -> Option<&'a [u8]> {
    let (&byte, (&mark, rest)) = (text.first()?, pattern.split_first()?);
    match mark {
        b'?' => Some(rest),
        b'[' => {
            let (is_in, rest) = class(rest, byte);
            is_in.then_some(rest)
        }
        b'\\' if !rest.is_empty() => (rest[0] == byte).then(|| &rest[1..]),
        mark => (mark == byte).then_some(rest),
    }
}

/// Whether a byte is in the class whose bracket is open, and what follows that. One without an end ends with the pattern.
fn class(mut rest: &[u8], byte: u8) -> (bool, &[u8]) {
    let is_other = rest.first() == Some(&b'^');
    rest = &rest[usize::from(is_other)..];
    let mut is_in = false;
    loop {
        match *rest {
            [] => return (is_in != is_other, rest),
            [b']', ..] => return (is_in != is_other, &rest[1..]),
            [b'\\', other, ..] => {
                is_in |= other == byte;
                rest = &rest[2..];
            }
            [low, b'-', high, ..] => {
                is_in |= (low.min(high)..=low.max(high)).contains(&byte);
                rest = &rest[3..];
            }
            [other, ..] => {
                is_in |= other == byte;
                rest = &rest[1..];
            }
        }
    }
}

#[cfg(test)]
mod tests {
    use super::*;

    #[test]
    fn patterns_are_those_of_redis() {
        for (pattern, yes, no) in [
            ("", &[""][..], &["a"][..]),
            ("*", &["", "a", "ab"], &[]),
            ("cart:*", &["cart:", "cart:7"], &["cart", "a:cart:"]),
            ("a*b*c", &["abc", "aXbYbZc"], &["ab", "abcd"]),
            ("h?llo", &["hello"], &["hllo", "heello"]),
            ("h[a-c]t", &["hat", "hct"], &["hdt", "ht"]),
            ("h[c-a]t", &["hbt"], &["hdt"]),
            ("h[^ab]t", &["hct"], &["hat"]),
            ("h[ab", &["ha", "hb"], &["hc"]),
            ("a\\*b", &["a*b"], &["aXb"]),
            ("[\\]x]", &["]", "x"], &["\\"]),
            ("*a*a*a*a*a*a*a*a*b", &[], &["aaaaaaaaaaaaaaaaaaaaaaaaaaaaaaaaaaaaaaaaaaaaaa"]),
        ] {
            for text in yes {
                assert!(matches(pattern.as_bytes(), text.as_bytes()), "{pattern} {text}");
            }
            for text in no {
                assert!(!matches(pattern.as_bytes(), text.as_bytes()), "{pattern} {text}");
            }
        }
    }
}
