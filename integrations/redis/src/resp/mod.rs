//! RESP, the protocol of Redis, in its versions 2 and 3.

mod command;
mod inline;
mod reply;
mod value;

pub use command::Parser;
pub use inline::unfold;
pub use reply::Scan;
pub use value::{error, push, texts, Value};

/// Why bytes are no RESP.
#[derive(Clone, Copy, Debug, PartialEq, Eq)]
pub struct Broken(pub &'static str);

impl std::fmt::Display for Broken {
    fn fmt(&self, f: &mut std::fmt::Formatter<'_>) -> std::fmt::Result {
        f.write_str(self.0)
    }
}

/// No line that gives a length or a number is longer.
const MOST_DIGITS: usize = 20;

/// The line that begins at `at`, without its end, and where the next one begins. None if it is cut.
fn line(bytes: &[u8], at: usize) -> Option<(&[u8], usize)> {
    let rest = bytes.get(at..)?;
    let len = rest.iter().position(|&byte| byte == b'\r')?;
    (rest.len() > len + 1).then(|| (&rest[..len], at + len + 2))
}

/// A number with an optional sign.
fn number(digits: &[u8]) -> Option<i64> {
    let (is_below, digits) = match digits.split_first()? {
        (b'-', digits) => (true, digits),
        _ => (false, digits),
    };
    if digits.is_empty() || digits.len() > MOST_DIGITS - 1 {
        return None;
    }
    let mut number = 0_i64;
    for &digit in digits {
        if !digit.is_ascii_digit() {
            return None;
        }
        number = number.checked_mul(10)?.checked_sub(i64::from(digit - b'0'))?;
    }
    if is_below {
        Some(number)
    } else {
        number.checked_neg()
    }
}
