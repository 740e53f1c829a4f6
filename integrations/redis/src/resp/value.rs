//! Values of replies, for programs that look into them.

use super::{line, number, Broken, Scan};

/// No lists that are read lie deeper in each other.
const DEEPEST: usize = 32;

/// A reply of RESP2.
#[derive(Clone, Debug, PartialEq)]
pub enum Value {
    /// A short text, as OK.
    Status(String),
    /// A text that says why a command was not done.
    Error(String),
    /// A number.
    Int(i64),
    /// Bytes.
    Bulk(Vec<u8>),
    /// Values.
    List(Vec<Value>),
    /// Nothing.
    Nil,
}

impl Value {
    /// The value at the beginning of `bytes`, and how many bytes it has. None if it is cut.
    pub fn read(bytes: &[u8]) -> Result<Option<(Value, usize)>, Broken> {
        match Scan::default().read(bytes)? {
            None => Ok(None),
            Some(_) => value(bytes, 0, DEEPEST).map(Some),
        }
    }

    /// The values of a list; none of another one.
    pub fn list(self) -> Vec<Value> {
        match self {
            Value::List(list) => list,
            _ => Vec::new(),
        }
    }

    /// The bytes of what is written as one text; none of a list, and of nothing.
    pub fn bytes(self) -> Vec<u8> {
        match self {
            Value::Bulk(bytes) => bytes,
            Value::Status(text) | Value::Error(text) => text.into_bytes(),
            Value::Int(number) => number.to_string().into_bytes(),
            Value::List(_) | Value::Nil => Vec::new(),
        }
    }

    /// The same as a text.
    pub fn text(self) -> String {
        String::from_utf8_lossy(&self.bytes()).into_owned()
    }
}

/// The value at `at` in whole bytes, and where it ends. No lists in it may lie deeper in each other.
fn value(bytes: &[u8], at: usize, depth: usize) -> Result<(Value, usize), Broken> {
    let broken = Broken("a reply of another form");
    let (line, next) = line(bytes, at).ok_or(broken)?;
    let (&kind, rest) = line.split_first().ok_or(broken)?;
    let text = || String::from_utf8_lossy(rest).into_owned();
    match kind {
        b'+' => Ok((Value::Status(text()), next)),
        b'-' => Ok((Value::Error(text()), next)),
        b':' => Ok((Value::Int(number(rest).ok_or(broken)?), next)),
        b'$' => match usize::try_from(number(rest).ok_or(broken)?) {
            Err(_) => Ok((Value::Nil, next)),
            Ok(len) => {
                let bulk = bytes.get(next..next + len).ok_or(broken)?;
                Ok((Value::Bulk(bulk.to_vec()), next + len + 2))
            }
        },
        b'*' => match usize::try_from(number(rest).ok_or(broken)?) {
            Err(_) => Ok((Value::Nil, next)),
            Ok(count) => list(bytes, next, count, depth.checked_sub(1).ok_or(broken)?),
        },
        _ => Err(broken),
    }
}

fn list(bytes: &[u8], mut at: usize, count: usize, depth: usize) -> Result<(Value, usize), Broken> {
    let mut list = Vec::new();
    for _ in 0..count {
        let (item, end) = value(bytes, at, depth)?;
        list.push(item);
        at = end;
    }
    Ok((Value::List(list), at))
}

/// The texts with which a list or a push begins.
pub fn texts(list: &[u8]) -> Vec<&[u8]> {
    let mut texts = Vec::new();
    let mut at = line(list, 0).map_or(list.len(), |(_, next)| next);
    while let Some((head, next)) = line(list, at) {
        let len = head.strip_prefix(b"$").and_then(number).and_then(|len| usize::try_from(len).ok());
        let Some(text) = len.and_then(|len| list.get(next..next + len)) else {
            break;
        };
        texts.push(text);
        at = next + text.len() + 2;
    }
    texts
}

/// Appends a command.
pub fn push<W: AsRef<[u8]>>(out: &mut Vec<u8>, words: &[W]) {
    count(out, b'*', words.len());
    for word in words {
        let word = word.as_ref();
        count(out, b'$', word.len());
        out.extend_from_slice(word);
        out.extend_from_slice(b"\r\n");
    }
}

/// Appends a line of a mark and a number.
fn count(out: &mut Vec<u8>, mark: u8, number: usize) {
    out.push(mark);
    out.extend_from_slice(number.to_string().as_bytes());
    out.extend_from_slice(b"\r\n");
}

/// The bytes of an error.
pub fn error(text: &str) -> Vec<u8> {
    format!("-{text}\r\n").into_bytes()
}

#[cfg(test)]
mod tests {
    use super::*;

    #[test]
    fn values_are_read() {
        let bytes = b"*4\r\n$2\r\nab\r\n:-7\r\n$-1\r\n*1\r\n+OK\r\n";
        let wanted = Value::List(vec![
            Value::Bulk(b"ab".to_vec()),
            Value::Int(-7),
            Value::Nil,
            Value::List(vec![Value::Status("OK".into())]),
        ]);
        assert_eq!(Value::read(bytes), Ok(Some((wanted, bytes.len()))));
        assert_eq!(Value::read(&bytes[..9]), Ok(None));
        assert!(Value::read(b"!\r\n").is_err());
        let deep = |depth| ["*1\r\n".repeat(depth), ":1\r\n".into()].concat();
        assert!(Value::read(deep(DEEPEST).as_bytes()).is_ok());
        assert!(Value::read(deep(1_000_000).as_bytes()).is_err());
    }

    #[test]
    fn texts_are_read() {
        assert_eq!(
            texts(b">3\r\n$7\r\nmessage\r\n$0\r\n\r\n$2\r\n\r\n\r\n"),
            [&b"message"[..], b"", b"\r\n"]
        );
        assert_eq!(texts(b">3\r\n$9\r\nsubscribe\r\n$1\r\na\r\n:1\r\n"), [&b"subscribe"[..], b"a"]);
        assert!(texts(b">1\r\n$9\r\ncut").is_empty() && texts(b"-ERR x").is_empty());
    }

    #[test]
    fn commands_are_written() {
        let mut out = Vec::new();
        push(&mut out, &["GET", "2:7"]);
        assert_eq!(out, b"*2\r\n$3\r\nGET\r\n$3\r\n2:7\r\n");
    }
}
