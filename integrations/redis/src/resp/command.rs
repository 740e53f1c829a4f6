//! Commands, as a client sends them.

use super::{number, Broken, MOST_DIGITS};
use std::ops::Range;

/// No command has more words.
const MOST_WORDS: i64 = 1_048_576;

/// The places of no more words are kept from one command to the next.
const KEPT: usize = 1 << 12;

/// Reads one command, whose bytes may come in any pieces. What was read of it is not read again.
#[derive(Default)]
pub struct Parser {
    /// Where the next word begins, counted from the beginning of the command.
    at: usize,
    /// How many words are still to come, once the count was read.
    left: Option<usize>,
    words: Vec<Range<usize>>,
}

impl Parser {
    /// Reads on in `bytes`, which begin with the command: whether it is whole. No word may have more
    /// than `most` bytes.
    ///
    /// # Errors
    ///
    /// The bytes begin with no command. The texts are those of Redis.
    pub fn read(&mut self, bytes: &[u8], most: usize) -> Result<bool, Broken> {
        if self.left.is_none() {
            match head(bytes, 0, b'*')? {
                None => return Ok(false),
                Some((count, next)) if count <= MOST_WORDS => {
                    self.left = Some(usize::try_from(count).unwrap_or(0));
                    self.at = next;
                }
                Some(_) => return Err(no_length(b'*')),
            }
        }
        while self.left > Some(0) {
            let Some((len, from)) = head(bytes, self.at, b'$')? else {
                return Ok(false);
            };
            let len = usize::try_from(len).ok().filter(|&len| len <= most);
            let to = from + len.ok_or(no_length(b'$'))?;
            if bytes.len() < to + 2 {
                return Ok(false);
            }
            if &bytes[to..to + 2] != b"\r\n" {
                return Err(Broken("expected the end of a word"));
            }
            self.words.push(from..to);
            self.at = to + 2;
            self.left = self.left.map(|left| left - 1);
        }
        Ok(true)
    }

    /// The places of the words that were read, counted from the beginning of the command.
    pub fn words(&self) -> &[Range<usize>] {
        &self.words
    }

    /// How many bytes were read.
    pub fn len(&self) -> usize {
        self.at
    }

    /// Whether nothing was read.
    pub fn is_empty(&self) -> bool {
        self.at == 0
    }

    /// Begins the next command.
    pub fn reset(&mut self) {
        self.at = 0;
        self.left = None;
        self.words.clear();
        self.words.shrink_to(KEPT);
    }
}

/// What is wrong with a line that begins with the mark and has no length.
fn no_length(mark: u8) -> Broken {
    Broken(if mark == b'*' { "invalid multibulk length" } else { "invalid bulk length" })
}

/// The number of a line that begins with the mark, and where the next line begins; none if it is cut.
fn head(bytes: &[u8], at: usize, mark: u8) -> Result<Option<(i64, usize)>, Broken> {
    let Some(rest) = bytes.get(at..).filter(|rest| !rest.is_empty()) else {
        return Ok(None);
    };
    if rest[0] != mark {
        return Err(Broken(if mark == b'*' { "expected '*'" } else { "expected '$'" }));
    }
    let window = &rest[..rest.len().min(MOST_DIGITS + 3)];
    let Some(len) = window.iter().position(|&byte| byte == b'\r') else {
        let is_cut = window.len() < MOST_DIGITS + 3;
        return is_cut.then_some(None).ok_or(Broken("too long a count"));
    };
    if rest.len() < len + 2 {
        return Ok(None);
    }
    let count = number(&rest[1..len]).filter(|_| rest[len + 1] == b'\n');
    let count = count.ok_or(no_length(mark))?;
    Ok(Some((count, at + len + 2)))
}

#[cfg(test)]
mod tests {
    use super::*;

    const SET: &[u8] = b"*3\r\n$3\r\nSET\r\n$3\r\n2:7\r\n$5\r\na\r\nbc\r\n";

    fn words(bytes: &[u8], parser: &Parser) -> Vec<Vec<u8>> {
        let words = parser.words().iter();
        words.map(|word| bytes[word.clone()].to_vec()).collect()
    }

    #[test]
    fn a_command_may_be_cut_anywhere() {
        for first in 0..SET.len() {
            for second in first..SET.len() {
                let mut parser = Parser::default();
                assert_eq!(parser.read(&SET[..first], 100), Ok(false));
                assert_eq!(parser.read(&SET[..second], 100), Ok(false));
                assert_eq!(parser.read(SET, 100), Ok(true));
                assert_eq!(words(SET, &parser), [&b"SET"[..], b"2:7", b"a\r\nbc"]);
                assert_eq!(parser.len(), SET.len());
            }
        }
    }

    #[test]
    fn what_follows_is_left() {
        let two = [SET, &SET[..7]].concat();
        let mut parser = Parser::default();
        assert_eq!(parser.read(&two, 100), Ok(true));
        assert_eq!(parser.len(), SET.len());
        parser.reset();
        assert!(parser.is_empty());
        assert_eq!(parser.read(&two[SET.len()..], 100), Ok(false));
    }

    #[test]
    fn a_command_of_no_words_is_whole() {
        for bytes in [&b"*0\r\n"[..], b"*-1\r\n"] {
            let mut parser = Parser::default();
            assert_eq!(parser.read(bytes, 100), Ok(true));
            assert!(parser.words().is_empty());
        }
    }

    #[test]
    fn garbage_is_refused() {
        let long = b"*00000000000000000000000000000001\r\n";
        for bytes in [
            &b"PING\r\n"[..],
            b"\r\n",
            b"\0",
            b"*x\r\n",
            b"*\r\n",
            b"*1\rx",
            b"*1\r\n+OK\r\n",
            b"*1\r\n$-1\r\n",
            b"*1\r\n$99999999999999999999\r\n",
            b"*1048577\r\n",
            b"*1\r\n$2\r\nabc\r\n",
            &long[..],
        ] {
            assert!(Parser::default().read(bytes, 100).is_err(), "{bytes:?}");
        }
    }

    #[test]
    fn a_length_that_is_none_is_named() {
        let said = |bytes: &[u8]| Parser::default().read(bytes, 100).unwrap_err().to_string();
        assert_eq!(said(b"*x\r\n"), "invalid multibulk length");
        assert_eq!(said(b"*1\r\n$x\r\n"), "invalid bulk length");
    }

    #[test]
    fn a_word_has_its_limit() {
        let bytes = b"*1\r\n$101\r\n";
        assert!(Parser::default().read(bytes, 100).is_err());
        assert_eq!(Parser::default().read(bytes, 101), Ok(false));
    }

    #[test]
    fn a_huge_word_is_read_once() {
        let head = format!("*2\r\n$3\r\nGET\r\n${}\r\n", 8 << 20);
        let mut bytes = head.into_bytes();
        let mut parser = Parser::default();
        for _ in 0..8 << 10 {
            assert_eq!(parser.read(&bytes, 8 << 20), Ok(false));
            bytes.extend_from_slice(&[b'x'; 1024]);
        }
        bytes.extend_from_slice(b"\r\n");
        assert_eq!(parser.read(&bytes, 8 << 20), Ok(true));
        assert_eq!(parser.words()[1].len(), 8 << 20);
    }

    #[test]
    fn bytes_by_chance_never_fault() {
        let mut dice = 7_u64;
        for _ in 0..20_000 {
            let bytes: Vec<u8> = (0..24)
                .map(|_| {
                    dice = dice.wrapping_mul(6_364_136_223_846_793_005).wrapping_add(1);
                    b"*$-:+019\r\nab\0"[(dice >> 33) as usize % 13]
                })
                .collect();
            let _ = Parser::default().read(&bytes, 100);
        }
    }
}
