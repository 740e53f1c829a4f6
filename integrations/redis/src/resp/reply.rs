//! Replies, as a server sends them.

use super::{line, number, Broken};

/// Finds the end of one reply, whose bytes may come in any pieces. What was read of it is not read
/// again.
pub struct Scan {
    /// Where the next value begins, counted from the beginning of the reply.
    at: usize,
    /// How many values are still to come.
    left: u64,
}

impl Default for Scan {
    fn default() -> Scan {
        Scan { at: 0, left: 1 }
    }
}

impl Scan {
    /// Reads on in `bytes`, which begin with the reply: how many bytes it has, if it is whole. The
    /// next call then reads the next reply.
    ///
    /// # Errors
    ///
    /// The bytes begin with no reply.
    pub fn read(&mut self, bytes: &[u8]) -> Result<Option<usize>, Broken> {
        while self.left > 0 {
            match next_value(bytes, self.at)? {
                None => return Ok(None),
                Some((next, more)) => {
                    self.at = next;
                    self.left = self.left - 1 + more;
                }
            }
        }
        if self.at > bytes.len() {
            return Ok(None);
        }
        let end = self.at;
        *self = Scan::default();
        Ok(Some(end))
    }

    /// How many bytes the reply has at least, by what was read of it.
    pub fn least(&self) -> usize {
        self.at
    }

    /// The first bytes of the reply are gone, of which so many were read.
    pub fn drop_first(&mut self, count: usize) {
        self.at -= count;
    }
}

/// Where the head of the value at `at` ends, with its bytes if it has any, and how many values follow
/// that belong to it. None if its head is cut. Its bytes need not be there yet.
fn next_value(bytes: &[u8], at: usize) -> Result<Option<(usize, u64)>, Broken> {
    let Some((line, next)) = line(bytes, at) else {
        return Ok(None);
    };
    let Some((&kind, rest)) = line.split_first() else {
        return Err(Broken("a reply without a type"));
    };
    Ok(Some(match kind {
        b'+' | b'-' | b':' | b'_' | b'#' | b',' | b'(' => (next, 0),
        b'$' | b'=' | b'!' => (length(rest)?.map_or(next, |len| next + len as usize + 2), 0),
        b'*' | b'~' | b'>' => (next, length(rest)?.unwrap_or(0)),
        b'%' => (next, length(rest)?.unwrap_or(0) * 2),
        // Attributes come before a value and are none.
        b'|' => (next, length(rest)?.unwrap_or(0) * 2 + 1),
        _ => return Err(Broken("a reply of an unknown type")),
    }))
}

/// A length; none for -1.
fn length(digits: &[u8]) -> Result<Option<u64>, Broken> {
    match number(digits) {
        Some(-1) => Ok(None),
        Some(len) if (0..1 << 40).contains(&len) => Ok(Some(len as u64)),
        _ => Err(Broken("a reply of no length")),
    }
}

#[cfg(test)]
mod tests {
    use super::*;

    const REPLIES: &[&[u8]] = &[
        b"+OK\r\n",
        b"-ERR no\r\n",
        b":-12\r\n",
        b"$-1\r\n",
        b"$0\r\n\r\n",
        b"$4\r\na\r\nb\r\n",
        b"*-1\r\n",
        b"*0\r\n",
        b"*2\r\n$1\r\na\r\n*2\r\n:1\r\n$-1\r\n",
        b"_\r\n",
        b"#t\r\n",
        b",1.5\r\n",
        b"(12345678901234567890\r\n",
        b"=6\r\ntxt:ab\r\n",
        b"!3\r\nERR\r\n",
        b"%2\r\n+a\r\n:1\r\n+b\r\n~1\r\n:2\r\n",
        b"|1\r\n+ttl\r\n:5\r\n$1\r\nx\r\n",
        b">2\r\n+message\r\n+x\r\n",
    ];

    #[test]
    fn replies_may_be_cut_anywhere() {
        for reply in REPLIES {
            for cut in 0..reply.len() {
                let mut scan = Scan::default();
                assert_eq!(scan.read(&reply[..cut]), Ok(None), "{reply:?} {cut}");
                assert_eq!(scan.read(reply), Ok(Some(reply.len())), "{reply:?} {cut}");
            }
        }
    }

    #[test]
    fn replies_follow_each_other() {
        let all = REPLIES.concat();
        let mut at = 0;
        let mut scan = Scan::default();
        for reply in REPLIES {
            assert_eq!(scan.read(&all[at..]), Ok(Some(reply.len())));
            at += reply.len();
        }
        assert_eq!(scan.read(&all[at..]), Ok(None));
    }

    #[test]
    fn bytes_that_were_read_may_go() {
        let reply = b"*2\r\n$5\r\nabcde\r\n:1\r\n";
        let mut scan = Scan::default();
        assert_eq!(scan.read(&reply[..10]), Ok(None));
        // It is known how long the text is.
        assert_eq!(scan.least(), 15);
        scan.drop_first(10);
        assert_eq!(scan.read(&reply[10..13]), Ok(None));
        scan.drop_first(3);
        assert_eq!(scan.read(&reply[13..]), Ok(Some(6)));
    }

    #[test]
    fn garbage_is_refused() {
        for bytes in [&b"\r\n"[..], b"?\r\n", b"$x\r\n", b"$-2\r\n", b"*9999999999999999\r\n"] {
            assert!(Scan::default().read(bytes).is_err(), "{bytes:?}");
        }
    }
}
