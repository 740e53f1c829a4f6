//! Cursors of `HSCAN`, `SSCAN` and `ZSCAN`.
//!
//! A server's cursor means nothing to another server. So a client's cursor also says which partition has given it. If the key has
//! moved since, the walk begins again at the key's new place: it misses no member, and names some of them again.

use super::commands::Command;
use crate::resp::push;

/// How many bits of a cursor are the partition and one more.
const PART: u32 = 14;
/// A server's cursor is below. Many libraries read a cursor as a number with a sign.
const MOST: u64 = 1 << (63 - PART);
/// The word that is the cursor.
const AT: usize = 2;

/// Whether a command reads one page of a walk over the members of a key.
pub fn is_walk(command: &Command) -> bool {
    ["HSCAN", "SSCAN", "ZSCAN"].contains(&command.name)
}

/// The server's cursor of a client's word, for a partition. None if the word is passed on as it is.
fn of_server(word: &[u8], part: u32) -> Option<String> {
    let bits: u64 = std::str::from_utf8(word).ok()?.parse().ok()?;
    let is_own = bits % (1 << PART) == u64::from(part) + 1;
    (bits > 0).then(|| if is_own { bits >> PART } else { 0 }.to_string())
}

/// A client's cursor of that of a partition; none if that is too large.
fn of_client(at: u64, part: u32) -> Option<u64> {
    let bits = (at << PART) | (u64::from(part) + 1);
    (at < MOST).then_some(if at > 0 { bits } else { 0 })
}

/// Replaces the cursor among the words of such a command to a partition. `cursor` keeps it.
pub fn ask<'a>(words: &mut [&'a [u8]], part: u32, cursor: &'a mut String) {
    if let Some(word) = words.get_mut(AT) {
        if let Some(own) = of_server(word, part) {
            *cursor = own;
            *word = cursor.as_bytes();
        }
    }
}

/// The answer of a partition, with a client's cursor. None if it is of another form, or its cursor is too large.
pub fn answer(reply: &[u8], part: u32) -> Option<Vec<u8>> {
    let rest = reply.strip_prefix(b"*2\r\n$")?;
    let mut lines = rest.splitn(3, |&byte| byte == b'\n');
    let (_, digits, members) = (lines.next()?, lines.next()?, lines.next()?);
    let at: u64 = std::str::from_utf8(digits).ok()?.trim_end().parse().ok()?;
    let mut answer = b"*2\r\n".to_vec();
    let mut cursor = Vec::new();
    push(&mut cursor, &[of_client(at, part)?.to_string()]);
    answer.extend_from_slice(cursor.strip_prefix(b"*1\r\n")?);
    answer.extend_from_slice(members);
    Some(answer)
}

#[cfg(test)]
mod tests {
    use super::*;

    fn asked(cursor: &str, part: u32) -> String {
        let mut own = String::new();
        let mut words: Vec<&[u8]> = vec![b"HSCAN", b"k", cursor.as_bytes()];
        ask(&mut words, part, &mut own);
        String::from_utf8(words[AT].to_vec()).unwrap()
    }

    #[test]
    fn a_cursor_goes_back_to_its_partition() {
        for (at, part) in [(1, 0), (5, 9999), (MOST - 1, 7)] {
            let reply = format!("*2\r\n${}\r\n{at}\r\n*1\r\n$1\r\nm\r\n", at.to_string().len());
            let page = String::from_utf8(answer(reply.as_bytes(), part).unwrap()).unwrap();
            let cursor = page.split("\r\n").nth(2).unwrap();
            assert!(cursor.parse::<i64>().is_ok() && page.ends_with("\r\n*1\r\n$1\r\nm\r\n"), "{page}");
            assert_eq!((asked(cursor, part), asked(cursor, part + 1)), (at.to_string(), "0".to_string()));
        }
        for word in ["0", "x", "-1", "99999999999999999999"] {
            assert_eq!(asked(word, 1), word);
        }
        assert_eq!(asked("7", 1), "0");
    }

    #[test]
    fn the_end_stays_the_end() {
        let reply = b"*2\r\n$1\r\n0\r\n*0\r\n";
        assert_eq!(answer(reply, 3).as_deref(), Some(&reply[..]));
        for other in [&b"*2\r\n*0\r\n"[..], b"*2\r\n$1\r\nx\r\n*0\r\n", b"+OK\r\n", b"*2\r\n$1\r\n"] {
            assert_eq!(answer(other, 3), None);
        }
        assert_eq!(answer(format!("*2\r\n$16\r\n{MOST}\r\n*0\r\n").as_bytes(), 3), None);
    }
}
