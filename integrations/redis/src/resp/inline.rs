//! Commands as lines of words, as people and checks send them.

use super::{push, Broken};

/// No line is longer.
const LONGEST: usize = 1 << 16;
/// Lines are unfolded at once that have such a part of all bytes.
const PARTS: usize = 16;
/// What a browser sends that was led to the wrong port. Its other lines may hold commands of a stranger.
const FOREIGN: [&[u8]; 2] = [b"POST", b"HOST:"];

/// The lines at the beginning of `bytes` as commands of RESP, and how many bytes they had: the first one, and those after
/// it until they have a part of all bytes. So all lines are moved a few times at most. None if the first one is cut.
///
/// # Errors
///
/// The first one is too long, a quote has no end, or a browser sent it. The texts are those of Redis.
pub fn unfold(bytes: &[u8]) -> Result<Option<(usize, Vec<u8>)>, Broken> {
    let most = LONGEST.max(bytes.len() / PARTS);
    let mut commands = Vec::new();
    let Some(mut at) = unfold_one(bytes, &mut commands)? else {
        return Ok(None);
    };
    while at < most && bytes.get(at).is_some_and(|&byte| byte != b'*') {
        match unfold_one(&bytes[at..], &mut commands) {
            Ok(Some(len)) => at += len,
            // It is looked at again once it is the first one.
            _ => break,
        }
    }
    Ok(Some((at, commands)))
}

/// Appends the command of the first line: how many bytes that had.
fn unfold_one(bytes: &[u8], commands: &mut Vec<u8>) -> Result<Option<usize>, Broken> {
    let window = &bytes[..bytes.len().min(LONGEST)];
    let Some(end) = window.iter().position(|&byte| byte == b'\n') else {
        let is_cut = bytes.len() < LONGEST;
        return is_cut.then_some(None).ok_or(Broken("too big inline request"));
    };
    let words = split(&bytes[..end]).ok_or(Broken("unbalanced quotes in request"))?;
    if words.first().is_some_and(|name| FOREIGN.iter().any(|it| name.eq_ignore_ascii_case(it))) {
        return Err(Broken("a browser sends this"));
    }
    push(commands, &words);
    Ok(Some(end + 1))
}

/// The words of a line. They are kept apart by blanks, and may be quoted. None if a quote has no end, or a letter follows it.
fn split(line: &[u8]) -> Option<Vec<Vec<u8>>> {
    let mut words = Vec::new();
    let mut rest = line.trim_ascii_start();
    while !rest.is_empty() {
        let mut word = Vec::new();
        while let Some((&byte, after)) = rest.split_first().filter(|(byte, _)| !is_blank(**byte)) {
            rest = match byte {
                b'"' | b'\'' => quoted(byte, after, &mut word)?,
                _ => {
                    word.push(byte);
                    after
                }
            };
        }
        words.push(word);
        rest = &rest[rest.iter().position(|&byte| !is_blank(byte)).unwrap_or(rest.len())..];
    }
    Some(words)
}

/// As C has it.
fn is_blank(byte: u8) -> bool {
    matches!(byte, b' ' | b'\t'..=b'\r' | 0)
}

/// Appends what is quoted: what follows the quote. That is a blank or the end.
fn quoted<'a>(quote: u8, mut rest: &'a [u8], word: &mut Vec<u8>) -> Option<&'a [u8]> {
    loop {
        let (&byte, after) = rest.split_first()?;
        rest = after;
        match byte {
            byte if byte == quote => break,
            b'\\' if quote == b'"' => rest = escaped(rest, word)?,
            b'\\' if rest.first() == Some(&quote) => {
                word.push(quote);
                rest = &rest[1..];
            }
            byte => word.push(byte),
        }
    }
    rest.first().is_none_or(|&byte| is_blank(byte)).then_some(rest)
}

/// Appends the byte that stands after a backslash: what follows.
fn escaped<'a>(rest: &'a [u8], word: &mut Vec<u8>) -> Option<&'a [u8]> {
    let hex = |at: usize| rest.get(at).and_then(|&digit| (digit as char).to_digit(16));
    let (&byte, after) = rest.split_first()?;
    if let (b'x', Some(high), Some(low)) = (byte, hex(1), hex(2)) {
        word.push((high * 16 + low) as u8);
        return Some(&rest[3..]);
    }
    word.push(match byte {
        b'n' => b'\n',
        b'r' => b'\r',
        b't' => b'\t',
        b'b' => 8,
        b'a' => 7,
        byte => byte,
    });
    Some(after)
}

#[cfg(test)]
mod tests {
    use super::*;

    #[test]
    fn lines_are_split() {
        for (line, wanted) in [
            (&b"PING"[..], &[&b"PING"[..]][..]),
            (b"  set  a\tb \r", &[b"set", b"a", b"b"]),
            (b"", &[]),
            (b" \r", &[]),
            (b"a \"b c\" 'd \\' e'", &[b"a", b"b c", b"d ' e"]),
            (b"\"\\x41\\n\\q\\xzz\" ''", &[b"A\nqxzz", b""]),
            (b"a\"b\"", &[b"ab"]),
        ] {
            assert_eq!(split(line).unwrap(), wanted, "{line:?}");
        }
        for line in [&b"\"a"[..], b"'a", b"\"a\"b", b"\"a\\"] {
            assert_eq!(split(line), None, "{line:?}");
        }
    }

    /// Many short lines in many bytes are unfolded in a few pieces.
    #[test]
    fn lines_are_moved_a_few_times() {
        let mut bytes = b"PING\n".repeat(1 << 20);
        let mut pieces = 0;
        while let Some((len, _)) = unfold(&bytes).unwrap() {
            bytes.drain(..len);
            pieces += 1;
        }
        assert!(bytes.is_empty() && pieces < 100, "{pieces}");
    }

    #[test]
    fn lines_are_commands() {
        let ping = b"*1\r\n$4\r\nPING\r\n".to_vec();
        for rest in ["GET x", "*1\r\n$4\r\nPING\r\n", "GET \"x\n", "POST /\n"] {
            let bytes = ["PING\r\n", rest].concat();
            assert_eq!(unfold(bytes.as_bytes()), Ok(Some((6, ping.clone()))), "{rest}");
        }
        assert_eq!(unfold(b"PING\nPING\r\n\nPI"), Ok(Some((12, [&ping[..], &ping, b"*0\r\n"].concat()))));
        assert_eq!(unfold(b"\r\n").unwrap(), Some((2, b"*0\r\n".to_vec())));
        assert_eq!(unfold(b"PIN"), Ok(None));
        assert!(unfold(&[b'x'; LONGEST]).is_err());
        for line in [&b"POST / HTTP/1.1\r\n"[..], b"Host: x\r\n", b"a \"\n"] {
            assert!(unfold(line).is_err(), "{line:?}");
        }
    }
}
