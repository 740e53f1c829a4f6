//! What a NATS server sends, read piece by piece.

use crate::fault::{Done, Fault};

/// No line of a server is longer, and no message larger.
const LINE: usize = 1 << 16;
const PAYLOAD: usize = 64 << 20;

/// A line, or a message.
#[derive(Debug, PartialEq)]
pub enum Op {
    /// The first word: INFO, PING, PONG, +OK or -ERR, and the rest of the line.
    Line {
        name: &'static str,
        rest: String,
    },
    Message(Message),
}

/// A message.
#[derive(Debug, PartialEq)]
pub struct Message {
    /// To which it was sent.
    pub subject: String,
    /// The subscription that it belongs to.
    pub sid: u64,
    /// The subject to which a reply goes.
    pub reply: Option<String>,
    /// Its bytes.
    pub payload: Vec<u8>,
}

/// The first words of lines.
const NAMES: [&str; 5] = ["INFO", "PING", "PONG", "+OK", "-ERR"];

/// Reads lines and messages from a stream that is cut anywhere.
#[derive(Default)]
pub struct Parser {
    kept: Vec<u8>,
    at: usize,
}

impl Parser {
    /// Takes what has come.
    pub fn feed(&mut self, bytes: &[u8]) {
        self.kept.drain(..self.at);
        self.at = 0;
        self.kept.extend_from_slice(bytes);
    }

    /// Whether all that has come was read.
    pub fn is_empty(&self) -> bool {
        self.at == self.kept.len()
    }

    /// What is whole next; none if more has to come.
    ///
    /// # Errors
    ///
    /// The bytes are not of this protocol.
    pub fn next(&mut self) -> Done<Option<Op>> {
        let rest = &self.kept[self.at..];
        let Some(end) = rest.windows(2).take(LINE).position(|two| two == b"\r\n") else {
            return if rest.len() < LINE { Ok(None) } else { Err(Fault::new("a line without an end")) };
        };
        let line = String::from_utf8_lossy(&rest[..end]).into_owned();
        let (name, words) = line.split_once(' ').unwrap_or((&line, ""));
        if !name.eq_ignore_ascii_case("MSG") {
            self.at += end + 2;
            let known = NAMES.iter().find(|known| known.eq_ignore_ascii_case(name));
            let name = known.ok_or_else(|| Fault::new(format!("the server sent {name:.20}")))?;
            return Ok(Some(Op::Line { name, rest: words.trim().to_string() }));
        }
        let wrong = || Fault::new(format!("the server sent {line:.200}"));
        let words: Vec<&str> = words.split_whitespace().collect();
        let (subject, sid, reply, len) = match words[..] {
            [subject, sid, len] => (subject.to_string(), sid, None, len),
            [subject, sid, reply, len] => (subject.to_string(), sid, Some(reply.to_string()), len),
            _ => return Err(wrong()),
        };
        let sid = sid.parse().map_err(|_| wrong())?;
        let len = len.parse().ok().filter(|&len: &usize| len <= PAYLOAD).ok_or_else(wrong)?;
        let Some(bytes) = rest.get(end + 2..end + 2 + len + 2) else {
            return Ok(None);
        };
        let payload = bytes.strip_suffix(b"\r\n").ok_or_else(wrong)?.to_vec();
        self.at += end + 2 + len + 2;
        Ok(Some(Op::Message(Message { subject, sid, reply, payload })))
    }
}

/// Appends a message to a subject.
pub fn message(out: &mut Vec<u8>, subject: &str, reply: Option<&str>, payload: &[u8]) {
    let reply = reply.map_or(String::new(), |reply| format!("{reply} "));
    out.extend_from_slice(format!("PUB {subject} {reply}{}\r\n", payload.len()).as_bytes());
    out.extend_from_slice(payload);
    out.extend_from_slice(b"\r\n");
}

/// The number that a member of an object of JSON has.
pub fn number_of(info: &str, name: &str) -> Option<usize> {
    let digits: String = member(info, name)?.chars().take_while(char::is_ascii_digit).collect();
    digits.parse().ok()
}

/// The text that a member has, up to the first quote in it.
pub fn text_of<'a>(info: &'a str, name: &str) -> Option<&'a str> {
    member(info, name)?.strip_prefix('"')?.split(['"', '\\']).next()
}

/// Whether a member is true.
pub fn is_set(info: &str, name: &str) -> bool {
    member(info, name).is_some_and(|value| value.starts_with("true"))
}

/// The text from the value of a member on. Quotes within texts have a `\` before them.
fn member<'a>(info: &'a str, name: &str) -> Option<&'a str> {
    let name = format!("\"{name}\"");
    let after = |(at, _)| info[at + name.len()..].trim_start().strip_prefix(':');
    info.match_indices(&name).find_map(after).map(str::trim_start)
}

#[cfg(test)]
mod tests {
    use super::*;

    /// All that is whole, as texts.
    fn all(parser: &mut Parser) -> Vec<String> {
        let mut all = Vec::new();
        while let Some(op) = parser.next().unwrap() {
            all.push(format!("{op:?}"));
        }
        all
    }

    #[test]
    fn a_stream_may_be_cut_anywhere() {
        let stream =
            b"INFO {\"a\":1}\r\nping\r\nMSG a.b 1 3\r\n\r\nx\r\nMSG a 2 reply.to 0\r\n\r\n-ERR 'no'\r\n";
        let mut whole = Parser::default();
        whole.feed(stream);
        let wanted = all(&mut whole);
        assert_eq!(wanted.len(), 5);
        assert!(
            wanted[2].contains("subject: \"a.b\", sid: 1") && wanted[2].contains("[13, 10, 120]"),
            "{wanted:?}"
        );
        assert!(wanted[3].contains("Some(\"reply.to\")"), "{wanted:?}");
        for len in 1..stream.len() {
            let mut parser = Parser::default();
            let mut got = Vec::new();
            for piece in stream.chunks(len) {
                parser.feed(piece);
                got.extend(all(&mut parser));
            }
            assert_eq!(got, wanted, "{len}");
        }
    }

    #[test]
    fn other_bytes_are_refused() {
        let long = [b'x'; LINE];
        for wrong in [
            b"HTTP/1.1 400\r\n".as_slice(),
            b"MSG a 1\r\n",
            b"MSG a x 1\r\n",
            b"MSG a 1 x\r\n",
            b"MSG a 1 1\r\nxyz",
            &long,
        ] {
            let mut parser = Parser::default();
            parser.feed(wrong);
            assert!(parser.next().is_err());
        }
    }

    #[test]
    fn members_are_found() {
        let info = r#"{"server_id":"tls_required","max_payload":1048576,"tls_required": true,"auth_required":false}"#;
        assert_eq!(number_of(info, "max_payload"), Some(1_048_576));
        assert_eq!(number_of(info, "tls_required"), None);
        assert_eq!(number_of(info, "tls"), None);
        assert_eq!(text_of(info, "server_id"), Some("tls_required"));
        assert_eq!((text_of(info, "max_payload"), text_of(r#"{"a":"b\"c"}"#, "a")), (None, Some("b")));
        assert!(is_set(info, "tls_required"));
        assert!(!is_set(info, "auth_required") && !is_set(info, "tls_available"));
        assert!(!is_set(r#"{"name":"\"tls_required\":true"}"#, "tls_required"));
    }
}
