//! The seal of entries: a code that only programs with the deployment's secret can make.
//!
//! Without it one frame of a few bytes from anywhere would make routers ask a partition that does not have a key.

use crate::secret::{self, Code, CODE};
use openssl::memcmp;

/// The use of the key, and the version of what a code is made of.
const USE: &str = "squall bus";
const FORM: &[u8] = b"squall entry 1";
/// The most bytes that come before a frame over NATS: the code, the length of the sender's name, and the name.
pub const HEAD: usize = 64;
/// The most bytes of a sender's name.
pub const LONGEST: usize = HEAD - CODE - 1;

/// What an entry says beside its frame.
#[derive(Clone, Copy)]
pub struct About<'a> {
    /// The stream or subject that it is written to.
    pub place: &'a str,
    /// The node that writes it.
    pub from: &'a str,
    /// The digest that it answers, or of a digest over NATS the subject to which answers go.
    pub re: Option<&'a str>,
}

/// What seals the entries of one deployment.
pub struct Seal {
    key: Code,
    name: String,
}

impl Seal {
    /// The seal of the deployment of that name and secret.
    pub fn new(secret: &str, name: &str) -> Seal {
        Seal { key: secret::key(secret, USE), name: name.into() }
    }

    /// The code of an entry.
    pub fn code(&self, about: About, frame: &[u8]) -> Code {
        let texts = [&self.name, about.place, about.from, about.re.unwrap_or_default()].map(str::as_bytes);
        secret::code(&self.key, &[&[FORM], &texts[..], &[frame]].concat())
    }

    /// Whether that is the code of the entry. How long this takes says nothing about the right one.
    pub fn is_right(&self, code: &[u8], about: About, frame: &[u8]) -> bool {
        code.len() == CODE && memcmp::eq(&self.code(about, frame), code)
    }

    /// The bytes of an entry over NATS: its code, the length of the sender's name in one byte, the name, the frame.
    pub fn envelope(&self, about: About, frame: &[u8]) -> Vec<u8> {
        debug_assert!(about.from.len() <= LONGEST);
        let name = about.from.as_bytes();
        [&self.code(about, frame)[..], &[name.len() as u8], name, frame].concat()
    }

    /// The sender and the frame of such bytes, if they have the right code.
    pub fn open<'a>(&self, place: &str, re: Option<&str>, bytes: &'a [u8]) -> Option<(&'a str, &'a [u8])> {
        let (code, rest) = bytes.split_at_checked(CODE)?;
        let (&len, rest) = rest.split_first()?;
        let (from, frame) = rest.split_at_checked(len.into())?;
        let from = std::str::from_utf8(from).ok()?;
        self.is_right(code, About { place, from, re }, frame).then_some((from, frame))
    }
}

#[cfg(test)]
mod tests {
    use super::*;

    const SECRET: &str = "aaaaaaaaaaaaaaaaaaaaaaaaaaaaaaaa";
    const ABOUT: About = About { place: "shop.digests", from: "proxy-1", re: Some("_INBOX.7") };

    #[test]
    fn what_is_turned_is_refused() {
        let seal = Seal::new(SECRET, "shop");
        let code = seal.code(ABOUT, b"frame");
        assert!(seal.is_right(&code, ABOUT, b"frame"));
        let others = [
            About { place: "shop.frames", ..ABOUT },
            About { from: "proxy-2", ..ABOUT },
            About { re: None, ..ABOUT },
        ];
        assert!(others.iter().all(|&about| !seal.is_right(&code, about, b"frame")));
        assert!(!seal.is_right(&code, ABOUT, b"frane") && !seal.is_right(b"", ABOUT, b"frame"));
        for (secret, name) in [("aaaaaaaaaaaaaaaaaaaaaaaaaaaaaaab", "shop"), (SECRET, "shops")] {
            assert!(!Seal::new(secret, name).is_right(&code, ABOUT, b"frame"));
        }
    }

    /// That of PROTOCOL.md, which integrations/transports tests too.
    #[test]
    fn the_vector_is_kept() {
        let code = Seal::new(SECRET, "shop").code(ABOUT, b"frame");
        assert_eq!(secret::digits(&code), "6de84d55199df84bbe7638d43cc4acfaf6aaa53d33f638eda07578b5db3cf0e8");
    }

    #[test]
    fn envelopes_are_opened() {
        let seal = Seal::new(SECRET, "shop");
        let bytes = seal.envelope(ABOUT, b"frame");
        assert_eq!(seal.open(ABOUT.place, ABOUT.re, &bytes), Some(("proxy-1", &b"frame"[..])));
        for at in 0..8 * bytes.len() {
            let mut turned = bytes.clone();
            turned[at / 8] ^= 1 << (at % 8);
            assert_eq!(seal.open(ABOUT.place, ABOUT.re, &turned), None, "{at}");
        }
        for len in 0..bytes.len() {
            assert_eq!(seal.open(ABOUT.place, ABOUT.re, &bytes[..len]), None, "{len}");
        }
    }
}
