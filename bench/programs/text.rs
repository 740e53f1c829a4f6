//! Words, numbers, keys and bounds, as lines spell them.

/// The rank of the bound above all keys.
pub const TOP: u64 = 0xffff_ffff_0000_0000;

/// Ends the program: what it was given is beyond what this program plays.
pub fn refuse(why: &str) -> ! {
    eprintln!("rival: {why}");
    std::process::exit(1);
}

/// The words of a line.
pub struct Words<'a> {
    rest: &'a [u8],
}

impl<'a> Words<'a> {
    pub fn new(line: &'a [u8]) -> Self {
        Words { rest: line }
    }

    /// What follows the blanks.
    pub fn rest(&mut self) -> &'a [u8] {
        while let [b' ' | b'\t', rest @ ..] = self.rest {
            self.rest = rest;
        }
        self.rest
    }

    pub fn next(&mut self) -> Option<&'a [u8]> {
        let text = self.rest();
        if text.is_empty() {
            return None;
        }
        let end = text.iter().position(|it| matches!(it, b' ' | b'\t'));
        let (word, rest) = text.split_at(end.unwrap_or(text.len()));
        self.rest = rest;
        Some(word)
    }

    fn word(&mut self) -> &'a [u8] {
        self.next()
            .unwrap_or_else(|| refuse("a line has too few words"))
    }

    pub fn end(&mut self) {
        if !self.rest().is_empty() {
            refuse("a line has too many words");
        }
    }

    /// A number up to the limit.
    pub fn number(&mut self, limit: u32) -> u32 {
        match number(self.word()) {
            Some(it) if it <= limit => it,
            _ => refuse("a number is spelled wrongly or too large"),
        }
    }

    /// A number of up to 64 bits.
    pub fn large(&mut self) -> u64 {
        let text = std::str::from_utf8(self.word()).unwrap_or("");
        text.parse()
            .unwrap_or_else(|_| refuse("a number is spelled wrongly or too large"))
    }

    pub fn bound(&mut self) -> u64 {
        let word = self.word();
        if word == b"end" {
            return TOP;
        }
        rank(word).unwrap_or_else(|| refuse("a bound is spelled wrongly"))
    }

    pub fn key(&mut self) -> u64 {
        rank(self.word()).unwrap_or_else(|| refuse("a key is spelled wrongly"))
    }

    /// Two bounds, the first below the second.
    pub fn span(&mut self) -> (u64, u64) {
        let (lo, hi) = (self.bound(), self.bound());
        if lo >= hi {
            refuse("a span has no keys");
        }
        (lo, hi)
    }

    /// A node's letter, and its number if it has one.
    pub fn node(&mut self) -> (u8, u32) {
        match self.word() {
            b"l" => (b'l', 0),
            [letter @ (b'p' | b'r'), digits @ ..] => match number(digits) {
                Some(it) => (*letter, it),
                None => refuse("a node is spelled wrongly"),
            },
            _ => refuse("a node is spelled wrongly"),
        }
    }
}

fn number(word: &[u8]) -> Option<u32> {
    if word.is_empty() || word.len() > 10 {
        return None;
    }
    let mut value = 0u64;
    for byte in word {
        let digit = byte.wrapping_sub(b'0');
        if digit > 9 {
            return None;
        }
        value = value * 10 + u64::from(digit);
    }
    u32::try_from(value).ok()
}

fn rank(word: &[u8]) -> Option<u64> {
    let colon = word.iter().position(|it| *it == b':')?;
    let root = number(&word[..colon])?;
    let second = number(&word[colon + 1..])?;
    let rank = u64::from(root) << 32 | u64::from(second);
    (rank < TOP).then_some(rank)
}

const PAIRS: [[u8; 2]; 100] = {
    let mut pairs = [[0; 2]; 100];
    let mut at = 0;
    while at < 100 {
        pairs[at] = [b'0' + at as u8 / 10, b'0' + at as u8 % 10];
        at += 1;
    }
    pairs
};

pub fn put_number(out: &mut Vec<u8>, number: impl Into<u64>) {
    let mut left: u64 = number.into();
    let mut digits = [0; 20];
    let mut at = digits.len();
    while left >= 100 {
        at -= 2;
        digits[at..at + 2].copy_from_slice(&PAIRS[(left % 100) as usize]);
        left /= 100;
    }
    at -= 2;
    digits[at..at + 2].copy_from_slice(&PAIRS[left as usize]);
    if left < 10 {
        at += 1;
    }
    out.extend_from_slice(&digits[at..]);
}

pub fn put_key(out: &mut Vec<u8>, rank: u64) {
    put_number(out, rank >> 32);
    out.push(b':');
    put_number(out, rank & 0xffff_ffff);
}

fn put_bound(out: &mut Vec<u8>, rank: u64) {
    if rank == TOP {
        out.extend_from_slice(b"end");
    } else {
        put_key(out, rank);
    }
}

pub fn put_span(out: &mut Vec<u8>, lo: u64, hi: u64) {
    out.push(b'[');
    put_bound(out, lo);
    out.push(b',');
    put_bound(out, hi);
    out.push(b')');
}

/// Something that an answer is made of.
pub enum Piece<'a> {
    Text(&'a str),
    Number(u32),
    Count(usize),

    Span(u64, u64),
}

pub fn put(out: &mut Vec<u8>, pieces: &[Piece]) {
    for piece in pieces {
        match *piece {
            Piece::Text(text) => out.extend_from_slice(text.as_bytes()),
            Piece::Number(number) => put_number(out, number),
            Piece::Count(count) => put_number(out, count as u64),
            Piece::Span(lo, hi) => put_span(out, lo, hi),
        }
    }
    out.push(b'\n');
}
