//! A plain program that answers `route` lines: it reads lines from its input, keeps what was loaded as a sorted list
//! of legs, and writes the answers that squall writes. All keys move from partition 1 to partition 2.

#[path = "../shared.rs"]
mod shared;

use shared::{owner, push_leg, Leg, TOP};
use std::io::{self, BufRead, BufReader, BufWriter, Write};

fn number(word: &[u8]) -> Option<u32> {
    if word.is_empty() || word.len() > 10 {
        return None;
    }
    let mut value = 0u64;
    for byte in word {
        if !byte.is_ascii_digit() {
            return None;
        }
        value = value * 10 + u64::from(byte - b'0');
    }
    u32::try_from(value).ok()
}

fn rank(word: &[u8]) -> Option<u64> {
    if word == b"end" {
        return Some(TOP);
    }
    let colon = word.iter().position(|byte| *byte == b':')?;
    let root = number(&word[..colon])?;
    let second = number(&word[colon + 1..])?;
    Some(u64::from(root) << 32 | u64::from(second))
}

fn patch(legs: &mut Vec<Leg>, start: u64, stop: u64, part: u32) {
    let first = legs.partition_point(|leg| leg.hi < start);
    let end = legs.partition_point(|leg| leg.lo <= stop);
    let mut fresh = Vec::new();
    for leg in &legs[first..end] {
        push_leg(&mut fresh, leg.lo, leg.hi.min(start).max(leg.lo), leg.part);
    }
    push_leg(&mut fresh, start, stop, part);
    for leg in &legs[first..end] {
        push_leg(&mut fresh, leg.lo.max(stop).min(leg.hi), leg.hi, leg.part);
    }
    legs.splice(first..end, fresh);
}

fn words(line: &[u8]) -> impl Iterator<Item = &[u8]> {
    line.split(|byte| *byte == b' ' || *byte == b'\t')
        .filter(|word| !word.is_empty())
}

fn answer(legs: &mut Vec<Leg>, line: &[u8], out: &mut impl Write) -> io::Result<()> {
    let mut words = words(line);
    match words.next() {
        Some(b"old") => out.write_all(b"old 1\n"),
        Some(b"new") => out.write_all(b"new 1\n"),
        Some(b"loaded") => {
            let mut bounds = words.skip(3);
            let lo = bounds.next().and_then(rank).unwrap_or(0);
            let hi = bounds.next().and_then(rank).unwrap_or(0);
            patch(legs, lo, hi, 2);
            out.write_all(b"taken\n")
        }
        Some(b"route") => {
            let key = words.next().and_then(rank).unwrap_or(0);
            let part = owner(legs, key);
            writeln!(out, "route {}:{} {}", key >> 32, key & 0xffff_ffff, part)
        }
        _ => Ok(()),
    }
}

fn main() -> io::Result<()> {
    let mut input = BufReader::with_capacity(65536, io::stdin().lock());
    let mut out = BufWriter::with_capacity(65536, io::stdout().lock());
    let mut legs = vec![Leg { lo: 0, hi: TOP, part: 1 }];
    let mut line = Vec::new();
    while input.read_until(b'\n', &mut line)? > 0 {
        if line.last() == Some(&b'\n') {
            line.pop();
        }
        answer(&mut legs, &line, &mut out)?;
        line.clear();
    }
    out.flush()
}
