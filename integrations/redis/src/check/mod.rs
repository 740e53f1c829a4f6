//! A load that knows each right answer, for tests.

mod command;
mod key;
mod load;

use crate::args::{resolve, Args, Usage};
use crate::conn::Server;
use crate::fault::{note, say, Done, Fault};
use crate::tls::{self, Peer};
use load::{Load, Tally};
use std::path::PathBuf;
use std::sync::atomic::Ordering::Relaxed;
use std::thread;
use std::time::{Duration, Instant};

/// What the program is.
pub const USAGE: Usage = Usage {
    name: "squall-redis-check",
    help: include_str!("help.txt"),
    options: &[
        "proxy",
        "commands",
        "connections",
        "depth",
        "keys",
        "roots",
        "size",
        "seed",
        "prefix",
        "pause",
        "reads",
        "while",
        tls::OPTIONS[0],
        tls::OPTIONS[1],
        tls::OPTIONS[2],
    ],
    flags: &["tolerant", "quiet", "tls"],
};

/// Runs the program.
pub fn run(args: &Args) -> Done<()> {
    let connections = args.number("connections", 8, 1, 1000)?;
    let tally = Tally::default();
    let load = load(args, connections, &tally)?;
    let began = Instant::now();
    thread::scope(|scope| {
        let load = &load;
        let threads: Vec<_> = (0..connections).map(|own| scope.spawn(move || load.run(own))).collect();
        while !args.has("quiet") && threads.iter().any(|it| !it.is_finished()) {
            thread::sleep(Duration::from_millis(250));
            if began.elapsed().as_millis() % 5000 < 250 {
                note(&tally);
            }
        }
    });
    say(format!("{tally} seconds {:.1}", began.elapsed().as_secs_f64()))?;
    let faults = tally.lost.load(Relaxed) + tally.wrong.load(Relaxed);
    let errors = tally.errors.load(Relaxed) + tally.unread.load(Relaxed);
    if faults > 0 || errors > 0 && !load.is_tolerant {
        return Err(Fault::new("answers were lost or wrong"));
    }
    Ok(())
}

/// A proxy of that address.
fn server(args: &Args, addr: &str) -> Done<Server> {
    let server = Server::plain(resolve(addr)?);
    Ok(Server { tls: Peer::of(args, "tls", addr)?, ..server })
}

/// The load that the words of the command line ask for.
fn load<'a>(args: &Args, connections: u64, tally: &'a Tally) -> Done<Load<'a>> {
    let proxies: Vec<_> = args.all("proxy").map(|addr| server(args, addr)).collect::<Done<_>>()?;
    if proxies.is_empty() {
        return Err(Fault::new("--proxy HOST:PORT is missing"));
    }
    let commands = args.number("commands", 100_000, 1, u64::MAX)?;
    Ok(Load {
        proxies,
        commands: commands.div_ceil(connections),
        depth: args.number("depth", 8, 1, 10_000)? as usize,
        keys: args.number("keys", 500, 8, 1_000_000)? as usize,
        roots: args.number("roots", 1000, 1, 1_000_000)?,
        padding: "x".repeat(args.number("size", 100, 0, 1 << 20)? as usize),
        seed: args.number("seed", 1, 0, u64::MAX)?,
        prefix: args.get("prefix").unwrap_or("k").to_string(),
        pause: Duration::from_micros(args.number("pause", 0, 0, 10_000_000)?),
        file: args.get("while").map(PathBuf::from),
        reads: args.number("reads", 200, 1, 1_000_000)?,
        is_tolerant: args.has("tolerant"),
        tally,
    })
}
