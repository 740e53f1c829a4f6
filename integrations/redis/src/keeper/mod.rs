//! A node that keeps its board in a file.

mod file;
mod numbers;
mod supervise;

use crate::args::{self, Args, Usage};
use crate::bus::{Node, Options};
use crate::fault::{Done, Fault};
use crate::log;
use crate::{keep_alive, metrics, stop, tls};
use file::BoardFile;
use numbers::Numbers;
use std::sync::atomic::Ordering::Relaxed;
use std::sync::mpsc::{self, Receiver};
use std::time::Duration;

/// What the program is.
pub const USAGE: Usage = Usage {
    name: "squall-redis-node",
    help: include_str!("help.txt"),
    options: &[
        "first",
        "bus",
        "bus-password-file",
        "streams",
        "secret-file",
        "board",
        "every",
        "part",
        "password-file",
        keep_alive::OPTION,
        args::CONFIG,
        log::OPTION,
        metrics::OPTION,
        tls::OPTIONS[0],
        tls::OPTIONS[1],
        tls::OPTIONS[2],
    ],
    flags: &["supervise", tls::FLAGS[0], tls::FLAGS[1]],
};

/// The pause after the file could not be written.
const AGAIN: Duration = Duration::from_secs(1);

/// Runs the program until it is asked to end, unless what it needs is missing.
pub fn run(args: &Args) -> Done<()> {
    if !args.has("supervise") {
        return match ["part", "password-file"].into_iter().find(|name| args.has(name)) {
            Some(name) => Err(Fault::of_words(format!("--{name} needs --supervise"))),
            None => keep(args, &*Numbers::show(args)?),
        };
    }
    let numbers = Numbers::show(args)?;
    if args.has("board") {
        supervise::start(args, &numbers)?;
        return keep(args, &numbers);
    }
    stop::watch(|| ())?;
    supervise::start(args, &numbers)?;
    stop::wait();
    Ok(())
}

/// Keeps the board until the program is asked to end.
fn keep(args: &Args, numbers: &Numbers) -> Done<()> {
    let file = BoardFile::new(args.need("board")?);
    let every = Duration::from_millis(args.number("every", 100, 1, 3_600_000)?);
    let options = Options::of(args, "node")?;
    let known = file.read(&options.plan)?;
    // A file that can't be written is noticed at once.
    file.write(&known.concat())?;
    let node = Node::join(Options { known, ..options })?;
    let _ = numbers.node.set(node.clone());
    let (news, heard) = mpsc::sync_channel(1);
    // If one waits already, it is as good.
    let wake = move || {
        let _ = news.try_send(());
    };
    node.on_news(wake.clone());
    stop::watch(wake)?;
    log::info(format!("keeps {}, course {}", file.path().display(), node.view().0.number()));
    write_news(&file, &node, &heard, (every, numbers))
}

/// Writes the board each time that it has changed, but no more often than that.
fn write_news(
    file: &BoardFile,
    node: &Node,
    heard: &Receiver<()>,
    (every, numbers): (Duration, &Numbers),
) -> Done<()> {
    let (mut written, mut said) = (Vec::new(), String::new());
    loop {
        let is_last = stop::is_asked();
        let board = node.board()?.concat();
        let is_new = board != written;
        match file.write_if(is_new, &board) {
            Err(fault) if is_last => return Err(fault),
            Err(fault) => {
                numbers.write_faults.fetch_add(1, Relaxed);
                // A full disk may stay full for long, and this is said once.
                let words = fault.to_string();
                if words != said {
                    log::warn(&words);
                }
                said = words;
                stop::sleep(AGAIN);
            }
            Ok(()) if is_last => return Ok(()),
            Ok(()) if is_new => {
                numbers.writes.fetch_add(1, Relaxed);
                if !said.is_empty() {
                    log::info("the board is written again");
                }
                (written, said) = (board, String::new());
                stop::sleep(every);
            }
            // The node has the other end for ever.
            Ok(()) => drop(heard.recv()),
        }
    }
}
