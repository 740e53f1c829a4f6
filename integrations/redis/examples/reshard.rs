//! Moves slots of a Redis Cluster to its third server, at a pace: what `redis-cli --cluster reshard` does,
//! which has none.
//!
//!     reshard --server HOST:PORT --server HOST:PORT --server HOST:PORT [--slots N] [--pace KEYS] [--keys N]
//!
//! From the first slot of the first two servers on, `--slots` of each (688) go to the third one, `--keys`
//! keys by one MIGRATE (10), and `--pace` keys a second (4000).

use squall_redis::args::{resolve, run, Args, Usage};
use squall_redis::conn::{Conn, Server};
use squall_redis::fault::{Done, Fault};
use std::process::ExitCode;
use std::thread;
use std::time::{Duration, Instant};

const USAGE: Usage =
    Usage { name: "reshard", help: "", options: &["server", "slots", "pace", "keys"], flags: &[] };

/// A server of the cluster.
struct Node {
    conn: Conn,
    /// Its name in the cluster.
    name: String,
    host: String,
    port: String,
}

/// How many keys were moved, since when, and how many a second may be.
struct Pace {
    began: Instant,
    keys: u32,
    most: u32,
}

fn main() -> ExitCode {
    run(&USAGE, reshard)
}

fn reshard(args: &Args) -> Done<()> {
    let nodes: Vec<Node> = args.all("server").map(Node::open).collect::<Done<_>>()?;
    let [first, second, mut dest] = <[Node; 3]>::try_from(nodes)
        .map_err(|_| Fault::new("--server HOST:PORT has to be given three times"))?;
    let slots = args.number("slots", 688, 1, 8192)? as u32;
    let most = args.number("pace", 4000, 1, 1_000_000)? as u32;
    let count = args.number("keys", 10, 1, 10_000)?.to_string();
    let mut pace = Pace { began: Instant::now(), keys: 0, most };
    for (mut source, from) in [(first, 0), (second, 8192)] {
        for slot in from..from + slots {
            move_slot(&mut source, &mut dest, slot, &count, &mut pace)?;
        }
    }
    Ok(())
}

/// Moves one slot, with its keys.
fn move_slot(source: &mut Node, dest: &mut Node, slot: u32, count: &str, pace: &mut Pace) -> Done<()> {
    let slot = slot.to_string();
    dest.conn.ask(&["CLUSTER", "SETSLOT", &slot, "IMPORTING", &source.name])?;
    source.conn.ask(&["CLUSTER", "SETSLOT", &slot, "MIGRATING", &dest.name])?;
    loop {
        let keys = source.conn.ask(&["CLUSTER", "GETKEYSINSLOT", &slot, count])?.list();
        if keys.is_empty() {
            break;
        }
        pace.keys += keys.len() as u32;
        let head = ["MIGRATE", &dest.host, &dest.port, "", "0", "60000", "KEYS"];
        let head = head.iter().map(|word| word.as_bytes().to_vec());
        let words: Vec<Vec<u8>> = head.chain(keys.into_iter().map(|key| key.bytes())).collect();
        source.conn.ask(&words)?;
        pace.wait();
    }
    for node in [&mut dest.conn, &mut source.conn] {
        node.ask(&["CLUSTER", "SETSLOT", &slot, "NODE", &dest.name])?;
    }
    Ok(())
}

impl Node {
    fn open(addr: &str) -> Done<Node> {
        let server = Server::plain(resolve(addr)?);
        let mut conn = Conn::open(&server)?;
        let name = conn.ask(&["CLUSTER", "MYID"])?.text();
        let (host, port) = (server.addr.ip().to_string(), server.addr.port().to_string());
        Ok(Node { conn, name, host, port })
    }
}

impl Pace {
    /// Waits until the next keys may be moved.
    fn wait(&self) {
        let due = self.began + Duration::from_secs(1) * self.keys / self.most;
        thread::sleep(due.saturating_duration_since(Instant::now()));
    }
}
