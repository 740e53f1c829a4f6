//! What clients notice while keys move: commands a second and latency before a command that moves keys,
//! and while it runs. The clients ask a proxy, or are clients of a Redis Cluster.
//!
//!     during (--proxy | --cluster) HOST:PORT [--connections N] [--keys N] [--size BYTES] [--rate N]
//!            [--before MS] -- COMMAND ..
//!
//! First it sets all keys. Then each connection sets and gets keys by chance, one command at a time: N
//! commands a second of all of them together with `--rate`, else as many as it can. With `--rate` latency
//! counts from the moment at which a command is due, so a stall counts for all commands that it delays.

use squall_redis::args::{resolve, Args, Usage};
use squall_redis::conn::{Conn, Server};
use squall_redis::dice::Dice;
use squall_redis::fault::{Done, Fault, Trying};
use squall_redis::resp::Value;
use std::collections::btree_map::Entry;
use std::collections::BTreeMap;
use std::net::SocketAddr;
use std::process::{Command, ExitCode, Stdio};
use std::sync::atomic::{AtomicBool, Ordering::Relaxed};
use std::thread;
use std::time::{Duration, Instant};

const USAGE: Usage = Usage {
    name: "during",
    help: "",
    options: &["proxy", "cluster", "connections", "keys", "size", "rate", "before"],
    flags: &[],
};

/// How many slots a Redis Cluster has.
const SLOTS: usize = 16384;
/// How often a command is sent on, or asked for again.
const MOST: usize = 10_000;

/// How the connections ask.
struct Load {
    addr: SocketAddr,
    is_cluster: bool,
    keys: u64,
    text: String,
    /// The time between two commands of a connection; none if each follows the one before.
    every: Option<Duration>,
    began: Instant,
    is_over: AtomicBool,
}

/// A command that was answered: when, and after how long.
type Sample = (Instant, Duration);

fn main() -> ExitCode {
    let words: Vec<String> = std::env::args().skip(1).collect();
    match run(&words) {
        Ok(()) => ExitCode::SUCCESS,
        Err(fault) => {
            eprintln!("during: {fault}");
            ExitCode::FAILURE
        }
    }
}

fn run(words: &[String]) -> Done<()> {
    let end = words.iter().position(|word| word == "--").unwrap_or(words.len());
    let args = Args::parse(&words[..end], &USAGE)?;
    let command = words.get(end + 1..).unwrap_or_default();
    let (program, rest) =
        command.split_first().ok_or_else(|| Fault::new("the command that moves keys is missing"))?;
    let connections = args.number("connections", 16, 1, 1000)?;
    let load = Load::of(&args, connections)?;
    let before = Duration::from_millis(args.number("before", 3000, 1, 3_600_000)?);
    load.fill(connections)?;
    let (span, samples) = thread::scope(|scope| -> Done<_> {
        let load = &load;
        let threads: Vec<_> =
            (0..connections).map(|own| scope.spawn(move || load.ask_on(own, connections))).collect();
        thread::sleep(before);
        let began = Instant::now();
        let status = Command::new(program).args(rest).stdout(Stdio::null()).status();
        let span = (began, Instant::now());
        load.is_over.store(true, Relaxed);
        let mut samples = Vec::new();
        for thread in threads {
            samples.extend(thread.join().map_err(|_| Fault::new("a connection has ended"))??);
        }
        match status.trying(|| program.clone())?.success() {
            true => Ok((span, samples)),
            false => Err(Fault::new(format!("{program} has failed"))),
        }
    })?;
    // The first half of the time before warms up.
    show("before", (span.0 - before / 2, span.0), &samples);
    show("during", span, &samples);
    Ok(())
}

/// A line of what clients noticed in a span of time.
fn show(name: &str, (from, to): (Instant, Instant), samples: &[Sample]) {
    let within = samples.iter().filter(|(at, _)| (from..to).contains(at));
    let mut all: Vec<u128> = within.map(|(_, took)| took.as_micros()).collect();
    all.sort_unstable();
    let seconds = (to - from).as_secs_f64();
    let at = |share: f64| all.get((all.len() as f64 * share) as usize).or(all.last()).unwrap_or(&0);
    println!(
        "{name} seconds {seconds:.2} commands/s {:.0} p50 {} p99 {} p999 {} longest {}",
        all.len() as f64 / seconds,
        at(0.5),
        at(0.99),
        at(0.999),
        at(1.0)
    );
}

impl Load {
    /// What the words of the command line ask for.
    fn of(args: &Args, connections: u64) -> Done<Load> {
        let rate = args.number("rate", 0, 0, 1_000_000)?;
        let is_cluster = args.has("cluster");
        Ok(Load {
            addr: resolve(args.need(if is_cluster { "cluster" } else { "proxy" })?)?,
            is_cluster,
            keys: args.number("keys", 100_000, 1, 100_000_000)?,
            text: "x".repeat(args.number("size", 100, 1, 1 << 24)? as usize),
            every: (rate > 0).then(|| Duration::from_secs(connections) / rate as u32),
            began: Instant::now(),
            is_over: AtomicBool::new(false),
        })
    }

    fn client(&self) -> Done<Client> {
        let server = Server::plain(self.addr);
        if self.is_cluster {
            Cluster::open(server).map(Client::Cluster)
        } else {
            Conn::open(&server).map(|conn| Client::Proxy(Box::new(conn)))
        }
    }

    /// A key that is mapped by its pair: of a thousand roots.
    fn key(&self, at: u64) -> String {
        format!("{}:{}:k", at % 1000, at / 1000)
    }

    /// Sets all keys, those of each connection in turn.
    fn fill(&self, connections: u64) -> Done<()> {
        thread::scope(|scope| {
            let threads: Vec<_> = (0..connections)
                .map(|own| {
                    scope.spawn(move || {
                        let mut client = self.client()?;
                        let mut keys = (own..self.keys).step_by(connections as usize);
                        keys.try_for_each(|at| self.expect(&mut client, &["SET", &self.key(at), &self.text]))
                    })
                })
                .collect();
            let ended = || Fault::new("a connection has ended");
            threads.into_iter().try_for_each(|thread| thread.join().map_err(|_| ended())?)
        })
    }

    /// Asks until all is over. Connections begin evenly spread over the time between two commands.
    fn ask_on(&self, own: u64, connections: u64) -> Done<Vec<Sample>> {
        let mut client = self.client()?;
        let mut dice = Dice::of(own);
        let mut samples = Vec::new();
        let mut due = self.began + self.began.elapsed();
        due += self.every.unwrap_or_default() * own as u32 / connections as u32;
        while !self.is_over.load(Relaxed) {
            thread::sleep(due.saturating_duration_since(Instant::now()));
            let key = self.key(dice.below(self.keys));
            match dice.below(2) {
                0 => self.expect(&mut client, &["SET", &key, &self.text])?,
                _ => self.expect(&mut client, &["GET", &key])?,
            }
            let now = Instant::now();
            samples.push((now, now - due));
            due = self.every.map_or(now, |every| due + every);
        }
        Ok(samples)
    }

    /// One command, whose answer has to be right.
    fn expect(&self, client: &mut Client, words: &[&str]) -> Done<()> {
        match client.ask(words)? {
            Value::Status(_) if words[0] == "SET" => Ok(()),
            Value::Bulk(text) if words[0] == "GET" && text == self.text.as_bytes() => Ok(()),
            answer => Err(Fault::new(format!("{} {}: {answer:.60?}", words[0], words[1]))),
        }
    }
}

enum Client {
    Proxy(Box<Conn>),
    Cluster(Cluster),
}

impl Client {
    fn ask(&mut self, words: &[&str]) -> Done<Value> {
        match self {
            Client::Proxy(conn) => {
                conn.put(words);
                conn.flush()?;
                conn.hear()
            }
            Client::Cluster(cluster) => cluster.ask(words),
        }
    }
}

/// A client of a Redis Cluster: it keeps the map of slots, and follows `MOVED` and `ASK`.
struct Cluster {
    nodes: BTreeMap<SocketAddr, Conn>,
    slots: Vec<SocketAddr>,
}

impl Cluster {
    fn open(server: Server) -> Done<Cluster> {
        let mut conn = Conn::open(&server)?;
        let mut slots = vec![server.addr; SLOTS];
        for range in conn.ask(&["CLUSTER", "SLOTS"])?.list() {
            let range = range.list();
            if let [Value::Int(from), Value::Int(to), Value::List(node), ..] = &range[..] {
                if let [Value::Bulk(host), Value::Int(port), ..] = &node[..] {
                    let addr = resolve(&format!("{}:{port}", String::from_utf8_lossy(host)))?;
                    slots[*from as usize..=*to as usize].fill(addr);
                }
            }
        }
        Ok(Cluster { nodes: BTreeMap::from([(server.addr, conn)]), slots })
    }

    fn ask(&mut self, words: &[&str]) -> Done<Value> {
        let slot = usize::from(crc16(words[1].as_bytes())) % SLOTS;
        let mut addr = self.slots[slot];
        let mut is_asking = false;
        for _ in 0..MOST {
            let conn = self.node(addr)?;
            if is_asking {
                conn.put(&["ASKING"]);
            }
            conn.put(words);
            let answer = conn.hear_all(1 + usize::from(is_asking))?.pop();
            let Some(Value::Error(error)) = &answer else {
                return answer.ok_or_else(|| Fault::new("no answer"));
            };
            let said: Vec<&str> = error.split(' ').collect();
            match said[..] {
                ["MOVED", _, to] => {
                    (addr, is_asking) = (resolve(to)?, false);
                    self.slots[slot] = addr;
                }
                ["ASK", _, to] => (addr, is_asking) = (resolve(to)?, true),
                ["TRYAGAIN", ..] => thread::sleep(Duration::from_micros(300)),
                _ => return Err(Fault::new(error)),
            }
        }
        Err(Fault::new(format!("{} {}: asked too often", words[0], words[1])))
    }

    fn node(&mut self, addr: SocketAddr) -> Done<&mut Conn> {
        match self.nodes.entry(addr) {
            Entry::Occupied(there) => Ok(there.into_mut()),
            Entry::Vacant(place) => Ok(place.insert(Conn::open(&Server::plain(addr))?)),
        }
    }
}

/// The checksum by which a Redis Cluster finds the slot of a key: CRC16-XMODEM.
fn crc16(bytes: &[u8]) -> u16 {
    let shift = |crc: u16| if crc & 0x8000 == 0 { crc << 1 } else { (crc << 1) ^ 0x1021 };
    bytes.iter().fold(0, |crc, &byte| (0..8).fold(crc ^ (u16::from(byte) << 8), |crc, _| shift(crc)))
}
