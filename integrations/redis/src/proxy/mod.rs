//! The proxy: one Redis address for many partitions, also while keys move between them.

mod client;
mod commands;
mod counts;
mod deeds;
mod feeds;
mod files;
mod follow;
mod glob;
mod ids;
mod info;
mod link;
mod local;
mod memory;
mod metrics;
mod multi;
mod names;
mod own;
mod page;
mod pages;
mod places;
mod plan;
mod pubsub;
mod rights;
mod roles;
mod scan;
mod serve;
mod session;
mod setup;
mod slot;
mod socket;
mod subscribe;
mod table;
mod task;
mod topics;
mod upstream;
mod users;
mod visit;
mod watch;
mod worker;

use crate::args::{self, Args, Usage};
use crate::bus::{Node, Options};
use crate::course::Plan;
use crate::fault::{Done, Fault, Trying};
use crate::keep_alive::{self, KeepAlive};
use crate::log;
use crate::metrics::serve_site;
use crate::tls;
use crate::{secret, stop};
use metrics::Shared;
use mio::{Poll, Waker};
use socket::ready_stream;
use socket2::SockRef;
use std::io::Write;
use std::net::{Shutdown, TcpListener, TcpStream};
use std::sync::atomic::{AtomicBool, AtomicU64, AtomicUsize, Ordering::SeqCst};
use std::sync::{Arc, Mutex, PoisonError};
use std::thread;
use std::time::{Duration, Instant};
use worker::{Worker, WAKE};

/// What the program is.
pub const USAGE: Usage = Usage {
    name: "squall-redis-proxy",
    help: include_str!("help.txt"),
    options: &[
        "listen",
        "first",
        "bus",
        "bus-password-file",
        "streams",
        "part",
        "secret-file",
        "threads",
        "wait",
        "answer",
        "clients",
        "client-memory",
        "client-password-file",
        "client-users",
        "memory",
        keep_alive::OPTION,
        crate::diary::OPTION,
        args::CONFIG,
        log::OPTION,
        crate::metrics::OPTION,
        "program",
        "tls-cert",
        "tls-key",
        "tls-client-ca",
        tls::OPTIONS[0],
        tls::OPTIONS[1],
        tls::OPTIONS[2],
    ],
    flags: &tls::FLAGS,
};

/// How long clients may take for their last answers, once the program is asked to end.
const GRACE: Duration = Duration::from_secs(10);
/// What is said if other machines may connect.
const OPEN: &str = "whoever reaches this address may read and write all keys: --client-password-file or \
                    --client-users asks for a password, and --tls-client-ca for a certificate";
/// Open files beside those of clients and of partitions.
const FILES: usize = 64;

/// Runs the program until it is asked to end.
pub fn run(args: &Args) -> Done<()> {
    let listen = args.need("listen")?;
    let listener = TcpListener::bind(listen).trying(|| format!("--listen {listen}"))?;
    let cores = thread::available_parallelism().map_or(1, |cores| cores.get());
    let threads = args.number("threads", (cores / 4).clamp(1, 8) as u64, 1, 64)? as usize;
    let shared = Arc::new(share(args, threads, listener.local_addr()?.port())?);
    let program = args.get("program").unwrap_or("squall");
    serve_site(args, || Ok(page::Page::new(shared.clone(), program, args.need("first")?)))?;
    let most = shared.most_clients;
    let listener = Arc::new(listener);
    let wakers = Arc::new(start(&shared)?);
    let parts: Vec<u32> = shared.setup.now().parts.keys().copied().collect();
    watch::start(&shared, &parts);
    let (words, own) = (args.clone(), shared.clone());
    stop::on_hang_up(move || setup::read_again(&words, &own))?;
    let files = most + shared.setup.now().parts.len() * (threads * 3 + 1) + FILES;
    files::warn(files);
    if !shared.setup.has_users
        && args.get("tls-client-ca").is_none()
        && !listener.local_addr()?.ip().is_loopback()
    {
        log::warn(OPEN);
    }
    log::info(format!("serves at {}", listener.local_addr()?));
    stop::watch(|| ())?;
    let all = (listener.clone(), shared.clone(), wakers.clone());
    thread::spawn(move || {
        let (listener, shared, wakers) = all;
        if let Err(fault) = accept(&listener, &shared, &wakers) {
            log::fail(format!("{fault}"));
            std::process::exit(1);
        }
    });
    stop::wait();
    end(&listener, &shared, &wakers);
    Ok(())
}

/// Lets no client in any more, gives those that are there the answers to what they have sent, and closes them.
fn end(listener: &TcpListener, shared: &Shared, wakers: &[Arc<Waker>]) {
    shared.is_ending.store(true, SeqCst);
    // Nobody is let in any more, also if this fails.
    let _ = SockRef::from(listener).shutdown(Shutdown::Both);
    for waker in wakers {
        let _ = waker.wake();
    }
    let began = Instant::now();
    while shared.clients.load(SeqCst) > 0 && began.elapsed() < GRACE {
        thread::sleep(Duration::from_millis(5));
    }
    let left = shared.clients.load(SeqCst);
    log::info(format!("ends; {left} clients wait for answers"));
}

fn share(args: &Args, threads: usize, port: u16) -> Done<Shared> {
    let node = Node::join(Options::of(args, "proxy")?)?;
    let (setup, secret) = (setup::Setup::of(args)?, args.secret()?);
    Ok(Shared {
        node,
        cards: session::Cards::default(),
        first: Plan::of(args, "first")?.ranges,
        reader: secret::of_reader(&secret),
        secret,
        wait: Duration::from_millis(args.number("wait", 5000, 1, 3_600_000)?),
        answer: Duration::from_millis(args.number("answer", 60_000, 1, 3_600_000)?),
        keep_alive: KeepAlive::of(args)?,
        memory: args.number("client-memory", 64, 1, 4096)? as usize * (1 << 20),
        bound: memory::Bound::of(args)?,
        tables: roles::Tables::default(),
        watch: watch::Watch::default(),
        setup,
        port,
        most_clients: args.number("clients", 10_000, 1, 1_000_000)? as usize,
        clients: AtomicUsize::new(0),
        connections: AtomicU64::new(0),
        is_ending: AtomicBool::new(false),
        arrivals: (0..threads).map(|_| Mutex::default()).collect(),
        counts: (0..threads).map(|_| counts::Counts::default()).collect(),
        began: Instant::now(),
    })
}

/// Starts the workers: what wakes each of them.
fn start(shared: &Arc<Shared>) -> Done<Vec<Arc<Waker>>> {
    let mut wakers = Vec::new();
    for own in 0..shared.counts.len() {
        let poll = Poll::new()?;
        let waker = Arc::new(Waker::new(poll.registry(), WAKE)?);
        wakers.push(waker.clone());
        shared.node.on_news(move || {
            let _ = waker.wake();
        });
        let worker = Worker::new(poll, shared.clone(), own);
        thread::Builder::new().name(format!("worker {own}")).spawn(move || {
            if let Err(error) = worker.run() {
                log::fail(format!("{error}"));
                std::process::exit(1);
            }
        })?;
    }
    Ok(wakers)
}

/// Gives clients to the workers in turn, until the program is asked to end.
fn accept(listener: &TcpListener, shared: &Shared, wakers: &[Arc<Waker>]) -> Done<()> {
    let mut next = 0;
    let mut said = String::new();
    while !shared.is_ending.load(SeqCst) {
        let mut stream: TcpStream = match listener.accept() {
            Ok((stream, _)) => stream,
            Err(_) if shared.is_ending.load(SeqCst) => break,
            Err(error) => {
                // With too many open files it fails for long, and this is said once.
                let words = error.to_string();
                if words != said {
                    log::warn(format!("to accept: {words}"));
                }
                said = words;
                thread::sleep(Duration::from_millis(100));
                continue;
            }
        };
        if shared.clients.load(SeqCst) >= shared.most_clients {
            let _ = stream.write_all(b"-ERR max number of clients reached\r\n");
            continue;
        }
        let Ok(stream) = ready_stream(stream, shared.keep_alive) else {
            continue;
        };
        shared.clients.fetch_add(1, SeqCst);
        shared.connections.fetch_add(1, SeqCst);
        let arrivals = &shared.arrivals[next];
        arrivals.lock().unwrap_or_else(PoisonError::into_inner).push(stream);
        wakers[next].wake().map_err(|error| Fault::new(error.to_string()))?;
        next = (next + 1) % wakers.len();
    }
    Ok(())
}
