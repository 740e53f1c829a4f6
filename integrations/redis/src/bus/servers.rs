//! The servers of a bus, of which one is connected to.

use super::wire::Wire;
use crate::args::Args;
use crate::fault::{Done, Fault, Trying};
use crate::keep_alive::KeepAlive;
use crate::tls::Peer;
use std::sync::atomic::{AtomicUsize, Ordering::Relaxed};

/// The servers.
pub struct Servers {
    all: Vec<Server>,
    /// Which of them is connected to next.
    next: AtomicUsize,
}

/// A server.
pub struct Server {
    /// Its `HOST:PORT`.
    pub addr: String,
    /// How it is connected to by TLS.
    pub peer: Peer,
    keep_alive: KeepAlive,
}

impl Server {
    /// Connects, in the clear.
    pub fn connect(&self) -> Done<Wire> {
        Wire::connect(&self.addr, self.keep_alive)
    }
}

impl Servers {
    /// These servers, with the words of the command line that say how to connect.
    ///
    /// # Errors
    ///
    /// A file of certificates or keys can't be read, or `--keep-alive` is wrong.
    pub fn new(addrs: Vec<String>, args: &Args) -> Done<Servers> {
        let keep_alive = KeepAlive::of(args)?;
        let server = |addr: String| Peer::new(args, &addr).map(|peer| Server { addr, peer, keep_alive });
        Ok(Servers { all: addrs.into_iter().map(server).collect::<Done<_>>()?, next: AtomicUsize::new(0) })
    }

    /// Reads the files of certificates again.
    pub fn renew(&self, args: &Args) -> Done<()> {
        self.all.iter().try_for_each(|server| server.peer.renew(args))
    }

    /// What the next server gives, or the one after it if that one can't be used, and so on.
    ///
    /// # Errors
    ///
    /// None of them can be used. The words are the same until one of them changes.
    pub fn first<'a, T>(&'a self, begin: impl Fn(&'a Server) -> Done<T>) -> Done<T> {
        let mut faults = Vec::new();
        for _ in &self.all {
            let server = &self.all[self.next.fetch_add(1, Relaxed) % self.all.len()];
            match begin(server).trying(|| server.addr.clone()) {
                Ok(done) => return Ok(done),
                Err(fault) => faults.push(fault),
            }
        }
        let words: Vec<String> = faults.iter().map(ToString::to_string).collect();
        let words = words.join(", ");
        // One that is away may let it in later.
        Err(if faults.iter().any(Fault::is_lost) { Fault::lost(words) } else { Fault::new(words) })
    }
}
