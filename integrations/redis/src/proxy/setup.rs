//! What SIGHUP lets a proxy read again: the addresses of partitions, the users of clients, and the files of certificates and keys.

use super::metrics::Shared;
use super::users::Users;
use super::worker::Worker;
use super::{watch, USAGE};
use crate::args::Args;
use crate::bus::Node;
use crate::conn::Server;
use crate::fault::{Done, Fault};
use crate::log;
use crate::tls::Acceptor;
use std::collections::BTreeMap;
use std::sync::atomic::{AtomicU64, Ordering::SeqCst};
use std::sync::{Arc, Mutex, MutexGuard, PoisonError};

/// What was read last.
pub struct Setup {
    now: Mutex<Arc<Means>>,
    readings: AtomicU64,
    /// Whether clients have users. That does not change.
    pub has_users: bool,
}

/// How to connect, and who may.
pub struct Means {
    /// The partitions.
    pub parts: BTreeMap<u32, Server>,
    /// How clients connect by TLS, if they do.
    pub tls: Option<Acceptor>,
    /// The users of clients, if these need a password.
    pub users: Option<Users>,
}

impl Means {
    fn of(args: &Args) -> Done<Arc<Means>> {
        Ok(Arc::new(Means { parts: args.parts()?, tls: Acceptor::of(args)?, users: Users::of(args)? }))
    }
}

impl Setup {
    /// What the words of the command line say, and the files that they name.
    ///
    /// # Errors
    ///
    /// A word is wrong, or a file can't be read.
    pub fn of(args: &Args) -> Done<Setup> {
        let now = Means::of(args)?;
        let has_users = now.users.is_some();
        Ok(Setup { now: Mutex::new(now), readings: AtomicU64::new(0), has_users })
    }

    fn lock(&self) -> MutexGuard<'_, Arc<Means>> {
        self.now.lock().unwrap_or_else(PoisonError::into_inner)
    }

    /// What was read last.
    pub fn now(&self) -> Arc<Means> {
        self.lock().clone()
    }

    /// Where a partition is, if that is known.
    pub fn server(&self, part: u32) -> Option<Server> {
        self.lock().parts.get(&part).cloned()
    }

    /// How often all was read again.
    pub fn readings(&self) -> u64 {
        self.readings.load(SeqCst)
    }

    /// Takes what the words and files say now: the partitions that are new. If anything is wrong, all stays as it is.
    fn take(&self, args: &Args, bus: &Node) -> Done<Vec<u32>> {
        let new = Means::of(args)?;
        let mut now = self.lock();
        if new.tls.is_some() != now.tls.is_some() {
            return Err(Fault::new("--tls-cert begins and ends with the program"));
        }
        if new.users.is_some() != self.has_users {
            let words = "--client-users and --client-password-file begin and end with the program";
            return Err(Fault::new(words));
        }
        bus.renew(args)?;
        let parts = new.parts.keys().filter(|part| !now.parts.contains_key(part)).copied().collect();
        *now = new;
        self.readings.fetch_add(1, SeqCst);
        Ok(parts)
    }
}

/// Reads all again, and says what came of it.
pub fn read_again(args: &Args, shared: &Arc<Shared>) {
    match args.again(&USAGE).and_then(|args| shared.setup.take(&args, &shared.node)) {
        Ok(new) => {
            let count = shared.setup.now().parts.len();
            log::info(format!("users, certificates and the addresses of {count} partitions were read again"));
            watch::start(shared, &new);
        }
        Err(fault) => log::warn(format!("{fault}; all stays as it is")),
    }
}

impl Worker {
    /// Takes the addresses and users that were read again. A connection to another address is given up.
    pub(super) fn take_setup(&mut self) {
        let readings = self.shared.setup.readings();
        if readings == self.readings {
            return;
        }
        self.readings = readings;
        self.take_users();
        for at in 0..self.upstreams.len() {
            let it = &mut self.upstreams[at];
            let Some(server) = self.shared.setup.server(it.part) else {
                continue;
            };
            let is_other = it.server.addr != server.addr;
            it.server = server;
            if is_other && it.stream.is_some() {
                self.lose(at);
            }
        }
    }

    /// Gives all clients the rights that their users have now. Closed are those that could not log in any more with what they
    /// have shown, and those that have begun something that they may not do now.
    fn take_users(&mut self) {
        for place in 0..self.clients.len() {
            let Some(mut client) = self.clients[place].take() else {
                continue;
            };
            let stands = client.session.renew().is_some_and(|has_others| !has_others || !client.is_amid());
            self.put_back(place, client, stands);
        }
    }
}
