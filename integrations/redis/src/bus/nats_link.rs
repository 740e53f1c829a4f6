//! The connection to one of some NATS servers. One thread hears, and others write.

use super::nats_address::json;
use super::nats_text::{is_set, number_of, Message, Op, Parser};
use super::servers::{Server, Servers};
use super::wire::{Wire, PATIENCE};
use crate::args::Args;
use crate::fault::{Done, Fault, Trying};
use std::sync::{Arc, Condvar, Mutex, MutexGuard, PoisonError};
use std::time::{Duration, Instant};

/// How long a server may send nothing, although it is asked to.
const SILENCE: Duration = Duration::from_secs(4);
/// The most bytes that a message may have until a server says what it takes.
const LEAST: usize = 1 << 10;

/// The servers of a bus. One of them is connected to.
pub struct Hosts {
    all: Servers,
    /// Whether nothing may go in the clear, also if a server would take it.
    is_secure: bool,
    /// What says who this is, as members of a JSON object.
    login: String,
    link: Mutex<Link>,
    up: Condvar,
}

/// The connection, for writers.
#[derive(Default)]
struct Link {
    wire: Option<Arc<Wire>>,
    /// The most bytes that the server takes in a message.
    most: usize,
}

/// The connection, for its one reader. The writers have none any more once it is dropped.
pub struct Talk<'a> {
    hosts: &'a Hosts,
    host: &'a Server,
    wire: Arc<Wire>,
    parser: Parser,
    /// When the server has said anything last.
    pub heard: Instant,
    /// Whether the server was told who this is.
    is_known: bool,
}

impl Hosts {
    /// These servers, with the words of the command line that say how to connect by TLS.
    ///
    /// # Errors
    ///
    /// A file of certificates or keys can't be read, or `--keep-alive` is wrong.
    pub fn new(servers: Vec<String>, login: String, is_secure: bool, args: &Args) -> Done<Hosts> {
        Ok(Hosts {
            all: Servers::new(servers, args)?,
            is_secure: is_secure || args.has("tls-bus"),
            login,
            link: Mutex::default(),
            up: Condvar::new(),
        })
    }

    fn lock(&self) -> MutexGuard<'_, Link> {
        self.link.lock().unwrap_or_else(PoisonError::into_inner)
    }

    /// Reads the files of certificates again.
    pub fn renew(&self, args: &Args) -> Done<()> {
        self.all.renew(args)
    }

    /// The most bytes of a message: what the server takes, or until there is one what each takes.
    pub fn most(&self) -> usize {
        let link = self.lock();
        link.wire.as_ref().map_or(LEAST, |_| link.most)
    }

    /// Connects to the next server that lets it in, with these subscriptions, and does what comes first. Then writers have it
    /// too.
    ///
    /// # Errors
    ///
    /// None of them does, or that fails at each of them. The words are the same until one of them changes.
    pub fn connect(&self, wanted: &[String], begin: impl Fn(&mut Talk<'_>) -> Done<()>) -> Done<Talk<'_>> {
        self.all.first(|host| self.connect_to(host, wanted, &begin))
    }

    fn connect_to<'a>(
        &'a self,
        host: &'a Server,
        wanted: &[String],
        begin: impl Fn(&mut Talk<'_>) -> Done<()>,
    ) -> Done<Talk<'a>> {
        let wire = Arc::new(host.connect()?);
        let (parser, heard) = (Parser::default(), Instant::now());
        let mut talk = Talk { hosts: self, host, wire, parser, heard, is_known: false };
        let most = talk.greet(wanted)?;
        begin(&mut talk)?;
        *self.lock() = Link { wire: Some(talk.wire.clone()), most };
        self.up.notify_all();
        Ok(talk)
    }

    /// The connection, which is waited for, and the most bytes of a message. Without one it may be there again later.
    pub fn link(&self) -> Done<(Arc<Wire>, usize)> {
        let waited = self.up.wait_timeout_while(self.lock(), PATIENCE, |link| link.wire.is_none());
        let link = waited.unwrap_or_else(PoisonError::into_inner).0;
        let wire = link.wire.clone().ok_or_else(|| Fault::lost("no server of the bus is connected"))?;
        Ok((wire, link.most))
    }
}

impl Talk<'_> {
    /// Says who this is and what it wants to hear, once the server has said what it takes: the most bytes
    /// of a message.
    fn greet(&mut self, wanted: &[String]) -> Done<usize> {
        let info = self.until("INFO")?;
        self.secure(&info)?;
        let options = r#""verbose":false,"pedantic":false,"echo":false,"headers":false,"protocol":1"#;
        let about = format!(r#""name":"squall","lang":"rust","version":{}"#, json(env!("CARGO_PKG_VERSION")));
        let mut lines = format!("CONNECT {{{options},{about}{}}}\r\n", self.hosts.login);
        wanted.iter().for_each(|it| lines += &format!("SUB {it}\r\n"));
        self.is_known = true;
        // A server that refuses this program may say why, and not take it.
        let sent = self.wire.send((lines + "PING\r\n").as_bytes());
        self.until("PONG").and(sent)?;
        Ok(number_of(&info, "max_payload").unwrap_or(LEAST))
    }

    /// Goes on by TLS, if this program or the server asks for it.
    fn secure(&mut self, info: &str) -> Done<()> {
        let is_required = is_set(info, "tls_required");
        if !is_required && !self.hosts.is_secure {
            return Ok(());
        }
        if !is_required && !is_set(info, "tls_available") {
            return Err(Fault::new("the server has no TLS, and nothing is sent to it in the clear"));
        }
        let peer = &self.host.peer;
        if is_set(info, "tls_verify") && !peer.has_own() {
            return Err(Fault::new("the server asks for a certificate: --tls-own-cert is missing"));
        }
        if !self.parser.is_empty() {
            return Err(Fault::new("the server sent more than INFO before TLS"));
        }
        self.wire.secure(peer)
    }

    /// Hears until the server has said this word: the rest of its line.
    fn until(&mut self, name: &str) -> Done<String> {
        loop {
            while let Some(op) = self.parser.next()? {
                match op {
                    Op::Line { name: "-ERR", rest } => return Err(Fault::new(rest)),
                    Op::Line { name: said, rest } if said == name => return Ok(rest),
                    _ => {}
                }
            }
            self.receive()?;
        }
    }

    /// Reads what has come, after a wait. A server that says nothing is asked to.
    fn receive(&mut self) -> Done<()> {
        match self.wire.read()? {
            Some(bytes) => {
                self.heard = Instant::now();
                self.parser.feed(&bytes);
                Ok(())
            }
            None if self.heard.elapsed() >= SILENCE => Err(Fault::lost("the server says nothing")),
            None if self.is_known => self.wire.send(b"PING\r\n"),
            None => Ok(()),
        }
    }

    /// Sends bytes.
    pub fn send(&self, bytes: &[u8]) -> Done<()> {
        self.wire.send(bytes)
    }

    /// The next messages, after a wait of at most a second.
    ///
    /// # Errors
    ///
    /// The connection is lost, or the server refuses something.
    pub fn read(&mut self) -> Done<Vec<Message>> {
        let mut messages = Vec::new();
        self.receive()?;
        while let Some(op) = self.parser.next()? {
            match op {
                Op::Message(message) => messages.push(message),
                Op::Line { name: "PING", .. } => self.wire.send(b"PONG\r\n")?,
                Op::Line { name: "-ERR", rest } => return Err(Fault::new(rest)),
                Op::Line { .. } => {}
            }
        }
        Ok(messages)
    }

    /// Puts the server before a fault.
    pub fn named<T>(&self, done: Done<T>) -> Done<T> {
        done.trying(|| self.host.addr.clone())
    }
}

impl Drop for Talk<'_> {
    fn drop(&mut self) {
        self.hosts.lock().wire = None;
    }
}
