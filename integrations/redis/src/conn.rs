//! A connection that waits for each answer, for all but the proxy's clients.

use crate::fault::{Done, Fault, Trying};
use crate::keep_alive::KeepAlive;
use crate::resp::{push, Scan, Value};
use crate::tls::{self, Peer};
use std::io::{self, ErrorKind, Read, Write};
use std::net::{SocketAddr, TcpStream};
use std::time::Duration;

/// The address of a server, and the password that it needs.
#[derive(Clone)]
pub struct Server {
    /// Its address.
    pub addr: SocketAddr,
    /// The password of the default user, if it has one.
    pub password: Option<String>,
    /// How to connect by TLS, if it needs that.
    pub tls: Option<Peer>,
    /// When a silent connection is probed.
    pub keep_alive: KeepAlive,
}

impl Server {
    /// A server without a password and TLS.
    pub fn plain(addr: SocketAddr) -> Server {
        Server { addr, password: None, tls: None, keep_alive: KeepAlive::default() }
    }
}

/// A connection whose waits no signal ends. With a limit of time they otherwise end too when the program is stopped and
/// goes on.
struct Steady(TcpStream);

impl Read for Steady {
    fn read(&mut self, block: &mut [u8]) -> io::Result<usize> {
        steady(|| self.0.read(block))
    }
}

impl Write for Steady {
    fn write(&mut self, bytes: &[u8]) -> io::Result<usize> {
        steady(|| self.0.write(bytes))
    }

    fn flush(&mut self) -> io::Result<()> {
        self.0.flush()
    }
}

/// Does it again as long as a signal ends it.
pub fn steady<T>(mut work: impl FnMut() -> io::Result<T>) -> io::Result<T> {
    loop {
        match work() {
            Err(error) if error.kind() == ErrorKind::Interrupted => {}
            done => return done,
        }
    }
}

/// What refusals begin with that pass. Nothing was done then.
const PASSING: [&str; 7] =
    ["BUSY ", "LOADING ", "MASTERDOWN ", "MISCONF ", "NOREPLICAS ", "OOM ", "READONLY "];
/// What stands before that if it is `EXEC` that is refused.
const ABORTED: &str = "EXECABORT Transaction discarded because of: ";

/// Whether a refusal passes: the server runs a long script, loads its data, or has no memory or disk left.
pub fn passes(error: &str) -> bool {
    let reason = error.strip_prefix(ABORTED).unwrap_or(error);
    PASSING.iter().any(|it| reason.starts_with(it))
}

/// What bytes go over.
trait Stream: Read + Write + Send {}

impl<S: Read + Write + Send> Stream for S {}

/// How long a server may take for an answer.
const PATIENCE: Duration = Duration::from_secs(30);

/// A connection to a server. Commands are put into its buffer, sent at once, and answered in order.
pub struct Conn {
    addr: SocketAddr,
    /// The connection, and what bytes go over: itself or TLS.
    tcp: TcpStream,
    stream: Box<dyn Stream>,
    out: Vec<u8>,
    heard: Vec<u8>,
    at: usize,
    scan: Scan,
}

impl Conn {
    /// Connects, and logs in if the server needs a password.
    pub fn open(server: &Server) -> Done<Conn> {
        let addr = server.addr;
        let tcp = TcpStream::connect_timeout(&addr, Duration::from_secs(5))
            .trying(|| format!("to connect to {addr}"))?;
        tcp.set_nodelay(true)?;
        server.keep_alive.set(&tcp)?;
        tcp.set_read_timeout(Some(PATIENCE))?;
        tcp.set_write_timeout(Some(PATIENCE))?;
        let stream: Box<dyn Stream> = match &server.tls {
            Some(peer) => {
                let mut stream = peer.begin(Steady(tcp.try_clone()?))?;
                if let Err(error) = stream.do_handshake() {
                    let why = format!("{addr}: {}", tls::why(&stream, &error));
                    return Err(if error.io_error().is_some() { Fault::lost(why) } else { Fault::new(why) });
                }
                Box::new(stream)
            }
            None => Box::new(Steady(tcp.try_clone()?)),
        };
        let (out, heard) = (Vec::new(), Vec::new());
        let mut conn = Conn { addr, tcp, stream, out, heard, at: 0, scan: Scan::default() };
        if let Some(password) = &server.password {
            conn.ask(&["AUTH", password])?;
        }
        Ok(conn)
    }

    /// The server's address.
    pub fn addr(&self) -> SocketAddr {
        self.addr
    }

    /// Puts a command.
    pub fn put<W: AsRef<[u8]>>(&mut self, words: &[W]) {
        push(&mut self.out, words);
    }

    /// Sends what was put.
    pub fn flush(&mut self) -> Done<()> {
        let sent = self.stream.write_all(&self.out);
        self.out.clear();
        sent.trying(|| format!("to send to {}", self.addr))
    }

    /// The next answer.
    pub fn hear(&mut self) -> Done<Value> {
        loop {
            let rest = &self.heard[self.at..];
            let end = self.scan.read(rest);
            if let Some(len) = end.trying(|| format!("from {}", self.addr))? {
                let value = Value::read(&rest[..len]).trying(|| format!("from {}", self.addr))?;
                self.at += len;
                let wrong = || Fault::new(format!("from {}: no whole answer", self.addr));
                return Ok(value.ok_or_else(wrong)?.0);
            }
            self.heard.drain(..self.at);
            self.at = 0;
            self.receive()?;
        }
    }

    fn receive(&mut self) -> Done<()> {
        let mut block = [0; 16384];
        let got = self.stream.read(&mut block);
        match got.trying(|| format!("to hear from {}", self.addr))? {
            0 => Err(Fault::lost(format!("{} has closed the connection", self.addr))),
            got => {
                self.heard.extend_from_slice(&block[..got]);
                Ok(())
            }
        }
    }

    /// Sends what was put, and hears that many answers.
    pub fn hear_all(&mut self, count: usize) -> Done<Vec<Value>> {
        self.flush()?;
        (0..count).map(|_| self.hear()).collect()
    }

    /// Sends one command and hears its answer. An answer that is an error is a fault.
    pub fn ask<W: AsRef<[u8]>>(&mut self, words: &[W]) -> Done<Value> {
        self.put(words);
        self.flush()?;
        match self.hear()? {
            Value::Error(text) => Err(Fault::new(format!("{}: {text}", self.addr))),
            value => Ok(value),
        }
    }

    /// How long an answer may take from now on.
    pub fn set_patience(&mut self, patience: Duration) -> Done<()> {
        Ok(self.tcp.set_read_timeout(Some(patience))?)
    }
}

#[cfg(test)]
mod tests {
    use super::*;

    #[test]
    fn refusals_that_pass_are_told_from_others() {
        for error in
            ["OOM command not allowed", "BUSY Redis is busy", "LOADING Redis is loading", "READONLY You"]
        {
            assert!(passes(error) && passes(&format!("EXECABORT Transaction discarded because of: {error}")));
        }
        for error in
            ["EXECABORT Transaction discarded because of previous errors.", "BUSYKEY x", "ERR OOM x", ""]
        {
            assert!(!passes(error), "{error}");
        }
    }
}
