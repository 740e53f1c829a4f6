//! A connection to a server of a bus, in the clear or by TLS. One thread reads it, and others write.

use crate::fault::{Done, Fault};
use crate::keep_alive::KeepAlive;
use crate::tls::{self, Peer};
use openssl::ssl::{ErrorCode, SslStream};
use std::collections::VecDeque;
use std::io::{self, ErrorKind, Read, Write};
use std::net::{Shutdown, TcpStream, ToSocketAddrs};
use std::sync::{Mutex, MutexGuard, PoisonError};
use std::time::{Duration, Instant};

/// How long a server may take to connect, to begin TLS, and to take bytes.
pub const PATIENCE: Duration = Duration::from_secs(5);
/// How long a reader waits for bytes.
const TURN: Duration = Duration::from_secs(1);
/// How many bytes are read or sealed at once.
const BLOCK: usize = 1 << 16;

/// A connection. A reader that waits for bytes holds up no writer.
pub struct Wire {
    tcp: TcpStream,
    /// What seals and opens the bytes. Its lock also keeps what one writer sends in one piece.
    tls: Mutex<Option<SslStream<Pipe>>>,
}

/// Sealed bytes between the connection and what seals and opens them.
#[derive(Default)]
struct Pipe {
    come: VecDeque<u8>,
    go: Vec<u8>,
}

impl Read for Pipe {
    fn read(&mut self, block: &mut [u8]) -> io::Result<usize> {
        match self.come.read(block)? {
            0 => Err(ErrorKind::WouldBlock.into()),
            got => Ok(got),
        }
    }
}

impl Write for Pipe {
    fn write(&mut self, bytes: &[u8]) -> io::Result<usize> {
        self.go.extend_from_slice(bytes);
        Ok(bytes.len())
    }

    fn flush(&mut self) -> io::Result<()> {
        Ok(())
    }
}

impl Wire {
    /// Connects, in the clear.
    pub fn connect(addr: &str, keep_alive: KeepAlive) -> Done<Wire> {
        let tcp = reach(addr)?;
        tcp.set_nodelay(true)?;
        keep_alive.set(&tcp)?;
        tcp.set_read_timeout(Some(TURN))?;
        tcp.set_write_timeout(Some(PATIENCE))?;
        Ok(Wire { tcp, tls: Mutex::default() })
    }

    fn lock(&self) -> MutexGuard<'_, Option<SslStream<Pipe>>> {
        self.tls.lock().unwrap_or_else(PoisonError::into_inner)
    }

    /// Goes on by TLS. Nobody else may read or write meanwhile.
    ///
    /// # Errors
    ///
    /// The server or its certificate is refused, or it refuses this program. Nothing may be sent then.
    pub fn secure(&self, peer: &Peer) -> Done<()> {
        let mut session = peer.begin(Pipe::default())?;
        let began = Instant::now();
        loop {
            let done = session.do_handshake();
            // If it has failed, this tells the server why.
            let sent = self.flush(&mut session);
            match done {
                Err(error) if error.code() != ErrorCode::WANT_READ => {
                    return Err(Fault::new(tls::why(&session, &error)));
                }
                done => {
                    sent?;
                    if done.is_ok() {
                        break;
                    }
                }
            }
            if let Some(sealed) = self.fetch()? {
                session.get_mut().come.extend(sealed);
            } else if began.elapsed() >= PATIENCE {
                return Err(Fault::lost("TLS: the server does not answer"));
            }
        }
        *self.lock() = Some(session);
        Ok(())
    }

    /// Sends bytes. If that fails, the connection ends: no message may begin in the midst of another one.
    pub fn send(&self, bytes: &[u8]) -> Done<()> {
        let mut tls = self.lock();
        let sent = match tls.as_mut() {
            None => (&self.tcp).write_all(bytes),
            Some(session) => bytes.chunks(BLOCK).try_for_each(|piece| {
                session.write_all(piece)?;
                self.flush(session)
            }),
        };
        if sent.is_err() {
            // It may be gone already.
            let _ = self.tcp.shutdown(Shutdown::Both);
        }
        Ok(sent?)
    }

    /// What has come; none if nothing has after a wait of at most a second.
    pub fn read(&self) -> Done<Option<Vec<u8>>> {
        let Some(come) = self.fetch()? else {
            return Ok(None);
        };
        match self.lock().as_mut() {
            None => Ok(Some(come)),
            Some(session) => self.open(session, come).map(Some),
        }
    }

    /// Opens what has come sealed. It may be a part of TLS itself, and hold nothing.
    fn open(&self, session: &mut SslStream<Pipe>, sealed: Vec<u8>) -> Done<Vec<u8>> {
        session.get_mut().come.extend(sealed);
        let mut heard = Vec::new();
        let mut block = [0; BLOCK];
        loop {
            match session.read(&mut block) {
                Ok(0) if heard.is_empty() => return Err(closed()),
                Ok(0) => break,
                Ok(got) => heard.extend_from_slice(&block[..got]),
                Err(error) if error.kind() == ErrorKind::WouldBlock => break,
                Err(error) => return Err(Fault::new(tls::why(session, &error))),
            }
        }
        self.flush(session)?;
        Ok(heard)
    }

    /// Bytes as they come.
    fn fetch(&self) -> Done<Option<Vec<u8>>> {
        let mut block = [0; BLOCK];
        match (&self.tcp).read(&mut block) {
            Ok(0) => Err(closed()),
            Ok(got) => Ok(Some(block[..got].to_vec())),
            Err(error) => match error.kind() {
                ErrorKind::WouldBlock | ErrorKind::TimedOut | ErrorKind::Interrupted => Ok(None),
                _ => Err(error.into()),
            },
        }
    }

    /// Sends what was sealed.
    fn flush(&self, session: &mut SslStream<Pipe>) -> io::Result<()> {
        (&self.tcp).write_all(&std::mem::take(&mut session.get_mut().go))
    }
}

/// A connection to the first address of a name that takes one.
fn reach(addr: &str) -> Done<TcpStream> {
    let mut why = Fault::new("no address");
    for it in addr.to_socket_addrs()? {
        match TcpStream::connect_timeout(&it, PATIENCE) {
            Ok(tcp) => return Ok(tcp),
            Err(error) => why = error.into(),
        }
    }
    Err(why)
}

fn closed() -> Fault {
    Fault::lost("the server has closed the connection")
}
