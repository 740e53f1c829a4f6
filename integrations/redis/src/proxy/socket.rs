//! Sockets that never wait.

use crate::conn::Server;
use crate::fault::Done;
use crate::keep_alive::KeepAlive;
use crate::tls::{self, Acceptor};
use mio::net::TcpStream;
use openssl::ssl::SslStream;
use std::io::{self, ErrorKind, Read, Write};

/// A connection, with or without TLS.
///
/// TLS makes its handshake in the first reads and writes. Any event may let either of them go on.
pub enum Socket {
    Plain(TcpStream),
    Tls(Box<Session>),
}

/// A connection with TLS.
pub struct Session {
    stream: SslStream<TcpStream>,
    /// Why it has failed, if not by the connection below it.
    fault: Option<String>,
}

impl Session {
    fn of(stream: SslStream<TcpStream>) -> Socket {
        Socket::Tls(Box::new(Session { stream, fault: None }))
    }

    /// Keeps why it has failed.
    fn heed(&mut self, done: io::Result<usize>) -> io::Result<usize> {
        if let Err(error) = &done {
            let is_below = error.raw_os_error().is_some();
            if !is_below && !matches!(error.kind(), ErrorKind::WouldBlock | ErrorKind::NotConnected) {
                self.fault = Some(tls::why(&self.stream, error));
            }
        }
        done
    }
}

impl Socket {
    /// A client's connection.
    pub fn accept(stream: TcpStream, tls: Option<&Acceptor>) -> Done<Socket> {
        Ok(match tls {
            Some(acceptor) => Session::of(acceptor.begin(stream)?),
            None => Socket::Plain(stream),
        })
    }

    /// Begins to connect to a server.
    pub fn connect(server: &Server) -> Done<Socket> {
        let stream = TcpStream::connect(server.addr)?;
        // It may refuse this until it is connected; `receive` is called then.
        let _ = stream.set_nodelay(true);
        server.keep_alive.set(&stream)?;
        Ok(match &server.tls {
            Some(peer) => Session::of(peer.begin(stream)?),
            None => Socket::Plain(stream),
        })
    }

    /// What events come from.
    pub fn source(&mut self) -> &mut TcpStream {
        match self {
            Socket::Plain(stream) => stream,
            Socket::Tls(session) => session.stream.get_mut(),
        }
    }

    /// Whether bytes go over it as they are.
    pub fn is_plain(&self) -> bool {
        matches!(self, Socket::Plain(_))
    }

    /// Why TLS has failed, if it has.
    pub fn fault(&self) -> Option<&str> {
        match self {
            Socket::Plain(_) => None,
            Socket::Tls(session) => session.fault.as_deref(),
        }
    }
}

impl Read for Socket {
    fn read(&mut self, block: &mut [u8]) -> io::Result<usize> {
        match self {
            Socket::Plain(stream) => stream.read(block),
            Socket::Tls(session) => {
                let got = session.stream.read(block);
                session.heed(got)
            }
        }
    }
}

impl Write for Socket {
    fn write(&mut self, bytes: &[u8]) -> io::Result<usize> {
        match self {
            Socket::Plain(stream) => stream.write(bytes),
            Socket::Tls(session) => {
                let sent = session.stream.write(bytes);
                session.heed(sent)
            }
        }
    }

    fn flush(&mut self) -> io::Result<()> {
        Ok(())
    }
}

impl Drop for Socket {
    fn drop(&mut self) {
        if let Socket::Tls(session) = self {
            tls::end(&mut session.stream);
        }
    }
}

/// Makes a client's connection one that never waits, and that is closed if the client has gone without a word.
pub fn ready_stream(stream: std::net::TcpStream, keep_alive: KeepAlive) -> io::Result<TcpStream> {
    stream.set_nonblocking(true)?;
    stream.set_nodelay(true)?;
    keep_alive.set(&stream)?;
    Ok(TcpStream::from_std(stream))
}

/// Bytes that are to be sent.
pub struct Out {
    /// The bytes. What was sent of them is at their beginning.
    pub bytes: Vec<u8>,
    sent: usize,
    /// How much memory is kept for bytes that are gone.
    kept: usize,
}

impl Default for Out {
    fn default() -> Out {
        Out::keeping(KEPT)
    }
}

/// If more bytes than these are sent, and more than half of all, they are dropped before all are sent.
const SENT: usize = 1 << 20;

/// No more memory is kept for bytes that are gone, of a connection to a partition. Clients are many more, and most of them
/// may say nothing.
pub const KEPT: usize = 1 << 20;
pub const KEPT_OF_CLIENT: usize = 1 << 16;

/// No more bytes are read of one connection in a turn of the loop, so it holds up no others.
pub const A_TURN: usize = 1 << 20;

/// Drops the first bytes. What was kept for many of them is given back once few are left, since a
/// connection may stay idle after that.
pub fn drop_first(bytes: &mut Vec<u8>, count: usize, kept: usize) {
    bytes.drain(..count);
    if bytes.len() < kept / 2 {
        bytes.shrink_to(kept);
    }
}

impl Out {
    /// None, with so much memory kept for those that are gone.
    pub fn keeping(kept: usize) -> Out {
        Out { bytes: Vec::new(), sent: 0, kept }
    }

    /// How many bytes are still to be sent.
    pub fn len(&self) -> usize {
        self.bytes.len() - self.sent
    }

    /// Drops all bytes.
    pub fn clear(&mut self) {
        self.drop_first(self.bytes.len());
    }

    fn drop_first(&mut self, count: usize) {
        drop_first(&mut self.bytes, count, self.kept);
        self.sent = 0;
    }

    /// Sends what the connection takes: whether it is still open.
    pub fn send(&mut self, stream: &mut Socket) -> bool {
        while self.sent < self.bytes.len() {
            match stream.write(&self.bytes[self.sent..]) {
                Ok(0) => return false,
                Ok(count) => self.sent += count,
                // One that is not connected yet says so too.
                Err(error) => match error.kind() {
                    ErrorKind::WouldBlock | ErrorKind::NotConnected => break,
                    ErrorKind::Interrupted => {}
                    _ => return false,
                },
            }
        }
        if self.sent == self.bytes.len() {
            self.clear();
        } else if self.sent > SENT.max(self.bytes.len() / 2) {
            self.drop_first(self.sent);
        }
        true
    }
}

/// How reading ended.
#[derive(Clone, Copy, PartialEq, Debug)]
pub enum Received {
    /// All was read that has come.
    All,
    /// More may have come.
    Some,
    /// The other end sends no more. It may still read.
    Shut,
    /// The connection is lost.
    Lost,
}

/// Reads what has come, as long as fewer than `most` bytes wait. If the other end has closed, it is
/// read to the end.
pub fn receive(
    stream: &mut Socket,
    block: &mut [u8],
    heard: &mut Vec<u8>,
    (is_closed, most): (bool, usize),
) -> Received {
    while heard.len() < most {
        match stream.read(block) {
            Ok(0) => return Received::Shut,
            Ok(got) => {
                heard.extend_from_slice(&block[..got]);
                // After a short read an event tells of what comes later. TLS may have read that already.
                if got < block.len() && !is_closed && stream.is_plain() {
                    return Received::All;
                }
            }
            Err(error) => match error.kind() {
                ErrorKind::WouldBlock => return Received::All,
                ErrorKind::Interrupted => {}
                _ => return Received::Lost,
            },
        }
    }
    Received::Some
}

#[cfg(test)]
mod tests {
    use super::*;

    #[test]
    fn memory_is_given_back() {
        let mut bytes = vec![1; 8 * KEPT];
        bytes.extend([2; 3]);
        drop_first(&mut bytes, 4 * KEPT, KEPT);
        assert_eq!(bytes.len(), 4 * KEPT + 3);
        drop_first(&mut bytes, 4 * KEPT, KEPT);
        assert_eq!(bytes, [2; 3]);
        assert!(bytes.capacity() <= KEPT);
        drop_first(&mut bytes, 3, KEPT);
        assert!(bytes.is_empty());
    }
}
