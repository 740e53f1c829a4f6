//! Frames on the streams of a Redis server.

use super::carrier::{Bus, Ears};
use super::entry::{Heard, Places, Streams};
use super::seal::Seal;
use crate::args::{resolve, Args};
use crate::conn::{Conn, Server};
use crate::fault::{Done, Fault};
use crate::keep_alive::KeepAlive;
use crate::tls::Peer;
use std::sync::{Mutex, PoisonError};
use std::time::Duration;

/// How long a server may say nothing to a reader, which is answered each second.
const PATIENCE: Duration = Duration::from_secs(4);

/// The streams of a Redis server.
pub struct Redis {
    /// Its `HOST:PORT`. A name is looked up at each connection.
    addr: String,
    password: Option<String>,
    tls: Option<Peer>,
    keep_alive: KeepAlive,
    streams: Streams,
    sender: Mutex<Option<Conn>>,
}

/// A connection that reads the streams.
struct RedisEars<'a> {
    streams: &'a Streams,
    conn: Conn,
    places: Places,
}

impl Redis {
    /// Those of a server, whose names begin with the given one.
    ///
    /// # Errors
    ///
    /// The address is not of the form `HOST:PORT`, a file of certificates or keys can't be read, or `--keep-alive` is wrong.
    pub fn new(addr: &str, name: &str, password: Option<String>, secret: &str, args: &Args) -> Done<Redis> {
        let has_port = addr.rsplit_once(':').is_some_and(|(_, port)| port.parse::<u16>().is_ok());
        if !has_port {
            return Err(Fault::of_words(format!("--bus {addr}: not of the form HOST:PORT")));
        }
        Ok(Redis {
            addr: addr.to_string(),
            password,
            tls: Peer::of(args, "tls-bus", addr)?,
            keep_alive: KeepAlive::of(args)?,
            streams: Streams::new(name, Seal::new(secret, name)),
            sender: Mutex::new(None),
        })
    }

    fn connect(&self) -> Done<Conn> {
        let Redis { addr, password, tls, keep_alive, .. } = self;
        let (addr, password, tls) = (resolve(addr)?, password.clone(), tls.clone());
        Conn::open(&Server { addr, password, tls, keep_alive: *keep_alive })
    }

    /// Writes over the connection that was used last, or over a new one if the server has ended that meanwhile. Frames
    /// that it had taken are then written twice, which changes nothing.
    fn send(&self, write: impl Fn(&Streams, &mut Conn) -> Done<()>) -> Done<()> {
        let mut sender = self.sender.lock().unwrap_or_else(PoisonError::into_inner);
        if let Some(mut conn) = sender.take() {
            if write(&self.streams, &mut conn).is_ok() {
                *sender = Some(conn);
                return Ok(());
            }
        }
        let mut conn = self.connect()?;
        write(&self.streams, &mut conn)?;
        *sender = Some(conn);
        Ok(())
    }
}

impl Bus for Redis {
    fn listen(&self) -> Done<Box<dyn Ears + '_>> {
        let mut conn = self.connect()?;
        conn.set_patience(PATIENCE)?;
        let places = self.streams.begin(&mut conn)?;
        Ok(Box::new(RedisEars { streams: &self.streams, conn, places }))
    }

    fn renew(&self, args: &Args) -> Done<()> {
        self.tls.iter().try_for_each(|peer| peer.renew(args))
    }

    fn most(&self) -> usize {
        usize::MAX
    }

    fn write(&self, from: &str, frames: &[Vec<u8>], re: Option<&str>) -> Done<()> {
        self.send(|streams, conn| streams.write(conn, from, frames, re))
    }

    fn show(&self, from: &str, frames: &[Vec<u8>]) -> Done<()> {
        self.send(|streams, conn| streams.show(conn, from, frames))
    }
}

impl Ears for RedisEars<'_> {
    fn read(&mut self) -> Done<Heard> {
        self.streams.read(&mut self.conn, &mut self.places)
    }
}
