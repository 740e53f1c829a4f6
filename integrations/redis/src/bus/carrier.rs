//! What carries frames: the streams of a Redis server, NATS, a stream of JetStream, a table of PostgreSQL, or keys of etcd.

use super::entry::Heard;
use super::etcd::Etcd;
use super::jetstream::JetStream;
use super::nats::Nats;
use super::nats_address::{Address, Keeper};
use super::postgres::Postgres;
use super::redis::Redis;
use crate::args::Args;
use crate::fault::Done;

/// A bus. All programs of a deployment send and hear over one.
pub trait Bus: Send + Sync {
    /// Connects, to hear others. A bus that keeps frames begins with all that it has.
    ///
    /// # Errors
    ///
    /// It can't be reached, or refuses this program.
    fn listen(&self) -> Done<Box<dyn Ears + '_>>;

    /// Reads the files of certificates again.
    ///
    /// # Errors
    ///
    /// One of them can't be read.
    fn renew(&self, args: &Args) -> Done<()>;

    /// The most bytes that a frame may have.
    fn most(&self) -> usize;

    /// The most bytes that a digest may have.
    fn most_shown(&self) -> usize {
        self.most()
    }

    /// Sends frames to all nodes, or as the answer to a digest. A bus that keeps frames has them then.
    ///
    /// # Errors
    ///
    /// It can't be reached, or has not taken them. It may have taken some of them.
    fn write(&self, from: &str, frames: &[Vec<u8>], re: Option<&str>) -> Done<()>;

    /// Shows a digest.
    ///
    /// # Errors
    ///
    /// The same as of `write`.
    fn show(&self, from: &str, frames: &[Vec<u8>]) -> Done<()>;
}

/// A connection that hears others.
pub trait Ears {
    /// The next frames and digests, after a wait of at most a second.
    ///
    /// # Errors
    ///
    /// The connection is lost, or the server refuses this program.
    fn read(&mut self) -> Done<Heard>;
}

/// The bus that `--bus` names, with the name by which its streams or subjects begin. One that hears all hears each digest over
/// NATS too, and not its share of them.
///
/// # Errors
///
/// The words are wrong.
pub fn open(args: &Args, hears_all: bool) -> Done<Box<dyn Bus>> {
    let addr = args.need("bus")?;
    let name = args.get("streams").unwrap_or("squall");
    if let Some(postgres) = Postgres::new(addr, name, args)? {
        return Ok(Box::new(postgres));
    }
    if let Some(etcd) = Etcd::new(addr, name, args)? {
        return Ok(Box::new(etcd));
    }
    let password = args.password("bus-password-file")?;
    let secret = args.secret()?;
    let Some(address) = Address::read(addr, name, password.as_deref())? else {
        return Ok(Box::new(Redis::new(addr, name, password, &secret, args)?));
    };
    let keeper = address.keeper;
    let copies = address.copies();
    let nats = Nats::new(address, args, &secret, hears_all)?;
    Ok(match keeper {
        Keeper::Nobody => Box::new(nats),
        Keeper::Stream => Box::new(JetStream::new(nats, copies)),
    })
}
