//! TCP keep-alive: a connection whose other end has gone without a word is noticed, and closed.

use crate::args::Args;
use crate::fault::Done;
use socket2::{SockRef, TcpKeepalive};
use std::io;
use std::time::Duration;

/// The option, in seconds: 0 turns it off.
pub const OPTION: &str = "keep-alive";

/// What Redis has too.
const SECONDS: u64 = 300;
/// No system of Linux takes more.
const MOST: u64 = 32_767;
/// How many probes are sent, a third of the time apart, before the connection is lost.
const PROBES: u32 = 3;

/// After how much silence a connection is probed, if it is.
#[derive(Clone, Copy, Debug, PartialEq, Eq)]
pub struct KeepAlive(Option<Duration>);

impl Default for KeepAlive {
    fn default() -> KeepAlive {
        KeepAlive::after(SECONDS)
    }
}

impl KeepAlive {
    fn after(seconds: u64) -> KeepAlive {
        KeepAlive((seconds > 0).then(|| Duration::from_secs(seconds)))
    }

    /// What the words of the command line say.
    ///
    /// # Errors
    ///
    /// The word is no number of seconds, or one that the system does not take.
    pub fn of(args: &Args) -> Done<KeepAlive> {
        args.number(OPTION, SECONDS, 0, MOST).map(KeepAlive::after)
    }

    /// Sets it for a connection. It may be on its way yet.
    ///
    /// # Errors
    ///
    /// The system has refused it.
    pub fn set<'a>(self, stream: impl Into<SockRef<'a>>) -> io::Result<()> {
        let Some(time) = self.0 else {
            return Ok(());
        };
        let interval = (time / PROBES).max(Duration::from_secs(1));
        let probes = TcpKeepalive::new().with_time(time).with_interval(interval).with_retries(PROBES);
        stream.into().set_tcp_keepalive(&probes)
    }
}

#[cfg(test)]
mod tests {
    use super::*;
    use std::net::{TcpListener, TcpStream};

    /// What a connection has: whether it is probed, after how long, how often and how many times.
    fn set(seconds: u64) -> (bool, [u64; 2], u32) {
        let listener = TcpListener::bind("127.0.0.1:0").unwrap();
        let stream = TcpStream::connect(listener.local_addr().unwrap()).unwrap();
        KeepAlive::after(seconds).set(&stream).unwrap();
        let socket = SockRef::from(&stream);
        let times = [socket.keepalive_time().unwrap(), socket.keepalive_interval().unwrap()];
        (socket.keepalive().unwrap(), times.map(|it| it.as_secs()), socket.keepalive_retries().unwrap())
    }

    #[test]
    fn probes_are_a_third_apart() {
        assert_eq!(set(300), (true, [300, 100], 3));
        assert_eq!(set(1), (true, [1, 1], 3));
        assert_eq!(set(MOST), (true, [MOST, MOST / 3], 3));
        assert!(!set(0).0);
        assert_eq!(KeepAlive::default(), KeepAlive::after(300));
    }
}
