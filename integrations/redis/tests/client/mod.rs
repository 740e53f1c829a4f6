//! A client, whose proxy `tools/integrations` names in SQUALL_PROXY, and the first partition in SQUALL_PARTITION.

use squall_redis::conn::{Conn, Server};
use squall_redis::resp::{push, Scan};
use std::io::{Read, Write};
use std::net::TcpStream;
use std::thread::sleep;
use std::time::{Duration, Instant};

/// How long the machine may be busy with other things.
const PATIENCE: Duration = Duration::from_secs(60);

/// A client of a proxy.
pub struct Client {
    /// Its connection.
    pub stream: TcpStream,
    heard: Vec<u8>,
}

impl Client {
    pub fn new() -> Client {
        let addr = std::env::var("SQUALL_PROXY").expect("SQUALL_PROXY");
        let stream = TcpStream::connect(addr).unwrap();
        stream.set_read_timeout(Some(PATIENCE)).unwrap();
        stream.set_nodelay(true).unwrap();
        Client { stream, heard: Vec::new() }
    }

    pub fn send(&mut self, bytes: &[u8]) {
        self.stream.write_all(bytes).unwrap();
    }

    /// The bytes of the next reply; none if the proxy has closed.
    pub fn hear(&mut self) -> Option<Vec<u8>> {
        loop {
            if let Some(len) = Scan::default().read(&self.heard).unwrap() {
                return Some(self.heard.drain(..len).collect());
            }
            let mut block = [0; 65536];
            match self.stream.read(&mut block) {
                Ok(0) | Err(_) => return None,
                Ok(got) => self.heard.extend_from_slice(&block[..got]),
            }
        }
    }

    pub fn text(&mut self) -> String {
        String::from_utf8(self.hear().expect("a reply")).unwrap()
    }

    pub fn ask(&mut self, line: &str) -> String {
        self.send(&command(line));
        self.text()
    }
}

/// Waits until so many clients of the first partition wait for a key. While all keys move none does: the proxy
/// asks for them again and again, each time in one step, and so this only lets some time pass.
pub fn until_waiting(count: usize) {
    if is_moving() {
        sleep(Duration::from_millis(100));
        return;
    }
    let addr = std::env::var("SQUALL_PARTITION").expect("SQUALL_PARTITION").parse().unwrap();
    let (mut conn, began) = (Conn::open(&Server::plain(addr)).unwrap(), Instant::now());
    let wanted = format!("blocked_clients:{count}");
    while !conn.ask(&["INFO", "clients"]).unwrap().text().lines().any(|line| line == wanted) {
        assert!(began.elapsed() < PATIENCE, "never {wanted}");
        sleep(Duration::from_millis(5));
    }
}

/// Whether all keys move.
pub fn is_moving() -> bool {
    std::env::var("SQUALL_COURSE").is_ok_and(|course| course == "2")
}

/// A text of a reply.
#[allow(dead_code)]
pub fn bulk(text: &str) -> String {
    format!("${}\r\n{text}\r\n", text.len())
}

/// Whether a command was refused since its keys are at several partitions.
#[allow(dead_code)]
pub fn is_apart(reply: &str) -> bool {
    reply.starts_with("-CROSSSLOT ") || is_moving() && reply.starts_with("-TRYAGAIN ")
}

/// The bytes of a command.
pub fn command(line: &str) -> Vec<u8> {
    let words: Vec<&str> = line.split(' ').collect();
    let mut out = Vec::new();
    push(&mut out, &words);
    out
}
