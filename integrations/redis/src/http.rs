//! The port of Prometheus, and of a proxy's status page.

use crate::conn::steady;
use crate::fault::Done;
use std::io::{self, Read, Write};
use std::net::{TcpListener, TcpStream};
use std::sync::atomic::{AtomicUsize, Ordering::SeqCst};
use std::sync::Arc;
use std::thread;
use std::time::{Duration, Instant};

/// How long a client may take for its request, and for each part of its answer.
const PATIENCE: Duration = Duration::from_secs(2);
/// The pause after the system could not let one in, as when it has no more files.
const AGAIN: Duration = Duration::from_millis(100);
/// No more requests are answered at once.
const MOST: usize = 32;
/// No head of a request is longer.
const LONGEST: usize = 1 << 13;

const TEXT: &str = "text/plain; charset=utf-8";
const DOWN: &str = "503 Service Unavailable";

/// What a port shows.
pub trait Site: Send + Sync {
    /// The answer to a request for a path.
    fn answer(&self, path: &str) -> Answer;
}

/// An answer.
pub struct Answer {
    status: &'static str,
    kind: &'static str,
    body: Vec<u8>,
}

impl Answer {
    /// A body of that kind, or why there is none.
    pub fn of(kind: &'static str, body: Done<impl Into<Vec<u8>>>) -> Answer {
        match body {
            Ok(body) => Answer { status: "200 OK", kind, body: body.into() },
            Err(fault) => Answer::down(&fault.to_string()),
        }
    }

    /// A text, or why there is none.
    pub fn text(body: Done<impl Into<Vec<u8>>>) -> Answer {
        Answer::of(TEXT, body)
    }

    /// All that Prometheus reads.
    pub fn metrics(body: Done<String>) -> Answer {
        Answer::of("text/plain; version=0.0.4", body)
    }

    /// Why something can't be done now.
    pub fn down(why: &str) -> Answer {
        Answer { status: DOWN, kind: TEXT, body: format!("{why}\n").into_bytes() }
    }

    /// That there is no such path, but those.
    pub fn missing(paths: &str) -> Answer {
        Answer { status: "404 Not Found", kind: TEXT, body: format!("{paths}\n").into_bytes() }
    }
}

/// Answers the requests on a port, each in a thread of its own, for ever.
pub fn serve<S: Site + 'static>(listener: &TcpListener, site: &Arc<S>) {
    let under_way = Arc::new(AtomicUsize::new(0));
    for stream in listener.incoming() {
        let Ok(stream) = stream else {
            thread::sleep(AGAIN);
            continue;
        };
        if under_way.load(SeqCst) >= MOST {
            continue;
        }
        let (site, count) = (site.clone(), under_way.clone());
        under_way.fetch_add(1, SeqCst);
        thread::spawn(move || {
            // One that reads slowly is given up.
            let _ = answer(stream, &*site);
            count.fetch_sub(1, SeqCst);
        });
    }
}

fn answer(mut stream: TcpStream, site: &dyn Site) -> io::Result<()> {
    stream.set_read_timeout(Some(PATIENCE))?;
    stream.set_write_timeout(Some(PATIENCE))?;
    let Answer { status, kind, body } = match read(&mut stream)? {
        Some(path) => site.answer(&path),
        None => return Ok(()),
    };
    write!(
        stream,
        "HTTP/1.1 {status}\r\nContent-Type: {kind}\r\nContent-Length: {}\r\nCache-Control: no-store\r\n\
         Connection: close\r\n\r\n",
        body.len()
    )?;
    stream.write_all(&body)
}

/// The path of a request, once its head is whole; none if it is no `GET`, or comes too slowly.
fn read(stream: &mut TcpStream) -> io::Result<Option<String>> {
    let mut head = Vec::new();
    let mut block = [0; 1024];
    let began = Instant::now();
    while !head.windows(4).any(|end| end == b"\r\n\r\n") && head.len() < LONGEST {
        if began.elapsed() > PATIENCE {
            return Ok(None);
        }
        match steady(|| stream.read(&mut block))? {
            0 => break,
            got => head.extend_from_slice(&block[..got]),
        }
    }
    let text = String::from_utf8_lossy(&head);
    let mut words = text.split(' ');
    let is_get = words.next() == Some("GET");
    let path = words.next().filter(|_| is_get);
    Ok(path.map(|path| path.split('?').next().unwrap_or_default().to_string()))
}

#[cfg(test)]
mod tests {
    use super::*;

    /// What is read of a client that sends these pieces, with a pause before each.
    fn sent(pieces: &[&str], pause: Duration) -> Option<String> {
        let listener = TcpListener::bind("127.0.0.1:0").unwrap();
        let mut client = TcpStream::connect(listener.local_addr().unwrap()).unwrap();
        let (mut server, _) = listener.accept().unwrap();
        server.set_read_timeout(Some(PATIENCE)).unwrap();
        thread::scope(|scope| {
            scope.spawn(move || {
                for piece in pieces {
                    thread::sleep(pause);
                    // It may have been given up.
                    let _ = client.write_all(piece.as_bytes());
                }
            });
            read(&mut server).unwrap()
        })
    }

    #[test]
    fn requests_are_read() {
        let pieces = ["GET /met", "rics?x HTTP/1.1\r\nHost: squall\r\n", "\r\n"];
        assert_eq!(sent(&pieces, Duration::from_millis(2)).as_deref(), Some("/metrics"));
        assert_eq!(sent(&["POST / HTTP/1.1\r\n\r\n"], Duration::ZERO), None);
    }

    #[test]
    fn one_that_sends_slowly_is_given_up() {
        assert_eq!(sent(&["GET / "; 40], PATIENCE / 30), None);
    }
}
