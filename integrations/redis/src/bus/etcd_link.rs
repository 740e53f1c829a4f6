//! A connection to a member of etcd, by its JSON gateway over HTTP/1.1.

use super::servers::Server;
use super::wire::Wire;
use crate::fault::{Done, Fault};
use serde_json::Value;
use std::time::{Duration, Instant};

/// How long a member may take to answer. One without a leader waits for one for some seconds.
const PATIENCE: Duration = Duration::from_secs(10);
/// No head of an answer is longer, and no piece of a body.
const HEAD: usize = 1 << 16;
const LONGEST: usize = 64 << 20;
/// The codes of errors that pass: unknown, too late, without resources, aborted, away, and a token that has run out.
const PASSING: [u64; 6] = [2, 4, 8, 10, 14, 16];

/// Who this is.
pub struct Login {
    pub user: String,
    pub password: String,
}

/// A connection. One request is under way at a time.
pub struct Link {
    /// The member's `HOST:PORT`.
    pub addr: String,
    wire: Wire,
    /// The line of a head that says who this is, if there are users.
    token: String,
    come: Vec<u8>,
    /// Of the answer that is under way how its body goes on, and the beginning of its next line.
    body: Body,
    line: Vec<u8>,
    /// When the member has said anything last.
    pub heard: Instant,
}

/// How a body goes on.
#[derive(Clone, Copy, Debug, PartialEq)]
enum Body {
    /// So many bytes more.
    Bytes(usize),
    /// Chunk after chunk.
    Chunks,
}

impl Link {
    /// Connects and logs in, over TLS if it has to be secure.
    ///
    /// # Errors
    ///
    /// The member is away, or refuses this program.
    pub fn open(server: &Server, login: Option<&Login>, is_secure: bool) -> Done<Link> {
        let wire = server.connect()?;
        if is_secure {
            wire.secure(&server.peer)?;
        }
        let (addr, token, body, heard) = (server.addr.clone(), String::new(), Body::Bytes(0), Instant::now());
        let mut link = Link { addr, wire, token, come: Vec::new(), body, line: Vec::new(), heard };
        if let Some(Login { user, password }) = login {
            let answer =
                link.ask("auth/authenticate", &serde_json::json!({ "name": user, "password": password }))?;
            let token = answer["token"].as_str().filter(|it| !it.contains(char::is_whitespace));
            let token = token.ok_or_else(|| Fault::new("the server gives no token"))?;
            link.token = format!("Authorization: {token}\r\n");
        }
        Ok(link)
    }

    /// What the member answers to a request.
    ///
    /// # Errors
    ///
    /// It refuses it, or the connection is lost.
    pub fn ask(&mut self, path: &str, words: &Value) -> Done<Value> {
        let status = self.begin(path, words)?;
        let mut body = Vec::new();
        while let Some(piece) = self.piece()? {
            if piece.is_empty() && self.heard.elapsed() >= PATIENCE {
                return Err(silent());
            }
            body.extend(piece);
        }
        let answer: Value = serde_json::from_slice(&body).unwrap_or_default();
        if status == 200 {
            Ok(answer)
        } else {
            Err(fault_of(&answer, status))
        }
    }

    /// Sends a request, and reads the head of its answer: the status.
    pub fn begin(&mut self, path: &str, words: &Value) -> Done<u16> {
        let (addr, token, words) = (&self.addr, &self.token, words.to_string());
        // A member that has lost its leader ends a watch.
        let head = format!(
            "POST /v3/{path} HTTP/1.1\r\nHost: {addr}\r\n{token}Grpc-Metadata-hasleader: true\r\n\
             Content-Type: application/json\r\nContent-Length: {}\r\n\r\n{words}",
            words.len()
        );
        self.line.clear();
        self.wire.send(head.as_bytes())?;
        let began = Instant::now();
        loop {
            if let Some(len) = self.come.windows(4).position(|it| it == b"\r\n\r\n") {
                let (status, body) = read_head(&String::from_utf8_lossy(&self.come[..len]))?;
                self.come.drain(..len + 4);
                self.body = body;
                return Ok(status);
            } else if self.come.len() > HEAD {
                return Err(other_form());
            } else if !self.read()? && began.elapsed() >= PATIENCE {
                return Err(silent());
            }
        }
    }

    /// The next line of a body that does not end, after a wait of at most a second.
    pub fn next_line(&mut self) -> Done<Option<Value>> {
        loop {
            if let Some(len) = self.line.iter().position(|&byte| byte == b'\n') {
                let line: Vec<u8> = self.line.drain(..=len).collect();
                return serde_json::from_slice(&line).map(Some).map_err(|_| other_form());
            }
            match self.piece()? {
                Some(piece) if piece.is_empty() => return Ok(None),
                Some(piece) => self.line.extend(piece),
                None => return Err(Fault::lost("the server has ended the watch")),
            }
        }
    }

    /// The next piece of a body; none at its end. It is empty if nothing has come after a wait of at most a second.
    fn piece(&mut self) -> Done<Option<Vec<u8>>> {
        loop {
            match whole(&self.come, self.body)? {
                Some((_, 0, _)) if self.body == Body::Bytes(0) => return Ok(None),
                Some((from, len, after)) => {
                    let piece = self.come[from..from + len].to_vec();
                    self.come.drain(..after);
                    match &mut self.body {
                        Body::Bytes(left) => *left -= len,
                        // The empty chunk is the last one.
                        body if len == 0 => *body = Body::Bytes(0),
                        Body::Chunks => {}
                    }
                    if len > 0 {
                        return Ok(Some(piece));
                    }
                }
                None if self.read()? => {}
                None => return Ok(Some(Vec::new())),
            }
        }
    }

    /// Reads what has come, after a wait of at most a second: whether anything has.
    fn read(&mut self) -> Done<bool> {
        let Some(bytes) = self.wire.read()? else {
            return Ok(false);
        };
        self.heard = Instant::now();
        self.come.extend_from_slice(&bytes);
        Ok(true)
    }
}

/// Where the next piece of a body begins in what has come, its length, and where what follows it begins. None if more has to
/// come.
fn whole(come: &[u8], body: Body) -> Done<Option<(usize, usize, usize)>> {
    if let Body::Bytes(left) = body {
        let len = left.min(come.len());
        return Ok((len > 0 || left == 0).then_some((0, len, len)));
    }
    let Some(at) = come.windows(2).position(|it| it == b"\r\n") else {
        return if come.len() < HEAD { Ok(None) } else { Err(other_form()) };
    };
    let size = String::from_utf8_lossy(&come[..at]);
    let size = usize::from_str_radix(size.split(';').next().unwrap_or_default().trim(), 16);
    let len = size.ok().filter(|&len| len < LONGEST).ok_or_else(other_form)?;
    if len == 0 {
        // More lines of the head may follow the last chunk, and then an empty one.
        return match come[at..].windows(4).position(|it| it == b"\r\n\r\n") {
            None if come.len() - at > HEAD => Err(other_form()),
            end => Ok(end.map(|end| (at + 2, 0, at + end + 4))),
        };
    }
    match come.get(at + 2 + len..at + 4 + len) {
        None => Ok(None),
        Some(b"\r\n") => Ok(Some((at + 2, len, at + 4 + len))),
        Some(_) => Err(other_form()),
    }
}

/// The status of an answer, and how its body goes on.
fn read_head(head: &str) -> Done<(u16, Body)> {
    let mut lines = head.split("\r\n");
    let first = lines.next().unwrap_or_default();
    let status =
        first.strip_prefix("HTTP/1.").and_then(|rest| rest.split(' ').nth(1)).and_then(|it| it.parse().ok());
    let status = status.ok_or_else(other_form)?;
    let mut body = Body::Bytes(0);
    for (name, value) in lines.filter_map(|line| line.split_once(':')) {
        if name.eq_ignore_ascii_case("transfer-encoding") && value.trim().eq_ignore_ascii_case("chunked") {
            body = Body::Chunks;
        } else if name.eq_ignore_ascii_case("content-length") {
            let len = value.trim().parse().ok().filter(|&len| len < LONGEST);
            body = Body::Bytes(len.ok_or_else(other_form)?);
        }
    }
    Ok((status, body))
}

/// What a member says is wrong: up to etcd 3.4 in `error`, and later in `message`. That of a watch is one level deeper.
pub fn fault_of(answer: &Value, status: u16) -> Fault {
    let error = if answer["error"].is_object() { &answer["error"] } else { answer };
    let words = ["message", "error"].iter().find_map(|name| error[*name].as_str());
    let code = ["code", "grpc_code"].iter().find_map(|name| error[*name].as_u64());
    let words = words.map_or_else(|| format!("the server answers with status {status}"), String::from);
    if code.map_or(status >= 500, |code| PASSING.contains(&code)) {
        Fault::lost(words)
    } else {
        Fault::new(words)
    }
}

fn silent() -> Fault {
    Fault::lost("the server does not answer")
}

fn other_form() -> Fault {
    Fault::new("the server sent something of another form")
}

#[cfg(test)]
mod tests {
    use super::*;

    #[test]
    fn heads_are_read() {
        let head = |text| read_head(text).ok();
        assert_eq!(head("HTTP/1.1 200 OK\r\ncontent-length: 12"), Some((200, Body::Bytes(12))));
        assert_eq!(head("HTTP/1.1 503 x\r\nTransfer-Encoding: chunked"), Some((503, Body::Chunks)));
        assert_eq!(head("HTTP/1.1 200 OK"), Some((200, Body::Bytes(0))));
        assert!(["", "HTTP/1.1", "SSH-2.0 200", "HTTP/1.1 200 OK\r\nContent-Length: x"]
            .iter()
            .all(|it| head(it).is_none()));
    }

    #[test]
    fn bodies_may_be_cut_anywhere() {
        let stream = b"4\r\n{\"a\"\r\n6;x\r\n: 1}\n\n\r\n0\r\n\r\n";
        for cut in 1..stream.len() {
            let (mut come, mut all, mut at) = (Vec::new(), Vec::new(), 0);
            while at < stream.len() {
                come.extend_from_slice(&stream[at..stream.len().min(at + cut)]);
                at += cut;
                while let Some((from, len, after)) = whole(&come, Body::Chunks).unwrap() {
                    all.extend_from_slice(&come[from..from + len]);
                    come.drain(..after);
                }
            }
            assert_eq!((&all[..], come.len()), (&b"{\"a\": 1}\n\n"[..], 0), "{cut}");
        }
        assert_eq!(whole(b"0\r\nA: b\r\nC: d\r\n", Body::Chunks).unwrap(), None);
        assert_eq!(whole(b"0\r\nA: b\r\n\r\nx", Body::Chunks).unwrap(), Some((3, 0, 11)));
        assert_eq!(whole(b"abc", Body::Bytes(2)).unwrap(), Some((0, 2, 2)));
        assert_eq!(whole(b"", Body::Bytes(2)).unwrap(), None);
        assert!(whole(b"x\r\n", Body::Chunks).is_err() && whole(b"1\r\nabc", Body::Chunks).is_err());
    }

    #[test]
    fn faults_are_read() {
        let fault = |text| fault_of(&serde_json::from_str(text).unwrap(), 400);
        let gone = fault(r#"{"error":"etcdserver: no leader","message":"etcdserver: no leader","code":14}"#);
        assert!(gone.is_lost() && gone.to_string() == "etcdserver: no leader");
        let watch = fault(r#"{"error":{"grpc_code":14,"http_code":503,"message":"etcdserver: no leader"}}"#);
        assert!(watch.is_lost() && watch.to_string() == "etcdserver: no leader");
        let refused = fault(r#"{"error":"etcdserver: user name is empty","code":3}"#);
        assert!(!refused.is_lost() && refused.to_string() == "etcdserver: user name is empty");
        assert_eq!(fault("[]").to_string(), "the server answers with status 400");
    }
}
