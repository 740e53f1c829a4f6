//! A connection to a PostgreSQL server, by version 3.0 of its protocol: questions as texts, their rows, and notifications.

use super::scram::{self, Scram};
use super::servers::Server;
use super::wire::Wire;
use crate::fault::{Done, Fault};
use std::time::{Duration, Instant};

/// The version of the protocol, and the number that asks for TLS.
const VERSION: u32 = 3 << 16;
const TLS: u32 = 80_877_103;
/// No message of a server is longer.
const LONGEST: usize = 64 << 20;
/// How long a server may take to answer: a writer waits for those before it.
const PATIENCE: Duration = Duration::from_secs(10);
/// How the states of errors begin that pass: no connection, too few resources, a server that ends or begins, one that only
/// reads, and transactions that met.
const PASSING: [&str; 5] = ["08", "53", "57P", "25006", "40"];

/// Who this is, and the database.
pub struct Login {
    pub user: String,
    pub password: Option<String>,
    pub database: String,
}

/// A connection.
pub struct Link {
    /// The server's `HOST:PORT`.
    pub addr: String,
    wire: Wire,
    come: Vec<u8>,
    at: usize,
    notes: Vec<Note>,
    /// When the server has said anything last.
    pub heard: Instant,
}

/// A notification.
pub struct Note {
    pub channel: String,
    pub payload: String,
}

/// The values of a row, as texts. None is null.
pub type Row = Vec<Option<String>>;

/// A message of the server: its kind and its bytes.
struct Message(u8, Vec<u8>);

impl Link {
    /// Connects and logs in, over TLS if it has to be secure.
    ///
    /// # Errors
    ///
    /// The server is away, refuses this program, or has no TLS.
    pub fn open(server: &Server, login: &Login, is_secure: bool) -> Done<Link> {
        let wire = server.connect()?;
        let (addr, come, notes) = (server.addr.clone(), Vec::new(), Vec::new());
        let mut link = Link { addr, wire, come, at: 0, notes, heard: Instant::now() };
        if is_secure {
            link.secure(server)?;
        }
        let settings = [
            ("user", login.user.as_str()),
            ("database", &login.database),
            ("application_name", "squall"),
            ("client_encoding", "UTF8"),
            ("standard_conforming_strings", "on"),
            ("bytea_output", "hex"),
        ];
        let mut body = VERSION.to_be_bytes().to_vec();
        for (name, value) in settings {
            body.extend([name.as_bytes(), b"\0", value.as_bytes(), b"\0"].concat());
        }
        body.push(0);
        link.wire.send(&framed(None, &body))?;
        link.log_in(login, is_secure)?;
        Ok(link)
    }

    /// Goes on by TLS.
    fn secure(&mut self, server: &Server) -> Done<()> {
        self.wire.send(&framed(None, &TLS.to_be_bytes()))?;
        while self.come.is_empty() {
            self.receive(Instant::now())?;
        }
        match self.come[..] {
            [b'S'] => self.wire.secure(&server.peer)?,
            _ => return Err(Fault::new("the server has no TLS, and nothing is sent to it in the clear")),
        }
        self.come.clear();
        Ok(())
    }

    /// Says who this is, as the server asks for it, until the server is ready.
    fn log_in(&mut self, login: &Login, is_secure: bool) -> Done<()> {
        let missing = || Fault::new("the server asks for a password: --bus-password-file is missing");
        let mut scram: Option<(Scram, bool)> = None;
        loop {
            let Message(kind, body) = self.message()?;
            match (kind, body.get(..4).map(|code| code[3])) {
                (b'Z', _) => return Ok(()),
                (b'E', _) => return Err(fault_of(&body)),
                // The server is content.
                (b'R', Some(0)) if scram.as_ref().is_none_or(|(_, is_checked)| *is_checked) => {}
                (b'R', Some(3)) if is_secure => {
                    let password = login.password.as_ref().ok_or_else(missing)?;
                    self.wire.send(&framed(Some(b'p'), format!("{password}\0").as_bytes()))?;
                }
                (b'R', Some(10)) if texts(&body[4..]).any(|it| it == scram::NAME) => {
                    let new = Scram::new(login.password.as_ref().ok_or_else(missing)?)?;
                    let first = new.first();
                    let len = (first.len() as u32).to_be_bytes();
                    let answer = [scram::NAME.as_bytes(), b"\0", &len, first.as_bytes()].concat();
                    scram = Some((new, false));
                    self.wire.send(&framed(Some(b'p'), &answer))?;
                }
                (b'R', Some(code @ (11 | 12))) => {
                    let (scram, is_checked) = scram.as_mut().ok_or_else(|| unknown(code))?;
                    let said = String::from_utf8_lossy(&body[4..]);
                    if code == 12 {
                        scram.check(&said)?;
                        *is_checked = true;
                    } else {
                        let answer = scram.answer(&said)?;
                        self.wire.send(&framed(Some(b'p'), answer.as_bytes()))?;
                    }
                }
                (b'R', code) => return Err(unknown(code.unwrap_or_default())),
                _ => {}
            }
        }
    }

    /// The rows that the server answers to a question. Statements with a `;` between them are one transaction.
    ///
    /// # Errors
    ///
    /// The server refuses it, or the connection is lost.
    pub fn ask(&mut self, words: &str) -> Done<Vec<Row>> {
        self.wire.send(&framed(Some(b'Q'), format!("{words}\0").as_bytes()))?;
        let (mut rows, mut refusal) = (Vec::new(), None);
        loop {
            let Message(kind, body) = self.message()?;
            match kind {
                b'Z' => return refusal.map_or(Ok(rows), Err),
                b'E' => refusal = Some(fault_of(&body)),
                b'D' => {
                    rows.push(row(&body).ok_or_else(|| Fault::new("the server sent a row of another form"))?)
                }
                _ => self.keep(kind, &body),
            }
        }
    }

    /// Waits for a notification, for a second at most.
    pub fn wait(&mut self) -> Done<()> {
        if self.notes.is_empty() {
            match self.next()? {
                Some(Message(b'E', body)) => return Err(fault_of(&body)),
                Some(Message(kind, body)) => self.keep(kind, &body),
                None => drop(self.read()?),
            }
        }
        while let Some(Message(kind, body)) = self.next()? {
            self.keep(kind, &body);
        }
        Ok(())
    }

    /// The notifications that have come.
    pub fn notes(&mut self) -> Vec<Note> {
        std::mem::take(&mut self.notes)
    }

    /// Keeps a notification. What else a server says by itself is no matter.
    fn keep(&mut self, kind: u8, body: &[u8]) {
        if kind == b'A' {
            let mut texts = texts(body.get(4..).unwrap_or_default());
            if let (Some(channel), Some(payload)) = (texts.next(), texts.next()) {
                self.notes.push(Note { channel, payload });
            }
        }
    }

    /// The next message, which is waited for.
    fn message(&mut self) -> Done<Message> {
        let began = Instant::now();
        loop {
            if let Some(message) = self.next()? {
                return Ok(message);
            }
            self.receive(began)?;
        }
    }

    /// Waits for bytes, as an answer to what was sent then.
    fn receive(&mut self, began: Instant) -> Done<()> {
        if !self.read()? && began.elapsed().min(self.heard.elapsed()) >= PATIENCE {
            return Err(Fault::lost("the server does not answer"));
        }
        Ok(())
    }

    /// Reads what has come, after a wait of at most a second: whether anything has.
    fn read(&mut self) -> Done<bool> {
        let Some(bytes) = self.wire.read()? else {
            return Ok(false);
        };
        self.heard = Instant::now();
        self.come.drain(..self.at);
        self.at = 0;
        self.come.extend_from_slice(&bytes);
        Ok(true)
    }

    /// The message that is whole next; none if more has to come.
    fn next(&mut self) -> Done<Option<Message>> {
        let rest = &self.come[self.at..];
        let Some((&[kind, a, b, c, d], rest)) = rest.split_first_chunk() else {
            return Ok(None);
        };
        let len = u32::from_be_bytes([a, b, c, d]) as usize;
        if !(4..LONGEST).contains(&len) {
            return Err(Fault::new("the server sent something of another form"));
        }
        let Some(body) = rest.get(..len - 4) else {
            return Ok(None);
        };
        let message = Message(kind, body.to_vec());
        self.at += 1 + len;
        Ok(Some(message))
    }
}

fn unknown(code: u8) -> Fault {
    Fault::new(match code {
        3 => "the server asks for the password in the clear, which goes by TLS alone: --tls-bus is missing"
            .into(),
        _ => format!("the server asks for a login of kind {code}, and not for scram-sha-256"),
    })
}

/// The bytes of a message. The first ones of a connection have no kind.
fn framed(kind: Option<u8>, body: &[u8]) -> Vec<u8> {
    let len = (body.len() as u32 + 4).to_be_bytes();
    kind.iter().chain(&len).chain(body).copied().collect()
}

/// Texts that end with a zero each.
fn texts(bytes: &[u8]) -> impl Iterator<Item = String> + '_ {
    bytes.split(|&byte| byte == 0).map(|it| String::from_utf8_lossy(it).into_owned())
}

/// The values of a row.
fn row(body: &[u8]) -> Option<Row> {
    let (&count, mut rest) = body.split_first_chunk()?;
    let mut row = Row::new();
    for _ in 0..u16::from_be_bytes(count) {
        let (&len, tail) = rest.split_first_chunk()?;
        let Ok(len) = usize::try_from(i32::from_be_bytes(len)) else {
            row.push(None);
            rest = tail;
            continue;
        };
        let (value, tail) = tail.split_at_checked(len)?;
        row.push(Some(String::from_utf8_lossy(value).into_owned()));
        rest = tail;
    }
    Some(row)
}

/// What an error says.
fn fault_of(body: &[u8]) -> Fault {
    let find =
        |name: char| texts(body).find_map(|it| it.strip_prefix(name).map(String::from)).unwrap_or_default();
    let (state, words) = (find('C'), find('M'));
    if PASSING.iter().any(|it| state.starts_with(it)) {
        Fault::lost(words)
    } else {
        Fault::new(words)
    }
}

#[cfg(test)]
mod tests {
    use super::*;

    #[test]
    fn rows_are_read() {
        let body = [&b"\0\x03\0\0\0\x02ab\xff\xff\xff\xff\0\0\0\0"[..]].concat();
        assert_eq!(row(&body), Some(vec![Some("ab".into()), None, Some(String::new())]));
        for len in 0..body.len() {
            assert_eq!(row(&body[..len]), None, "{len}");
        }
    }

    #[test]
    fn errors_that_pass_are_told_from_others() {
        let fault = |state: &str| fault_of(format!("SFATAL\0C{state}\0Mwhy\0\0").as_bytes());
        assert!(["57P01", "57P03", "53300", "25006", "08006", "40001"].iter().all(|it| fault(it).is_lost()));
        assert!(["28P01", "3D000", "42501"].iter().all(|it| !fault(it).is_lost()));
        assert_eq!(fault("28P01").to_string(), "why");
    }

    #[test]
    fn messages_are_framed() {
        assert_eq!(framed(Some(b'Q'), b"x\0"), b"Q\0\0\0\x06x\0");
        assert_eq!(framed(None, &TLS.to_be_bytes()), b"\0\0\0\x08\x04\xd2\x16\x2f");
    }
}
