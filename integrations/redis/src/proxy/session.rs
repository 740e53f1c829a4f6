//! What a client says of itself: who it is, its name, and which protocol it speaks.

use super::client::Client;
use super::commands::Kind;
use super::local;
use super::metrics::Shared;
use super::plan::{shown, Words};
use super::serve::Flow;
use super::users::{hash, Hash, User, DEFAULT};
use super::worker::Worker;
use crate::resp::error;
use std::collections::BTreeMap;
use std::fmt::Write as _;
use std::sync::{Arc, Mutex, MutexGuard, PoisonError};
use std::time::Instant;

const WRONG: &str = "WRONGPASS invalid username-password pair or user is disabled.";
const NO_AUTH: &str = "NOAUTH Authentication required.";
const NO_HELLO: &str = "NOAUTH HELLO must be called with the client already authenticated, otherwise the HELLO AUTH <user> \
                        <pass> option can be used to authenticate the client and select the RESP protocol version at the \
                        same time";
const NO_PASSWORD: &str =
    "ERR AUTH <password> called without any password configured for the default user. Are you sure \
                           your configuration is correct?";
const BAD_NAME: &str = "ERR Client names cannot contain spaces, newlines or special characters.";

/// The commands that are answered here.
const NAMES: [&str; 6] = ["ACL", "AUTH", "CLIENT", "HELLO", "QUIT", "RESET"];

/// A client, as others see it.
pub struct Card {
    /// A number that no other client of the proxy has or had.
    pub id: u64,
    addr: String,
    began: Instant,
    says: Mutex<Says>,
}

/// What it has said of itself.
#[derive(Default, Clone)]
struct Says {
    name: String,
    user: String,
}

/// All clients of a proxy, by number.
#[derive(Default)]
pub struct Cards(Mutex<BTreeMap<u64, Arc<Card>>>);

impl Cards {
    fn lock(&self) -> MutexGuard<'_, BTreeMap<u64, Arc<Card>>> {
        self.0.lock().unwrap_or_else(PoisonError::into_inner)
    }
}

/// What a worker knows of a client beside its commands.
pub struct Session {
    pub card: Arc<Card>,
    shared: Arc<Shared>,
    /// The user, if it has logged in or needs no password, and the hash of the password that it has shown.
    user: Option<Arc<User>>,
    shown: Option<Hash>,
}

impl Session {
    /// That of a client that has said nothing.
    pub fn new(id: u64, addr: String, shared: &Arc<Shared>) -> Session {
        let card = Arc::new(Card { id, addr, began: Instant::now(), says: Mutex::default() });
        shared.cards.lock().insert(id, card.clone());
        let mut session = Session { card, shared: shared.clone(), user: None, shown: None };
        session.begin();
        session
    }

    fn says(&self) -> MutexGuard<'_, Says> {
        self.card.says.lock().unwrap_or_else(PoisonError::into_inner)
    }

    /// Makes it one that has said nothing.
    fn begin(&mut self) {
        let means = self.shared.setup.now();
        self.user = means.users.as_ref().and_then(|users| users.first().cloned());
        self.shown = None;
        *self.says() = Says { name: String::new(), user: DEFAULT.into() };
    }

    /// Whether it needs to log in before it does anything.
    pub fn is_stranger(&self) -> bool {
        self.user.is_none() && self.shared.setup.has_users
    }

    /// Why a command is refused, by who sends it.
    fn refuses(&self, words: Words) -> Option<String> {
        match &self.user {
            Some(user) => user.refuses(words.count(), |at| words.at(at)),
            None => self.is_stranger().then(|| NO_AUTH.to_string()),
        }
    }

    /// Whether that is the password of a user, as whom it is known from then on.
    fn log_in(&mut self, name: &[u8], password: &[u8]) -> bool {
        let means = self.shared.setup.now();
        let Some(users) = &means.users else {
            // The one user needs no password.
            return name == DEFAULT.as_bytes();
        };
        let shown = hash(password);
        let Some(user) = users.log_in(name, &shown).cloned() else {
            return false;
        };
        self.says().user.clone_from(&user.name);
        (self.user, self.shown) = (Some(user), Some(shown));
        true
    }

    /// Takes the rights that its user has now: whether these are others. None if it could not log in any more with what it
    /// has shown.
    pub fn renew(&mut self) -> Option<bool> {
        let means = self.shared.setup.now();
        let Some(users) = &means.users else {
            return Some(false);
        };
        let Some(old) = self.user.take() else {
            self.user = users.first().cloned();
            return Some(false);
        };
        let new = match &self.shown {
            Some(shown) => users.log_in(old.name.as_bytes(), shown),
            None => users.first(),
        };
        let has_others = !new?.has_rights_of(&old);
        self.user = new.cloned();
        Some(has_others)
    }

    /// `AUTH [user] password`.
    fn auth(&mut self, words: Words) -> Vec<u8> {
        let means = self.shared.setup.now();
        let needs_none = || means.users.as_ref().is_none_or(|users| users.first().is_some());
        let (name, password) = match words.count() {
            2 if needs_none() => return error(NO_PASSWORD),
            2 => (DEFAULT.as_bytes(), words.at(1)),
            3 => (words.at(1), words.at(2)),
            0 | 1 => return local::few(words),
            _ => return error("ERR syntax error"),
        };
        if self.log_in(name, password) {
            b"+OK\r\n".to_vec()
        } else {
            error(WRONG)
        }
    }

    fn set_name(&self, name: &[u8]) -> Result<(), Vec<u8>> {
        if !name.iter().all(u8::is_ascii_graphic) {
            return Err(error(BAD_NAME));
        }
        self.says().name = String::from_utf8_lossy(name).into_owned();
        Ok(())
    }

    /// `HELLO [2|3 [AUTH user password] [SETNAME name]]`: the answer, and the version from then on.
    fn hello(&mut self, words: Words, now: u8) -> Result<(u8, Vec<u8>), Vec<u8>> {
        let proto = match (words.count() > 1).then(|| words.at(1)) {
            None => now,
            Some(b"2") => 2,
            Some(b"3") => 3,
            Some(_) => return Err(error("NOPROTO unsupported protocol version")),
        };
        let mut at = 2;
        while at < words.count() {
            let (option, left) = (words.at(at), words.count() - at - 1);
            if option.eq_ignore_ascii_case(b"AUTH") && left >= 2 {
                if !self.log_in(words.at(at + 1), words.at(at + 2)) {
                    return Err(error(WRONG));
                }
                at += 3;
            } else if option.eq_ignore_ascii_case(b"SETNAME") && left >= 1 {
                self.set_name(words.at(at + 1))?;
                at += 2;
            } else {
                return Err(error(&format!("ERR Syntax error in HELLO option '{}'", shown(option))));
            }
        }
        if self.is_stranger() {
            return Err(error(NO_HELLO));
        }
        Ok((proto, greeting(proto, self.card.id)))
    }

    /// A line of `CLIENT LIST`.
    fn line(card: &Card) -> String {
        let says = card.says.lock().unwrap_or_else(PoisonError::into_inner).clone();
        let (id, addr, age) = (card.id, &card.addr, card.began.elapsed().as_secs());
        format!("id={id} addr={addr} name={} age={age} flags=N db=0 user={}\n", says.name, says.user)
    }

    /// The lines of these clients, or of all.
    fn list(&self, words: Words) -> Result<String, Vec<u8>> {
        let is = |at: usize, word: &str| words.at(at).eq_ignore_ascii_case(word.as_bytes());
        let ids: Option<Vec<u64>> = match words.count() {
            2 => None,
            4 if is(2, "TYPE") && is(3, "NORMAL") => None,
            4 if is(2, "TYPE") => Some(Vec::new()),
            count if count > 3 && is(2, "ID") => {
                let ids = (3..count).map(|at| std::str::from_utf8(words.at(at)).ok()?.parse().ok());
                Some(ids.collect::<Option<_>>().ok_or_else(|| error("ERR Invalid client ID"))?)
            }
            _ => return Err(error("ERR syntax error")),
        };
        let mut text = String::new();
        for card in self.shared.cards.lock().values() {
            if ids.as_ref().is_none_or(|ids| ids.contains(&card.id)) {
                let _ = text.write_str(&Session::line(card));
            }
        }
        Ok(text)
    }

    /// `CLIENT ..`. What libraries tell of themselves is taken and forgotten.
    fn client(&self, words: Words, nil: &[u8]) -> Result<Vec<u8>, Vec<u8>> {
        let sub = (words.count() > 1).then(|| words.at(1).to_ascii_uppercase());
        match (sub.as_deref().unwrap_or_default(), words.count()) {
            (b"SETINFO", 4) => Ok(b"+OK\r\n".to_vec()),
            (b"SETNAME", 3) => self.set_name(words.at(2)).map(|()| b"+OK\r\n".to_vec()),
            (b"GETNAME", 2) => {
                let name = self.says().name.clone();
                Ok(if name.is_empty() { nil.to_vec() } else { local::bulk(name.as_bytes()) })
            }
            (b"ID", 2) => Ok(format!(":{}\r\n", self.card.id).into_bytes()),
            (b"INFO", 2) => Ok(local::bulk(Session::line(&self.card).as_bytes())),
            (b"LIST", _) => self.list(words).map(|text| local::bulk(text.as_bytes())),
            _ => Err(error("ERR this proxy does not serve this CLIENT command")),
        }
    }
}

impl Drop for Session {
    fn drop(&mut self) {
        self.shared.cards.lock().remove(&self.card.id);
    }
}

/// The answer to HELLO.
fn greeting(proto: u8, id: u64) -> Vec<u8> {
    let head = if proto == 3 { "%7" } else { "*14" };
    let text = format!(
        "{head}\r\n$6\r\nserver\r\n$5\r\nredis\r\n$7\r\nversion\r\n$5\r\n7.0.0\r\n$5\r\nproto\r\n:{proto}\r\n\
         $2\r\nid\r\n:{id}\r\n$4\r\nmode\r\n$10\r\nstandalone\r\n$4\r\nrole\r\n$6\r\nmaster\r\n\
         $7\r\nmodules\r\n*0\r\n"
    );
    text.into_bytes()
}

impl Worker {
    /// Answers a client's next command if it is about the client itself, or if the client may not send it; none if not.
    pub(super) fn session(&mut self, place: usize, client: &mut Client) -> Option<Flow> {
        let words = Words { bytes: &client.input[client.next..], places: client.parser.words() };
        let name = NAMES.iter().find(|name| words.at(0).eq_ignore_ascii_case(name.as_bytes()));
        let answer = match name.copied().unwrap_or_default() {
            "QUIT" => return None,
            // Each protocol has connections of its own, on which commands could overtake those before.
            "HELLO" | "RESET" if client.in_flight > 0 => return Some(Flow::Idle),
            "RESET" if words.count() == 1 => return Some(self.reset(place, client)),
            "AUTH" | "HELLO" if client.queue.is_some() => return None,
            "AUTH" => client.session.auth(words),
            "HELLO" => match client.session.hello(words, 2 + u8::from(client.is_resp3)) {
                Err(refused) => refused,
                Ok((proto, answer)) => {
                    client.speak(proto == 3);
                    answer
                }
            },
            name => match client.session.refuses(words) {
                Some(refused) => {
                    if let Some(queue) = client.queue.as_mut() {
                        queue.is_broken = true;
                    }
                    error(&refused)
                }
                None if client.queue.is_some() => return None,
                None if name == "CLIENT" => {
                    let answer = client.session.client(words, client.nil());
                    answer.unwrap_or_else(|refused| refused)
                }
                None if name == "ACL" => who(words, &client.session),
                None => return None,
            },
        };
        self.turn.count(Kind::Own);
        client.add_answer(answer);
        Some(Flow::On)
    }

    /// Makes a client one that has just come.
    fn reset(&mut self, place: usize, client: &mut Client) -> Flow {
        client.queue = None;
        self.leave(place, client);
        self.unwatch(client);
        client.session.begin();
        client.is_resp3 = false;
        self.turn.count(Kind::Own);
        client.add_answer(b"+RESET\r\n".to_vec());
        Flow::On
    }
}

/// `ACL WHOAMI`.
fn who(words: Words, session: &Session) -> Vec<u8> {
    if words.count() == 2 && words.at(1).eq_ignore_ascii_case(b"WHOAMI") {
        return local::bulk(session.says().user.as_bytes());
    }
    error("ERR this proxy serves ACL WHOAMI alone")
}
