//! Frames as keys of etcd, which keeps them, so that a node that comes later hears all. `integrations/transports` has the same in
//! Python.
//!
//! Below `NAME/frames/` each frame has a key by its bytes. Below `NAME/digests/` is the last digest of each node. Who answers one
//! removes its key in the same transaction, so that nobody else answers it too. Each put stays in etcd's history until that is
//! compacted, so a digest that stays the same is put less and less often.

use super::address::Parts;
use super::carrier::{Bus, Ears};
use super::entry::{Entry, Heard};
use super::etcd_link::{fault_of, Link, Login};
use super::node::lock;
use super::seal::{About, Seal};
use super::servers::Servers;
use crate::args::Args;
use crate::fault::{Done, Fault, Trying};
use crate::secret::digits;
use openssl::base64::{decode_block, encode_block};
use openssl::sha::sha256;
use serde_json::{json, Value};
use std::collections::BTreeMap;
use std::sync::Mutex;
use std::time::{Duration, Instant};

const SCHEME: &str = "etcd://";
const PORT: &str = "2379";
/// How many keys are read at once, and written: etcd takes 128 and 1.5 MiB in a transaction.
const AT_ONCE: usize = 100;
const TOGETHER: usize = 1 << 20;
/// A digest that stays the same is put again after the first of these pauses, then after twice that one, and so on to the last.
const FIRST: Duration = Duration::from_secs(1);
const LAST: Duration = Duration::from_secs(60);
/// How long digests are kept of a node that shows none, in seconds, and for how long new ones have the same lease.
const LEASE: u64 = 180;
const LEASED: Duration = Duration::from_secs(60);
/// How often the digests are heard again that are not answered.
const ROUND: Duration = Duration::from_secs(1);

/// The keys of a deployment, and the members that have them.
pub struct Etcd {
    servers: Servers,
    login: Option<Login>,
    is_secure: bool,
    /// With which all keys begin, those of frames, and those of digests.
    all: String,
    frames: String,
    digests: String,
    seal: Seal,
    sender: Mutex<Sender>,
}

#[derive(Default)]
struct Sender {
    link: Option<Link>,
    /// The lease of digests, and when it was granted.
    lease: Option<(String, Instant)>,
    shown: Option<Shown>,
}

/// What was shown last.
struct Shown {
    digest: Vec<Vec<u8>>,
    at: Instant,
    pause: Duration,
}

/// A connection that watches the keys.
struct KeyEars<'a> {
    etcd: &'a Etcd,
    /// For questions, and for the watch.
    link: Link,
    watch: Link,
    /// The revision at which all frames are read first, and from which key on; none if they were.
    revision: String,
    next: Option<String>,
    /// The last digest of each node, by its key, and when they were heard again.
    shown: BTreeMap<String, (Entry, Instant)>,
    told: Instant,
}

impl Etcd {
    /// The keys of an address `etcd://[USER@]HOST[:PORT][,HOST[:PORT]..][/NAME]`. None if it begins otherwise.
    ///
    /// # Errors
    ///
    /// The address has another form, a file of certificates or keys can't be read, or `--keep-alive` is wrong.
    pub fn new(addr: &str, name: &str, args: &Args) -> Done<Option<Etcd>> {
        let Some(rest) = addr.strip_prefix(SCHEME) else {
            return Ok(None);
        };
        let parts = Parts::read(rest, PORT)?
            .filter(|it| it.name.is_none_or(|name| !name.contains(char::is_whitespace)));
        let form =
            || Fault::of_words(format!("--bus {addr}: not of the form {SCHEME}[USER@]HOST[:PORT],..[/NAME]"));
        let Parts { user, servers, name: own } = parts.ok_or_else(form)?;
        let name = own.unwrap_or(name);
        let login = match (user, args.password("bus-password-file")?) {
            (Some(user), Some(password)) => Some(Login { user: user.into(), password }),
            (None, None) => None,
            (Some(_), None) => return Err(Fault::new("--bus names a user: --bus-password-file is missing")),
            (None, Some(_)) => return Err(Fault::new("--bus names no user for --bus-password-file")),
        };
        Ok(Some(Etcd {
            servers: Servers::new(servers, args)?,
            login,
            is_secure: args.has("tls-bus"),
            all: format!("{name}/"),
            frames: format!("{name}/frames/"),
            digests: format!("{name}/digests/"),
            seal: Seal::new(&args.secret()?, name),
            sender: Mutex::default(),
        }))
    }

    fn connect(&self) -> Done<Link> {
        self.servers.first(|server| Link::open(server, self.login.as_ref(), self.is_secure))
    }

    /// Asks over the connection that was used last, or over a new one if that is lost. What the member had done is then done
    /// twice, which changes nothing.
    fn ask(&self, sender: &mut Sender, path: &str, words: &Value) -> Done<Value> {
        if let Some(mut link) = sender.link.take() {
            match link.ask(path, words) {
                Err(fault) if fault.is_lost() => {}
                answer => {
                    // After a fault an answer may be left over.
                    sender.link = answer.is_ok().then_some(link);
                    return answer;
                }
            }
        }
        let mut link = self.connect()?;
        let answer = link.ask(path, words).trying(|| link.addr.clone())?;
        sender.link = Some(link);
        Ok(answer)
    }

    /// The lease of digests, which lasts for long enough.
    fn lease(&self, sender: &mut Sender) -> Done<String> {
        match &sender.lease {
            Some((id, at)) if at.elapsed() < LEASED => Ok(id.clone()),
            _ => {
                let answer = self.ask(sender, "lease/grant", &json!({ "TTL": LEASE.to_string() }))?;
                let id = answer["ID"].as_str().ok_or_else(|| Fault::new("etcd grants no lease"))?;
                sender.lease = Some((id.into(), Instant::now()));
                Ok(id.into())
            }
        }
    }

    fn put_digest(&self, sender: &mut Sender, from: &str, frames: &[Vec<u8>]) -> Done<()> {
        let about = About { place: &self.digests, from, re: None };
        for (at, frame) in frames.iter().enumerate() {
            let lease = self.lease(sender)?;
            let key = encoded(format!("{}{from}/{at}", self.digests));
            let value = encoded(self.seal.envelope(about, frame));
            let put = self.ask(sender, "kv/put", &json!({ "key": key, "value": value, "lease": lease }));
            if put.is_err() {
                // The lease may be gone.
                sender.lease = None;
            }
            put?;
        }
        Ok(())
    }

    /// The step of a transaction that puts a frame under the key of its bytes.
    fn put(&self, from: &str, frame: &[u8]) -> Value {
        let key = format!("{}{}", self.frames, &digits(&sha256(frame))[..32]);
        let sealed = self.seal.envelope(About { place: &self.frames, from, re: None }, frame);
        json!({ "requestPut": { "key": encoded(key), "value": encoded(sealed) } })
    }

    /// The entry of a key, if this deployment has sealed it.
    fn entry(&self, place: &str, id: String, value: &Value) -> Option<Entry> {
        let bytes = decoded(value)?;
        let (from, frame) = self.seal.open(place, None, &bytes)?;
        Some(Entry { id, from: from.into(), frame: frame.into(), re: None })
    }
}

impl Bus for Etcd {
    fn listen(&self) -> Done<Box<dyn Ears + '_>> {
        self.servers.first(|server| {
            let open = || Link::open(server, self.login.as_ref(), self.is_secure);
            let (mut link, mut watch) = (open()?, open()?);
            let revision = revision(&link.ask("kv/range", &counted(&self.frames))?)?;
            let mut words = ranged(&self.all);
            words["start_revision"] = (revision + 1).to_string().into();
            let status = watch.begin("watch", &json!({ "create_request": words }))?;
            if status != 200 {
                let said = watch.next_line()?.unwrap_or_default();
                return Err(fault_of(&said, status));
            }
            let (revision, next) = (revision.to_string(), Some(self.frames.clone()));
            let ears = KeyEars {
                etcd: self,
                link,
                watch,
                revision,
                next,
                shown: BTreeMap::new(),
                told: Instant::now(),
            };
            Ok(Box::new(ears) as Box<dyn Ears>)
        })
    }

    fn renew(&self, args: &Args) -> Done<()> {
        self.servers.renew(args)
    }

    fn most(&self) -> usize {
        usize::MAX
    }

    fn write(&self, from: &str, frames: &[Vec<u8>], re: Option<&str>) -> Done<()> {
        // That the digest is still the one that was heard, and that it is answered.
        let (mut compare, mut steps) = (Vec::new(), Vec::new());
        if let Some((key, revision)) = re.and_then(|id| id.split_once(' ')) {
            let key = encoded(format!("{}{key}", self.digests));
            compare.push(json!({ "key": key, "target": "MOD", "result": "EQUAL", "mod_revision": revision }));
            steps.push(json!({ "requestDeleteRange": { "key": key } }));
        }
        let mut sender = lock(&self.sender);
        for some in parted(frames) {
            steps.extend(some.iter().map(|frame| self.put(from, frame)));
            let words = json!({ "compare": compare, "success": steps });
            let answer = self.ask(&mut sender, "kv/txn", &words)?;
            if !answer["succeeded"].as_bool().unwrap_or(false) {
                break;
            }
            (compare, steps) = (Vec::new(), Vec::new());
        }
        Ok(())
    }

    fn show(&self, from: &str, frames: &[Vec<u8>]) -> Done<()> {
        let mut sender = lock(&self.sender);
        let last = sender.shown.take();
        let pause = match last {
            Some(last) if last.digest == frames && last.at.elapsed() < last.pause => {
                sender.shown = Some(last);
                return Ok(());
            }
            Some(last) if last.digest == frames => LAST.min(2 * last.pause),
            _ => FIRST,
        };
        self.put_digest(&mut sender, from, frames)?;
        sender.shown = Some(Shown { digest: frames.to_vec(), at: Instant::now(), pause });
        Ok(())
    }
}

impl KeyEars<'_> {
    fn hear(&mut self) -> Done<Heard> {
        let mut heard = Heard::default();
        if let Some(from) = self.next.take() {
            self.page(&mut heard, &from)?;
        } else if let Some(said) = self.watch.next_line()? {
            self.take_changes(&mut heard, &said)?;
        }
        if self.told.elapsed() >= ROUND {
            self.tell_again(&mut heard);
            // A member that has no leader does not answer this.
            self.link.ask("kv/range", &counted(&self.etcd.frames))?;
        }
        heard.at = Some(self.link.heard.max(self.watch.heard));
        Ok(heard)
    }

    /// Reads the next keys of those that were there first.
    fn page(&mut self, heard: &mut Heard, from: &str) -> Done<()> {
        let mut words = ranged(&self.etcd.frames);
        words["key"] = encoded(from).into();
        words["limit"] = AT_ONCE.to_string().into();
        words["revision"] = self.revision.as_str().into();
        let answer = self.link.ask("kv/range", &words)?;
        let found = answer["kvs"].as_array().map_or(&[][..], Vec::as_slice);
        found.iter().for_each(|it| self.take_frame(heard, it));
        if answer["more"].as_bool().unwrap_or(false) {
            let last = found.last().and_then(key_of).ok_or_else(other_form)?;
            self.next = Some(last + "\0");
        }
        Ok(())
    }

    fn take_frame(&self, heard: &mut Heard, it: &Value) {
        let id = key_of(it).unwrap_or_default();
        match self.etcd.entry(&self.etcd.frames, id, &it["value"]) {
            Some(entry) => heard.frames.push(entry),
            None => heard.foreign += 1,
        }
    }

    /// Takes an answer of the watch.
    fn take_changes(&mut self, heard: &mut Heard, said: &Value) -> Done<()> {
        let changes = &said["result"];
        if changes.is_null() {
            return Err(fault_of(said, 500));
        } else if changes["canceled"].as_bool().unwrap_or(false) {
            // Its history is gone. All keys are read anew.
            return Err(Fault::lost("etcd has ended the watch"));
        }
        for it in changes["events"].as_array().into_iter().flatten().filter(|it| it["type"] != "DELETE") {
            let it = &it["kv"];
            let key = key_of(it).ok_or_else(other_form)?;
            if key.starts_with(&self.etcd.frames) {
                self.take_frame(heard, it);
            } else if let Some(name) = key.strip_prefix(&self.etcd.digests) {
                self.take_digest(heard, name, it);
            }
        }
        Ok(())
    }

    /// Takes a digest, whose id is its key and the revision in which it was put.
    fn take_digest(&mut self, heard: &mut Heard, name: &str, it: &Value) {
        let id = format!("{name} {}", it["mod_revision"].as_str().unwrap_or_default());
        match self.etcd.entry(&self.etcd.digests, id, &it["value"]) {
            Some(entry) => {
                heard.digests.push(entry.clone());
                self.shown.insert(name.into(), (entry, Instant::now()));
            }
            None => heard.foreign += 1,
        }
    }

    /// Lets the last digest of each node be heard once more, as on a bus on which nodes show theirs each second. What was
    /// answered since then is not answered again.
    fn tell_again(&mut self, heard: &mut Heard) {
        self.told = Instant::now();
        self.shown.retain(|_, (_, at)| at.elapsed() < 2 * LAST);
        heard.digests.extend(
            self.shown.values().filter(|(_, at)| at.elapsed() >= ROUND).map(|(entry, _)| entry.clone()),
        );
    }
}

impl Ears for KeyEars<'_> {
    fn read(&mut self) -> Done<Heard> {
        let heard = self.hear();
        heard.trying(|| self.link.addr.clone())
    }
}

/// Frames in parts, each of which goes into a transaction.
fn parted(frames: &[Vec<u8>]) -> Vec<&[Vec<u8>]> {
    let (mut parts, mut first, mut bytes) = (Vec::new(), 0, 0);
    for (at, frame) in frames.iter().enumerate() {
        if at > first && (at - first == AT_ONCE || bytes + frame.len() > TOGETHER) {
            parts.push(&frames[first..at]);
            (first, bytes) = (at, 0);
        }
        bytes += frame.len();
    }
    if first < frames.len() {
        parts.push(&frames[first..]);
    }
    parts
}

/// All keys that begin so.
fn ranged(prefix: &str) -> Value {
    let mut end = prefix.as_bytes().to_vec();
    // A prefix ends with `/`.
    end.iter_mut().last().into_iter().for_each(|it| *it += 1);
    json!({ "key": encoded(prefix), "range_end": encoded(end) })
}

/// How many they are.
fn counted(prefix: &str) -> Value {
    let mut words = ranged(prefix);
    words["count_only"] = true.into();
    words
}

fn revision(answer: &Value) -> Done<u64> {
    answer["header"]["revision"].as_str().and_then(|it| it.parse().ok()).ok_or_else(other_form)
}

fn key_of(it: &Value) -> Option<String> {
    String::from_utf8(decoded(&it["key"])?).ok()
}

/// Bytes as the gateway writes them. It leaves out empty ones.
fn encoded(bytes: impl AsRef<[u8]>) -> String {
    encode_block(bytes.as_ref())
}

fn decoded(text: &Value) -> Option<Vec<u8>> {
    decode_block(text.as_str().unwrap_or_default()).ok()
}

fn other_form() -> Fault {
    Fault::new("etcd sent something of another form")
}

#[cfg(test)]
mod tests {
    use super::*;

    #[test]
    fn frames_are_parted() {
        let lengths = |sizes: &[usize]| -> Vec<usize> {
            let frames: Vec<Vec<u8>> = sizes.iter().map(|&len| vec![0; len]).collect();
            parted(&frames).iter().map(|it| it.len()).collect()
        };
        assert_eq!(lengths(&[]), [0; 0]);
        assert_eq!(lengths(&[1; 250]), [100, 100, 50]);
        assert_eq!(lengths(&[TOGETHER + 8, TOGETHER, 1, TOGETHER - 1, 1]), [1, 1, 2, 1]);
    }

    #[test]
    fn prefixes_have_an_end() {
        let words = ranged("shop/");
        assert_eq!(
            (decoded(&words["key"]), decoded(&words["range_end"])),
            (Some(b"shop/".to_vec()), Some(b"shop0".to_vec()))
        );
        assert_eq!(decoded(&Value::Null), Some(Vec::new()));
    }
}
