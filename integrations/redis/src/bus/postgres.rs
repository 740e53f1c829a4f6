//! Frames in a table of PostgreSQL, which keeps them, so that a node that comes later hears all. Digests are notifications, which
//! nothing keeps.
//!
//! Repairs are rows too: what a database has lost comes back to it. A node reads the table from its beginning at each
//! connection, and what it knows already changes nothing. `integrations/transports` has the same in Python.

use super::address::Parts;
use super::carrier::{Bus, Ears};
use super::entry::{Entry, Heard};
use super::postgres_link::{Link, Login, Note, Row};
use super::seal::{About, Seal, HEAD};
use super::servers::Servers;
use crate::args::Args;
use crate::dice::Dice;
use crate::fault::{Done, Fault, Trying};
use crate::log;
use crate::secret::digits;
use openssl::base64::{decode_block, encode_block};
use std::sync::{Mutex, PoisonError};
use std::time::{Duration, Instant};

const SCHEMES: [&str; 2] = ["postgresql://", "postgres://"];
const PORT: &str = "5432";
/// What makes the table and its procedures.
const SETUP: &str = include_str!("postgres.sql");
/// How many frames are read and written at once.
const AT_ONCE: usize = 64;
const TOGETHER: usize = 16;
/// The table keeps so many frames, as a stream of Redis does.
const KEPT: usize = 10_000;
/// After how long the table is read again, though nobody has notified.
const AGAIN: Duration = Duration::from_secs(1);
/// The most bytes of a digest: a notification takes 7,999 bytes, and has 3 bytes in 4 characters.
const MOST: usize = 7_900 / 4 * 3 - HEAD;
/// The longest name: those of the table and its procedures have at most 63 bytes.
const LONGEST: usize = 48;

/// A table of frames, and the servers that may have it.
pub struct Postgres {
    servers: Servers,
    login: Login,
    is_secure: bool,
    /// The deployment's name, with which those of the table and its procedures begin.
    name: String,
    /// The table, and the channel of digests.
    frames: String,
    digests: String,
    seal: Seal,
    sender: Mutex<Option<Link>>,
}

/// A connection that reads the table.
struct TableEars<'a> {
    table: &'a Postgres,
    link: Link,
    /// The id of the last frame that was read, when that was, and whether there may be more.
    last: i64,
    looked: Instant,
    is_more: bool,
}

impl Postgres {
    /// The table of an address `postgresql://USER@HOST[:PORT][,HOST[:PORT]..]/DATABASE`. None if it begins otherwise.
    ///
    /// # Errors
    ///
    /// The address or the name has another form, a file of certificates or keys can't be read, or `--keep-alive` is wrong.
    pub fn new(addr: &str, name: &str, args: &Args) -> Done<Option<Postgres>> {
        let Some(rest) = SCHEMES.iter().find_map(|scheme| addr.strip_prefix(scheme)) else {
            return Ok(None);
        };
        let parts = Parts::read(rest, PORT)?;
        let whole = parts.and_then(|it| Some((it.servers, it.user?.to_string(), it.name?.to_string())));
        let (servers, user, database) = whole.ok_or_else(|| {
            Fault::of_words(format!(
                "--bus {addr}: not of the form postgresql://USER@HOST[:PORT],../DATABASE"
            ))
        })?;
        if !is_name(name) {
            let form = "lower case letters, digits and _, at most 48, and a letter first";
            return Err(Fault::of_words(format!("--streams {name}: for PostgreSQL a name has {form}")));
        }
        let password = args.password("bus-password-file")?;
        Ok(Some(Postgres {
            servers: Servers::new(servers, args)?,
            login: Login { user, password, database },
            is_secure: args.has("tls-bus"),
            name: name.to_string(),
            frames: format!("{name}_frames"),
            digests: format!("{name}_digests"),
            seal: Seal::new(&args.secret()?, name),
            sender: Mutex::default(),
        }))
    }

    fn connect(&self) -> Done<Link> {
        self.servers.first(|server| Link::open(server, &self.login, self.is_secure))
    }

    /// Makes the table and its procedures, if they are not there.
    fn set_up(&self, link: &mut Link) -> Done<()> {
        let Postgres { name, frames, .. } = self;
        let found = link.ask(&format!("select to_regprocedure('{name}_append(bytea[], text)')"))?;
        if found.first().and_then(|row| row.first()).is_some_and(Option::is_some) {
            return Ok(());
        }
        // Several programs may begin at once.
        let turn = format!("select pg_advisory_xact_lock(hashtext('{frames}'))");
        let made = link.ask(&format!("{turn}; {}", SETUP.replace("squall_", &format!("{name}_"))));
        made.map(drop).trying(|| format!("to make the table {frames}"))
    }

    /// Does it over the connection that was used last, or over a new one if that is lost. Frames that the server had taken are
    /// then written twice, which changes nothing.
    fn send(&self, words: &str) -> Done<()> {
        let mut sender = self.sender.lock().unwrap_or_else(PoisonError::into_inner);
        if let Some(mut link) = sender.take() {
            match link.ask(words) {
                Err(fault) if fault.is_lost() => {}
                done => {
                    // After a fault an answer may be left over.
                    *sender = done.is_ok().then_some(link);
                    return done.map(drop);
                }
            }
        }
        let mut link = self.connect()?;
        self.set_up(&mut link)?;
        link.ask(words)?;
        *sender = Some(link);
        Ok(())
    }

    /// The digest of a notification, if this deployment has sealed it.
    fn digest(&self, payload: &str) -> Option<Entry> {
        let (id, text) = payload.split_once(' ')?;
        let bytes = decode_block(text).ok()?;
        let (from, frame) = self.seal.open(&self.digests, Some(id), &bytes)?;
        Some(Entry { id: id.into(), from: from.into(), frame: frame.into(), re: None })
    }

    /// The frame of a row, if this deployment has sealed it.
    fn frame(&self, id: &str, frame: &str, re: Option<String>) -> Option<Entry> {
        let bytes = bytes_of(frame)?;
        let (from, frame) = self.seal.open(&self.frames, re.as_deref(), &bytes)?;
        Some(Entry { id: id.into(), from: from.into(), frame: frame.into(), re })
    }
}

impl Bus for Postgres {
    fn listen(&self) -> Done<Box<dyn Ears + '_>> {
        let mut link = self.connect()?;
        self.set_up(&mut link)?;
        link.ask(&format!("listen {}; listen {}", self.frames, self.digests))?;
        Ok(Box::new(TableEars { table: self, link, last: 0, looked: Instant::now(), is_more: true }))
    }

    fn renew(&self, args: &Args) -> Done<()> {
        self.servers.renew(args)
    }

    fn most(&self) -> usize {
        usize::MAX
    }

    fn most_shown(&self) -> usize {
        MOST
    }

    fn write(&self, from: &str, frames: &[Vec<u8>], re: Option<&str>) -> Done<()> {
        let Postgres { name, frames: table, .. } = self;
        let about = About { place: table, from, re };
        let answered = re.map_or("null".into(), |id| format!("'{id}'"));
        for some in frames.chunks(TOGETHER) {
            let sealed: Vec<String> = some
                .iter()
                .map(|frame| format!("'\\x{}'", digits(&self.seal.envelope(about, frame))))
                .collect();
            self.send(&format!(
                "call {name}_append(array[{}]::bytea[], {answered}); \
                 delete from {table} where id <= (select max(id) from {table}) - {KEPT}",
                sealed.join(",")
            ))?;
        }
        Ok(())
    }

    /// A digest is no loss if a server ends at once, so nobody waits until it is on disk.
    fn show(&self, from: &str, frames: &[Vec<u8>]) -> Done<()> {
        let mut dice = Dice::fresh();
        for frame in frames {
            if frame.len() > MOST {
                log::warn(format!(
                    "bus: a digest of {} bytes is not sent: PostgreSQL takes {MOST}",
                    frame.len()
                ));
                continue;
            }
            let id = format!("{:016x}", dice.draw());
            let sealed = self.seal.envelope(About { place: &self.digests, from, re: Some(&id) }, frame);
            self.send(&format!(
                "select set_config('synchronous_commit', 'off', true), pg_notify('{}', '{id} {}')",
                self.digests,
                encode_block(&sealed)
            ))?;
        }
        Ok(())
    }
}

impl TableEars<'_> {
    fn hear(&mut self) -> Done<Heard> {
        if !self.is_more {
            self.link.wait()?;
        }
        let mut heard = Heard::default();
        let notes = self.link.notes();
        if self.is_more
            || self.looked.elapsed() >= AGAIN
            || notes.iter().any(|it| it.channel == self.table.frames)
        {
            self.look(&mut heard)?;
        }
        notes.iter().for_each(|note| self.take(&mut heard, note));
        heard.at = Some(self.link.heard);
        Ok(heard)
    }

    /// Takes a digest.
    fn take(&self, heard: &mut Heard, note: &Note) {
        if note.channel == self.table.digests {
            match self.table.digest(&note.payload) {
                Some(entry) => heard.digests.push(entry),
                None => heard.foreign += 1,
            }
        }
    }

    /// Reads the next rows.
    fn look(&mut self, heard: &mut Heard) -> Done<()> {
        let (table, last) = (&self.table.frames, self.last);
        self.looked = Instant::now();
        let rows = self.link.ask(&format!(
            "select id, frame, re from {table} where id > {last} order by id limit {AT_ONCE}"
        ))?;
        self.is_more = rows.len() == AT_ONCE;
        for row in rows {
            let (id, entry) = self.read_row(row)?;
            self.last = id;
            match entry {
                Some(entry) => heard.frames.push(entry),
                None => heard.foreign += 1,
            }
        }
        Ok(())
    }

    fn read_row(&self, row: Row) -> Done<(i64, Option<Entry>)> {
        let wrong = || Fault::new(format!("the table {} has another form", self.table.frames));
        let [id, frame, re]: [Option<String>; 3] = row.try_into().map_err(|_| wrong())?;
        let (id, frame) = id.zip(frame).ok_or_else(wrong)?;
        let entry = self.table.frame(&id, &frame, re);
        Ok((id.parse().map_err(|_| wrong())?, entry))
    }
}

impl Ears for TableEars<'_> {
    fn read(&mut self) -> Done<Heard> {
        let heard = self.hear();
        heard.trying(|| self.link.addr.clone())
    }
}

/// Whether it is the name of a table that needs no quotes.
fn is_name(name: &str) -> bool {
    let is_fine = |it: char| it.is_ascii_lowercase() || it.is_ascii_digit() || it == '_';
    name.len() <= LONGEST && name.starts_with(|it: char| it.is_ascii_lowercase()) && name.chars().all(is_fine)
}

/// The bytes of a value `\x..`.
fn bytes_of(text: &str) -> Option<Vec<u8>> {
    let text = text.strip_prefix("\\x")?.as_bytes();
    let digit = |byte: u8| char::from(byte).to_digit(16).map(|digit| digit as u8);
    text.chunks(2).map(|two| Some(digit(two[0])? << 4 | digit(*two.get(1)?)?)).collect()
}

#[cfg(test)]
mod tests {
    use super::*;
    use crate::args::Usage;
    use std::path::PathBuf;
    use std::sync::LazyLock;

    /// A file with a secret, which all tests read.
    static SECRET: LazyLock<PathBuf> = LazyLock::new(|| {
        let file = std::env::temp_dir().join(format!("squall.postgres.secret.{}", std::process::id()));
        std::fs::write(&file, "aaaaaaaaaaaaaaaaaaaaaaaaaaaaaaaa\n").unwrap();
        file
    });

    fn table(addr: &str, name: &str) -> Done<Option<Postgres>> {
        let usage = Usage { name: "test", help: "", options: &["secret-file"], flags: &["tls-bus"] };
        let words = ["--secret-file".to_string(), SECRET.to_str().unwrap().to_string()];
        Postgres::new(addr, name, &Args::parse(&words, &usage).unwrap())
    }

    #[test]
    fn addresses_are_read() {
        let bus = table("postgresql://me@a,b:7/squall_db", "shop").unwrap().unwrap();
        let Login { user, database, .. } = &bus.login;
        assert_eq!(
            (user.as_str(), database.as_str(), bus.frames.as_str()),
            ("me", "squall_db", "shop_frames")
        );
        assert!(table("127.0.0.1:6379", "shop").unwrap().is_none());
        let why = |addr, name| table(addr, name).err().unwrap().to_string();
        for wrong in ["postgres://a/db", "postgres://me@a", "postgres://me@/db", "postgres://me@a,/db"] {
            assert!(why(wrong, "shop").contains("not of the form"), "{wrong}");
        }
        assert!(why("postgres://me:pw@a/db", "shop").contains("belongs into --bus-password-file"));
        for wrong in ["Shop", "1", "", "a b", "a;b", &"a".repeat(49)] {
            assert!(why("postgres://me@a/db", wrong).contains("for PostgreSQL a name"), "{wrong}");
        }
    }

    #[test]
    fn entries_are_opened() {
        let bus = table("postgresql://me@a/db", "shop").unwrap().unwrap();
        let sealed = |place: &str, re| bus.seal.envelope(About { place, from: "other", re }, b"frame");
        let row = |bytes: &[u8], re: Option<&str>| {
            bus.frame("7", &format!("\\x{}", digits(bytes)), re.map(String::from))
        };
        let entry = row(&sealed("shop_frames", None), None).unwrap();
        assert_eq!((entry.from.as_str(), &entry.frame[..]), ("other", &b"frame"[..]));
        assert!(row(&sealed("shop_frames", Some("d1")), Some("d1"))
            .is_some_and(|it| it.re.as_deref() == Some("d1")));
        assert!(
            row(&sealed("shop_frames", Some("d1")), Some("d2")).is_none() && row(b"frame", None).is_none()
        );
        let note = |id: &str, bytes: &[u8]| bus.digest(&format!("{id} {}", encode_block(bytes)));
        assert!(note("d1", &sealed("shop_digests", Some("d1"))).is_some_and(|it| it.id == "d1"));
        assert!(note("d2", &sealed("shop_digests", Some("d1"))).is_none() && bus.digest("d1").is_none());
    }

    #[test]
    fn values_are_read() {
        assert_eq!(bytes_of("\\x00ffA1"), Some(vec![0, 255, 161]));
        for wrong in ["00", "\\x0", "\\x0g", ""] {
            assert_eq!(bytes_of(wrong), None, "{wrong}");
        }
    }
}
