//! Entries of the streams.

use super::seal::{About, Seal};
use crate::conn::{passes, Conn};
use crate::fault::{Done, Fault};
use crate::resp::Value;
use std::time::Instant;

/// An entry of a stream: `from NAME mac CODE frame BYTES`, and of a repair also `re ID`.
#[derive(Clone)]
pub struct Entry {
    /// Its place in the stream.
    pub id: String,
    /// The node that wrote it.
    pub from: String,
    /// One whole frame.
    pub frame: Vec<u8>,
    /// The digest that it answers.
    pub re: Option<String>,
}

/// What was heard at once.
#[derive(Default)]
pub struct Heard {
    /// Frames of reports and repairs.
    pub frames: Vec<Entry>,
    /// Digests.
    pub digests: Vec<Entry>,
    /// How many entries were passed over, since they do not have this deployment's seal.
    pub foreign: u64,
    /// When the server has said anything last.
    pub at: Option<Instant>,
}

/// A reader's place in both streams.
pub struct Places {
    /// The last frame that was read.
    pub frames: String,
    /// The last digest.
    pub digests: String,
}

/// The streams of a deployment.
pub struct Streams {
    frames: String,
    digests: String,
    seal: Seal,
}

impl Streams {
    /// The streams whose names begin with the given one, and what seals their entries.
    pub fn new(name: &str, seal: Seal) -> Streams {
        Streams { frames: format!("{name}:frames"), digests: format!("{name}:digests"), seal }
    }

    /// The beginning of all frames, and the end of all digests.
    pub fn begin(&self, conn: &mut Conn) -> Done<Places> {
        let last = ask(conn, &["XREVRANGE", &self.digests, "+", "-", "COUNT", "1"])?;
        let last = last.list().pop().map(Value::list);
        let id = last.and_then(|entry| entry.into_iter().next());
        Ok(Places { frames: "0".into(), digests: id.map_or("0".into(), Value::text) })
    }

    /// The next frames and digests, after a wait of at most a second.
    pub fn read(&self, conn: &mut Conn, places: &mut Places) -> Done<Heard> {
        let head = ["XREAD", "COUNT", "256", "BLOCK", "1000", "STREAMS"];
        let names = [self.frames.as_str(), &self.digests];
        let after = [places.frames.as_str(), &places.digests];
        let answer = ask(conn, &[&head[..], &names, &after].concat())?;
        let mut heard = Heard { at: Some(Instant::now()), ..Heard::default() };
        for stream in answer.list() {
            let [name, entries] = two(stream)?;
            let name = name.text();
            let (place, kept) = if name == self.frames {
                (&mut places.frames, &mut heard.frames)
            } else {
                (&mut places.digests, &mut heard.digests)
            };
            for entry in entries.list() {
                let [id, fields] = two(entry)?;
                *place = id.text();
                match read_entry(place, fields.list()).filter(|entry| self.is_own(&name, entry)) {
                    Some((entry, _)) => kept.push(entry),
                    None => heard.foreign += 1,
                }
            }
        }
        Ok(heard)
    }

    /// Whether an entry of a stream has the deployment's seal.
    fn is_own(&self, place: &str, (entry, code): &(Entry, Vec<u8>)) -> bool {
        let about = About { place, from: &entry.from, re: entry.re.as_deref() };
        self.seal.is_right(code, about, &entry.frame)
    }

    /// Writes frames, each as an entry.
    pub fn write(&self, conn: &mut Conn, from: &str, frames: &[Vec<u8>], re: Option<&str>) -> Done<()> {
        self.add(conn, (&self.frames, "10000"), from, frames, re)
    }

    /// Writes digests.
    pub fn show(&self, conn: &mut Conn, from: &str, frames: &[Vec<u8>]) -> Done<()> {
        self.add(conn, (&self.digests, "1000"), from, frames, None)
    }

    fn add(
        &self,
        conn: &mut Conn,
        (stream, most): (&str, &str),
        from: &str,
        frames: &[Vec<u8>],
        re: Option<&str>,
    ) -> Done<()> {
        for frame in frames {
            let code = self.seal.code(About { place: stream, from, re }, frame);
            let head = ["XADD", stream, "MAXLEN", "~", most, "*", "from", from];
            let mut words: Vec<&[u8]> = head.iter().map(|word| word.as_bytes()).collect();
            if let Some(id) = re {
                words.extend([&b"re"[..], id.as_bytes()]);
            }
            words.extend([&b"mac"[..], &code, b"frame", frame]);
            conn.put(&words);
        }
        let answers = conn.hear_all(frames.len())?;
        answers.into_iter().try_for_each(|answer| accepted(answer).map(drop))
    }
}

/// Sends one command and hears its answer.
fn ask(conn: &mut Conn, words: &[&str]) -> Done<Value> {
    conn.put(words);
    let answers = conn.hear_all(1)?;
    accepted(answers.into_iter().next().unwrap_or(Value::Nil))
}

/// An answer that is no error. A server that refuses for a while only counts as one that is away.
fn accepted(answer: Value) -> Done<Value> {
    match answer {
        Value::Error(text) if passes(&text) => Err(Fault::lost(text)),
        Value::Error(text) => Err(Fault::new(text)),
        answer => Ok(answer),
    }
}

/// The entry of these fields and its code, if it is one. Fields that are not known are passed over.
fn read_entry(id: &str, fields: Vec<Value>) -> Option<(Entry, Vec<u8>)> {
    let (mut from, mut frame, mut re, mut code) = (None, None, None, None);
    let mut fields = fields.into_iter();
    while let (Some(name), Some(value)) = (fields.next(), fields.next()) {
        match name.text().as_str() {
            "from" => from = Some(value.text()),
            "frame" => frame = Some(value.bytes()),
            "re" => re = Some(value.text()),
            "mac" => code = Some(value.bytes()),
            _ => {}
        }
    }
    Some((Entry { id: id.to_string(), from: from?, frame: frame?, re }, code?))
}

fn two(value: Value) -> Done<[Value; 2]> {
    let list = value.list();
    list.try_into().map_err(|_| Fault::new("the bus: a stream of another form"))
}
