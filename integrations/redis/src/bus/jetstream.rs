//! Frames in a stream of JetStream, a part of NATS servers. It keeps what is published to the subject `NAME.frames`, so that a node
//! that comes later hears all. Digests and repairs go as over core NATS, whose nodes hear the same frames.
//!
//! A node reads the stream by a consumer of its own, from the beginning at each connection: what it knows already changes nothing.
//! It asks for the next messages again and again, and the server says so if there is none for a while. So a consumer that is gone is
//! found out. Nothing is acknowledged to the server; a writer waits until the stream has taken its frames.

use super::acks::Acks;
use super::carrier::{Bus, Ears};
use super::entry::Heard;
use super::nats::{Nats, FRAMES};
use super::nats_address::json;
use super::nats_link::Talk;
use super::nats_text::{message, number_of, text_of, Message};
use super::wire::PATIENCE;
use crate::args::Args;
use crate::dice::Dice;
use crate::fault::{Done, Fault, Trying};
use std::time::{Duration, Instant};

/// How many messages a consumer is asked for at once, and for how long it may wait for them.
const BATCH: usize = 256;
const EXPIRES: Duration = Duration::from_secs(2);
/// A consumer that nobody has asked for so long is removed by the server.
const FORGOTTEN: Duration = Duration::from_secs(60);
/// How long JetStream may take to answer a question. Writers wait longer for a connection, so that this fault comes first.
const ANSWER: Duration = Duration::from_secs(3);
/// A consumer that sends nothing for so long, and does not end a request, is gone.
const GONE: Duration = Duration::from_secs(10);
/// How many frames are sent before the stream says that it has them.
const AT_ONCE: usize = 256;
/// A stream that this program makes keeps so many frames, as a stream of Redis does.
const MOST: usize = 10_000;
/// The number of the subscription to answers.
const ANSWERS: u64 = 4;
/// The code of a stream that is not there, and those of servers that have not found each other yet.
const NO_STREAM: usize = 10_059;
const NOT_YET: [usize; 2] = [10_005, 10_008];
/// The code of a stream that another program has made in between, for other servers.
const MADE: usize = 10_058;

/// A stream, and the NATS servers that keep it.
pub struct JetStream {
    nats: Nats,
    /// Its name.
    stream: String,
    /// How many servers keep it, if this program makes it.
    copies: usize,
    acks: Acks,
}

/// The connection, which hears all.
struct JetEars<'a> {
    jet: &'a JetStream,
    talk: Talk<'a>,
    consumer: String,
    /// When the consumer was asked last, and how many messages it may still send.
    asked: Instant,
    left: usize,
}

/// What JetStream has answered.
enum Answer {
    Done,
    Refused(usize, Fault),
}

impl JetStream {
    /// The stream of a deployment, of which so many servers keep each frame.
    pub fn new(nats: Nats, copies: usize) -> JetStream {
        let stream = nats.name.replace('.', "_");
        JetStream { nats, stream, copies, acks: Acks::default() }
    }

    /// The subject at which a consumer's messages come.
    fn inbox(&self) -> String {
        format!("{}.next", self.nats.inbox)
    }

    /// The subject at which an answer comes.
    fn answers(&self, number: impl ToString) -> String {
        format!("{}.answers.{}", self.nats.inbox, number.to_string())
    }

    /// Finds the stream, or makes it, and makes a consumer of all that it keeps.
    fn begin(&self, talk: &mut Talk, consumer: &str) -> Done<()> {
        let stream = &self.stream;
        match self.ask(talk, &format!("STREAM.INFO.{stream}"), "")? {
            Answer::Done => {}
            Answer::Refused(NO_STREAM, _) => self.make(talk)?,
            Answer::Refused(_, fault) => return Err(fault),
        }
        let config = format!(
            r#"{{"durable_name":{},"ack_policy":"none","replay_policy":"instant","deliver_policy":"all","inactive_threshold":{}}}"#,
            json(consumer),
            FORGOTTEN.as_nanos()
        );
        let words = format!(r#"{{"stream_name":{},"config":{config}}}"#, json(stream));
        match self.ask(talk, &format!("CONSUMER.DURABLE.CREATE.{stream}.{consumer}"), &words)? {
            Answer::Done => Ok(()),
            Answer::Refused(_, fault) => Err(fault),
        }
    }

    /// Makes the stream.
    fn make(&self, talk: &mut Talk) -> Done<()> {
        let words = format!(
            r#"{{"name":{},"subjects":[{}],"retention":"limits","storage":"file","num_replicas":{},"max_msgs":{MOST},"discard":"old"}}"#,
            json(&self.stream),
            json(&self.nats.frames),
            self.copies
        );
        match self.ask(talk, &format!("STREAM.CREATE.{}", self.stream), &words)? {
            Answer::Done | Answer::Refused(MADE, _) => Ok(()),
            Answer::Refused(_, fault) => Err(fault),
        }
    }

    /// What JetStream answers to a question.
    fn ask(&self, talk: &mut Talk, name: &str, words: &str) -> Done<Answer> {
        let inbox = self.answers(format!("{:016x}", Dice::fresh().draw()));
        let mut bytes = Vec::new();
        message(&mut bytes, &format!("$JS.API.{name}"), Some(&inbox), words.as_bytes());
        talk.send(&bytes)?;
        let began = Instant::now();
        while began.elapsed() < ANSWER {
            if let Some(answer) = talk.read()?.into_iter().find(|it| it.subject == inbox) {
                return Ok(read(&answer.payload));
            }
        }
        Err(Fault::lost("JetStream does not answer"))
    }

    /// Sends frames to all nodes, and waits until the stream has them.
    fn keep(&self, from: &str, frames: &[Vec<u8>]) -> Done<()> {
        for some in frames.chunks(AT_ONCE) {
            let (wire, sealed) = self.nats.sealed(self.nats.about(from), some)?;
            let numbers = self.acks.expect(sealed.len());
            let mut bytes = Vec::new();
            for (number, it) in numbers.clone().zip(&sealed) {
                message(&mut bytes, &self.nats.frames, Some(&self.answers(number)), it);
            }
            let sent = wire.send(&bytes);
            if sent.is_err() {
                self.acks.lose();
            }
            let kept = self.acks.wait(numbers, PATIENCE);
            sent.and(kept).trying(|| format!("to send to the stream {}", self.stream))?;
        }
        Ok(())
    }

    /// Takes the answer to a frame that was sent.
    fn take_answer(&self, answer: &Message) {
        let number = answer.subject.rsplit('.').next().and_then(|digits| digits.parse().ok());
        let refusal = match read(&answer.payload) {
            Answer::Done => None,
            Answer::Refused(_, fault) => Some(fault),
        };
        if let Some(number) = number {
            self.acks.take(number, refusal);
        }
    }
}

impl Bus for JetStream {
    fn listen(&self) -> Done<Box<dyn Ears + '_>> {
        let consumer = format!("{}-{:016x}", self.stream, Dice::fresh().draw());
        let mut wanted = self.nats.wanted(&self.inbox());
        wanted.push(format!("{} {ANSWERS}", self.answers("*")));
        let talk = self.nats.hosts.connect(&wanted, |talk| self.begin(talk, &consumer))?;
        let mut ears = JetEars { jet: self, talk, consumer, asked: Instant::now(), left: 0 };
        ears.pull()?;
        Ok(Box::new(ears))
    }

    fn renew(&self, args: &Args) -> Done<()> {
        self.nats.renew(args)
    }

    fn most(&self) -> usize {
        self.nats.most()
    }

    fn write(&self, from: &str, frames: &[Vec<u8>], re: Option<&str>) -> Done<()> {
        match re {
            None => self.keep(from, frames),
            Some(_) => self.nats.write(from, frames, re),
        }
    }

    fn show(&self, from: &str, frames: &[Vec<u8>]) -> Done<()> {
        self.nats.show(from, frames)
    }
}

impl JetEars<'_> {
    /// Asks for the next messages. The server ends a request that has waited for long by an empty message.
    fn pull(&mut self) -> Done<()> {
        let subject = format!("$JS.API.CONSUMER.MSG.NEXT.{}.{}", self.jet.stream, self.consumer);
        let words = format!(r#"{{"batch":{BATCH},"expires":{}}}"#, EXPIRES.as_nanos());
        let mut bytes = Vec::new();
        message(&mut bytes, &subject, Some(&self.jet.inbox()), words.as_bytes());
        self.talk.send(&bytes)?;
        (self.asked, self.left) = (Instant::now(), BATCH);
        Ok(())
    }

    fn take(&mut self, heard: &mut Heard, message: Message) {
        match message.sid {
            ANSWERS => self.jet.take_answer(&message),
            // A message of a consumer names the subject of its acknowledgement.
            FRAMES if message.reply.is_none() => self.left = 0,
            FRAMES => {
                self.left = self.left.saturating_sub(1);
                self.jet.nats.take(heard, message);
            }
            _ => self.jet.nats.take(heard, message),
        }
    }

    fn hear(&mut self) -> Done<Heard> {
        let messages = self.talk.read()?;
        let is_silent = messages.iter().all(|it| it.sid != FRAMES);
        if is_silent && self.asked.elapsed() > GONE {
            return Err(Fault::lost("JetStream sends nothing"));
        }
        let mut heard = Heard { at: Some(self.talk.heard), ..Heard::default() };
        messages.into_iter().for_each(|message| self.take(&mut heard, message));
        if self.left == 0 {
            self.pull()?;
        }
        Ok(heard)
    }
}

impl Ears for JetEars<'_> {
    fn read(&mut self) -> Done<Heard> {
        let heard = self.hear();
        self.talk.named(heard)
    }
}

impl Drop for JetEars<'_> {
    fn drop(&mut self) {
        self.jet.acks.lose();
    }
}

/// Reads an answer. An empty one says that nobody listens.
fn read(payload: &[u8]) -> Answer {
    let text = String::from_utf8_lossy(payload);
    if text.is_empty() {
        return Answer::Refused(0, Fault::lost("nobody answers: JetStream is off, or has no leader"));
    }
    let Some(code) = number_of(&text, "err_code") else {
        return Answer::Done;
    };
    let why = format!("JetStream: {}", text_of(&text, "description").unwrap_or(&text));
    Answer::Refused(code, if NOT_YET.contains(&code) { Fault::lost(why) } else { Fault::new(why) })
}

#[cfg(test)]
mod tests {
    use super::super::nats_address::Address;
    use super::*;
    use crate::args::Usage;
    use std::io::{BufRead, BufReader, Read, Write};
    use std::net::{TcpListener, TcpStream};
    use std::thread;

    /// A server of one client. It has no stream at first, answers a frame with those words, and gives it to the consumer.
    struct Fake {
        stream: TcpStream,
        answer: &'static str,
        /// Where the consumer's messages go to, and the subjects to which the client has published.
        next: String,
        asked: Vec<String>,
    }

    impl Fake {
        fn say(&mut self, (subject, sid, reply): (&str, u64, &str), payload: &[u8]) {
            let head = format!("MSG {subject} {sid} {reply}{}\r\n", payload.len());
            self.stream.write_all(&[head.as_bytes(), payload, b"\r\n"].concat()).unwrap();
        }

        fn take(&mut self, words: &[&str], payload: &[u8]) {
            let (subject, reply) = (words[1], words[2]);
            self.asked.push(subject.split('.').take(4).collect::<Vec<_>>().join("."));
            if subject.starts_with("$JS.API.CONSUMER.MSG.NEXT") {
                self.next = reply.to_string();
            } else if subject == "shop.frames" {
                self.say((subject, FRAMES, "$JS.ACK.shop.c.1.1.1.0.0 "), payload);
                // The request has waited for long enough.
                let next = self.next.clone();
                self.say((&next, FRAMES, ""), b"");
                self.say((reply, ANSWERS, ""), self.answer.as_bytes());
            } else if subject.starts_with("$JS.API.STREAM.INFO") {
                let none = br#"{"error":{"code":404,"err_code":10059,"description":"stream not found"}}"#;
                self.say((reply, ANSWERS, ""), none);
            } else {
                self.say((reply, ANSWERS, ""), br#"{"type":"done"}"#);
            }
        }

        /// Serves until the client has gone.
        fn serve(mut self) -> Vec<String> {
            self.stream.write_all(b"INFO {\"max_payload\":1024}\r\n").unwrap();
            let mut reader = BufReader::new(self.stream.try_clone().unwrap());
            let mut line = String::new();
            while reader.read_line(&mut line).is_ok_and(|len| len > 0) {
                let words: Vec<&str> = line.split_whitespace().collect();
                match words[0] {
                    "PING" => self.stream.write_all(b"PONG\r\n").unwrap(),
                    "PUB" => {
                        let mut payload = vec![0; words.last().unwrap().parse::<usize>().unwrap() + 2];
                        reader.read_exact(&mut payload).unwrap();
                        self.take(&words, &payload[..payload.len() - 2]);
                    }
                    _ => {}
                }
                line.clear();
            }
            self.asked
        }
    }

    /// What becomes of a frame that is sent to all, what is heard then, and what the server was asked.
    fn send(answer: &'static str) -> (Done<()>, Heard, Vec<String>) {
        let listener = TcpListener::bind("127.0.0.1:0").unwrap();
        let addr = format!("jetstream://{}/shop", listener.local_addr().unwrap());
        let server = thread::spawn(move || {
            let (stream, _) = listener.accept().unwrap();
            Fake { stream, answer, next: String::new(), asked: Vec::new() }.serve()
        });
        let usage = Usage { name: "test", help: "", options: &[], flags: &["tls-bus"] };
        let args = Args::parse(&[], &usage).unwrap();
        let address = Address::read(&addr, "squall", None).unwrap().unwrap();
        let jet = JetStream::new(Nats::new(address, &args, "secret", false).unwrap(), 1);
        let mut ears = jet.listen().unwrap();
        let (sent, heard) = thread::scope(|scope| {
            let sent = scope.spawn(|| jet.write("me", &[b"frame".to_vec()], None));
            let mut heard = ears.read().unwrap();
            while heard.frames.is_empty() || !sent.is_finished() {
                heard.frames.extend(ears.read().unwrap().frames);
            }
            (sent.join().unwrap(), heard)
        });
        drop(ears);
        (sent, heard, server.join().unwrap())
    }

    #[test]
    fn a_stream_is_made_and_keeps_frames() {
        let (sent, heard, asked) = send(r#"{"stream":"shop","seq":1}"#);
        assert!(sent.is_ok() && heard.foreign == 0);
        assert_eq!((heard.frames.len(), &heard.frames[0].frame[..]), (1, &b"frame"[..]));
        assert_eq!(heard.frames[0].from, "me");
        let begun = ["$JS.API.STREAM.INFO", "$JS.API.STREAM.CREATE", "$JS.API.CONSUMER.DURABLE"];
        assert_eq!(asked[..3], begun);
        // It is asked again once it has said that there is nothing more.
        assert_eq!(asked.iter().filter(|it| *it == "$JS.API.CONSUMER.MSG").count(), 2, "{asked:?}");
    }

    #[test]
    fn a_frame_that_is_not_taken_is_a_fault() {
        let full = r#"{"error":{"code":503,"err_code":10077,"description":"maximum messages exceeded"},"stream":"shop","seq":0}"#;
        let (sent, ..) = send(full);
        assert_eq!(
            sent.unwrap_err().to_string(),
            "to send to the stream shop: JetStream: maximum messages exceeded"
        );
    }

    #[test]
    fn answers_are_read() {
        let refused = |text: &str| match read(text.as_bytes()) {
            Answer::Done => None,
            Answer::Refused(code, fault) => Some((code, fault.is_lost())),
        };
        assert_eq!(refused(r#"{"type":"x","config":{"name":"shop"}}"#), None);
        assert_eq!(
            refused(r#"{"error":{"code":503,"err_code":10008,"description":"later"}}"#),
            Some((10_008, true))
        );
        assert_eq!(
            refused(r#"{"error":{"code":400,"err_code":10025,"description":"no"}}"#),
            Some((10_025, false))
        );
        assert_eq!(refused(""), Some((0, true)));
    }
}
