//! Frames over core NATS, by its text protocol. A server passes messages on, and keeps none.
//!
//! Reports go to the subject `NAME.frames`. A digest goes to `NAME.digests` and names a subject of its
//! node alone, to which the repair goes. Each message is an envelope, whose code says that this deployment has sent it.
//! `integrations/transports` has the same in Python.

use super::carrier::{Bus, Ears};
use super::entry::{Entry, Heard};
use super::nats_address::Address;
use super::nats_link::{Hosts, Talk};
use super::nats_text::{message, Message};
use super::seal::{About, Seal, HEAD};
use super::wire::Wire;
use crate::args::Args;
use crate::dice::Dice;
use crate::fault::{Done, Trying};
use crate::log;
use std::sync::Arc;

/// The numbers of the subscriptions.
pub const FRAMES: u64 = 1;
const DIGESTS: u64 = 2;
const REPAIRS: u64 = 3;

/// A bus of NATS servers.
pub struct Nats {
    pub(super) hosts: Hosts,
    /// The deployment's name, with which the subjects begin.
    pub(super) name: String,
    pub(super) frames: String,
    digests: String,
    /// The queue group of digests; none if each of them is to be heard.
    group: String,
    /// The subject to which repairs for this node go.
    pub(super) inbox: String,
    seal: Seal,
}

/// The connection, which hears all.
struct NatsEars<'a> {
    nats: &'a Nats,
    talk: Talk<'a>,
}

impl Nats {
    /// The bus of an address, with the words of the command line that say how to connect by TLS.
    ///
    /// # Errors
    ///
    /// A file of certificates or keys can't be read, or `--keep-alive` is wrong.
    pub fn new(address: Address, args: &Args, secret: &str, hears_all: bool) -> Done<Nats> {
        let mut dice = Dice::fresh();
        let Address { servers, name, login, is_secure, .. } = address;
        Ok(Nats {
            hosts: Hosts::new(servers, login, is_secure, args)?,
            frames: format!("{name}.frames"),
            digests: format!("{name}.digests"),
            seal: Seal::new(secret, &name),
            group: if hears_all { String::new() } else { name.clone() },
            inbox: format!("_INBOX.{:016x}{:016x}", dice.draw(), dice.draw()),
            name,
        })
    }

    /// The subscriptions, each as `SUBJECT [GROUP] NUMBER`. Frames come at that subject.
    pub(super) fn wanted(&self, frames: &str) -> Vec<String> {
        vec![
            format!("{frames} {FRAMES}"),
            format!("{} {} {DIGESTS}", self.digests, self.group),
            format!("{} {REPAIRS}", self.inbox),
        ]
    }

    /// What says of frames to all nodes who has sent them.
    pub(super) fn about<'a>(&'a self, from: &'a str) -> About<'a> {
        About { place: &self.frames, from, re: None }
    }

    /// The connection, and each frame as the bytes of a message. A frame that is longer than the server takes would end the
    /// connection: it is left out, and said.
    pub(super) fn sealed(&self, about: About, frames: &[Vec<u8>]) -> Done<(Arc<Wire>, Vec<Vec<u8>>)> {
        let (wire, most) = self.hosts.link()?;
        let sealed = frames.iter().map(|frame| self.seal.envelope(about, frame));
        let (fit, long): (Vec<_>, Vec<_>) = sealed.partition(|bytes| bytes.len() <= most);
        for bytes in long {
            let len = bytes.len();
            log::warn(format!("bus: a message of {len} bytes is not sent: the server takes {most}"));
        }
        Ok((wire, fit))
    }

    /// Publishes each frame as a message. A server that is not connected to is waited for.
    fn publish(&self, about: About, frames: &[Vec<u8>]) -> Done<()> {
        let (wire, sealed) = self.sealed(about, frames)?;
        let mut bytes = Vec::new();
        sealed.iter().for_each(|it| message(&mut bytes, about.place, about.re, it));
        wire.send(&bytes).trying(|| "to send to the bus".to_string())
    }

    /// Takes a message by its subscription. The reply of a digest is its id; that of a frame is no matter of others.
    pub(super) fn take(&self, heard: &mut Heard, message: Message) {
        let Message { sid, reply, payload, .. } = message;
        let (place, re) = match sid {
            FRAMES => (&self.frames, None),
            DIGESTS => (&self.digests, reply),
            _ => (&self.inbox, None),
        };
        let Some((from, frame)) = self.seal.open(place, re.as_deref(), &payload) else {
            heard.foreign += 1;
            return;
        };
        let (from, frame, is_digest) = (from.to_string(), frame.to_vec(), re.is_some());
        let entry = Entry { id: re.unwrap_or_default(), from, frame, re: None };
        if is_digest {
            heard.digests.push(entry);
        } else if sid != DIGESTS {
            heard.frames.push(entry);
        }
    }
}

impl Bus for Nats {
    fn listen(&self) -> Done<Box<dyn Ears + '_>> {
        let talk = self.hosts.connect(&self.wanted(&self.frames), |_| Ok(()))?;
        Ok(Box::new(NatsEars { nats: self, talk }))
    }

    fn renew(&self, args: &Args) -> Done<()> {
        self.hosts.renew(args)
    }

    fn most(&self) -> usize {
        self.hosts.most().saturating_sub(HEAD)
    }

    fn write(&self, from: &str, frames: &[Vec<u8>], re: Option<&str>) -> Done<()> {
        let about = self.about(from);
        self.publish(About { place: re.unwrap_or(about.place), ..about }, frames)
    }

    fn show(&self, from: &str, frames: &[Vec<u8>]) -> Done<()> {
        self.publish(About { place: &self.digests, from, re: Some(&self.inbox) }, frames)
    }
}

impl Ears for NatsEars<'_> {
    fn read(&mut self) -> Done<Heard> {
        let messages = self.talk.read();
        let messages = self.talk.named(messages)?;
        let mut heard = Heard { at: Some(self.talk.heard), ..Heard::default() };
        messages.into_iter().for_each(|message| self.nats.take(&mut heard, message));
        Ok(heard)
    }
}

#[cfg(test)]
mod tests {
    use super::*;
    use crate::args::Usage;

    /// A bus over these servers.
    pub fn bus(addr: &str) -> Nats {
        let usage = Usage { name: "test", help: "", options: &[], flags: &["tls-bus"] };
        let args = Args::parse(&[], &usage).unwrap();
        let address = Address::read(addr, "squall", None).unwrap().unwrap();
        Nats::new(address, &args, "secret", false).unwrap()
    }

    #[test]
    fn each_server_is_tried_before_it_is_said() {
        let nats = bus("nats://127.0.0.1:1,127.0.0.1:2");
        let fault = || nats.listen().err().unwrap().to_string();
        let said = fault();
        assert!(said.starts_with("127.0.0.1:1: ") && said.contains(", 127.0.0.1:2: "), "{said}");
        assert_eq!(said, fault());
    }

    #[test]
    fn messages_are_taken_by_their_subscription() {
        let nats = bus("nats://127.0.0.1:1");
        let message = |sid, place: &str, re: Option<&str>, reply: Option<&str>| {
            let payload = nats.seal.envelope(About { place, from: "other", re }, b"frame");
            Message { subject: String::new(), sid, reply: reply.map(String::from), payload }
        };
        let mut heard = Heard::default();
        // A stream of JetStream may answer who has sent a frame.
        nats.take(&mut heard, message(FRAMES, "squall.frames", None, Some("_INBOX.ack")));
        nats.take(&mut heard, message(DIGESTS, "squall.digests", Some("_INBOX.7"), Some("_INBOX.7")));
        nats.take(&mut heard, message(REPAIRS, &nats.inbox, None, None));
        let said = (heard.frames.len(), heard.digests[0].id.as_str(), heard.foreign);
        assert_eq!(said, (2, "_INBOX.7", 0));
        // To another subject, with another reply, and a digest without any.
        nats.take(&mut heard, message(FRAMES, "squall.digests", None, None));
        nats.take(&mut heard, message(DIGESTS, "squall.digests", Some("_INBOX.7"), Some("_INBOX.8")));
        nats.take(&mut heard, message(DIGESTS, "squall.digests", None, None));
        assert_eq!((heard.frames.len(), heard.digests.len(), heard.foreign), (2, 1, 2));
    }
}
