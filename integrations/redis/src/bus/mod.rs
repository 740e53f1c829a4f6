//! What routers send each other, over a Redis server: frames on one stream, digests on another. Or over
//! NATS, PostgreSQL or etcd. Each of them is sealed, so that nobody else's is taken for one.
//!
//! A stream is trimmed, its server may lose its end, and a reader may miss any of it. NATS keeps nothing
//! at all; JetStream, PostgreSQL and etcd keep the frames. So each node shows a digest of what it knows once
//! a second, and a node that knows more answers with a repair. The answer waits a short time by chance. If
//! another node answers first, it is dropped.

mod acks;
mod address;
mod agenda;
mod carrier;
mod entry;
mod etcd;
mod etcd_link;
mod jetstream;
mod nats;
mod nats_address;
mod nats_link;
mod nats_text;
mod node;
mod outbox;
mod peers;
mod postgres;
mod postgres_link;
mod reach;
mod redis;
mod scram;
mod seal;
mod servers;
mod wire;

pub use node::{Counts, Node, Options};
pub use outbox::report;
