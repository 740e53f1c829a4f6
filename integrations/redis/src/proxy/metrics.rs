//! What all workers of a proxy share, and how Prometheus reads what they count.

use super::counts::{add_kinds, add_waits, sum, Counts};
use super::info;
use super::memory::Bound;
use super::roles::Tables;
use super::session::Cards;
use super::setup::Setup;
use super::watch::Watch;
use crate::bus::Node;
use crate::fault::Done;
use crate::keep_alive::KeepAlive;
use crate::metrics::{add_counters, add_gauges, add_partitions, of_bus, of_course, Number};
use mio::net::TcpStream;
use std::collections::BTreeSet;
use std::fmt::Write as _;
use std::sync::atomic::{AtomicBool, AtomicU64, AtomicUsize, Ordering::Relaxed};
use std::sync::{Arc, Mutex};
use std::time::{Duration, Instant};

/// A proxy is not ready if the bus has said nothing for longer.
const SILENCE: Duration = Duration::from_secs(5);

/// What all workers of a proxy share.
pub struct Shared {
    /// The node of the bus.
    pub node: Arc<Node>,
    /// The partitions, the users of clients, and certificates.
    pub setup: Setup,
    /// The password of the users squall-N.
    pub secret: String,
    /// The password of the user who reads what partitions keep of their course.
    pub reader: String,
    /// The ranges of the plan of course 1.
    pub first: String,
    /// How long a command may wait.
    pub wait: Duration,
    /// How long a partition may take for an answer.
    pub answer: Duration,
    /// The clients.
    pub cards: Cards,
    /// When a client that is silent is probed.
    pub keep_alive: KeepAlive,
    /// How many bytes a client may hold.
    pub memory: usize,
    /// How many bytes all clients may hold.
    pub bound: Bound,
    /// How partitions take part in the course.
    pub tables: Tables,
    /// What was seen of the partitions.
    pub watch: Watch,
    /// The port at which clients connect.
    pub port: u16,
    /// How many clients are let in, how many there are, and how many there were.
    pub most_clients: usize,
    pub clients: AtomicUsize,
    pub connections: AtomicU64,
    /// Whether the proxy ends.
    pub is_ending: AtomicBool,
    /// Clients that have come, for each worker.
    pub arrivals: Vec<Mutex<Vec<TcpStream>>>,
    /// What each worker has counted.
    pub counts: Vec<Counts>,
    /// When the proxy began.
    pub began: Instant,
}

impl Shared {
    fn sum(&self, of: impl Fn(&Counts) -> &AtomicU64) -> u64 {
        sum(&self.counts, of)
    }

    fn counters(&self) -> Vec<Number> {
        let mut all = self.worker_counters();
        all.extend(of_bus(&self.node));
        all
    }

    fn worker_counters(&self) -> Vec<Number> {
        vec![
            ("commands", "commands of clients", self.sum(|it| &it.commands)),
            ("refused", "commands that are not served", self.sum(|it| &it.refused)),
            ("moved", "replies that name another partition", self.sum(|it| &it.moved)),
            ("pending", "replies that a key is on its way", self.sum(|it| &it.pending)),
            ("fenced", "replies that a partition is in another course", self.sum(|it| &it.fenced)),
            ("logins", "log-ins at partitions", self.sum(|it| &it.logins)),
            ("connections_lost", "lost connections to partitions", self.sum(|it| &it.lost)),
            ("gave_up", "commands that waited too long", self.sum(|it| &it.gave_up)),
            (
                "held_back",
                "clients from which no more was read for want of memory",
                self.sum(|it| &it.held_back),
            ),
            ("evicted", "clients that were closed for want of memory", self.sum(|it| &it.evicted)),
            ("too_large", "answers that were larger than a client may hold", self.sum(|it| &it.too_large)),
            ("messages", "messages of channels that clients were given", self.sum(|it| &it.messages)),
        ]
    }

    /// What `INFO` says of the proxy.
    pub fn own_info(&self) -> info::Own {
        info::Own {
            port: self.port,
            uptime: self.began.elapsed().as_secs(),
            clients: self.clients.load(Relaxed),
            most_clients: self.most_clients,
            connections: self.connections.load(Relaxed),
            commands: self.sum(|it| &it.commands),
            course: self.node.view().0.number(),
        }
    }

    /// The counters in one line, for `SQUALL INFO`.
    pub fn info(&self) -> String {
        let (view, views) = self.node.view();
        let mut text =
            format!("course {} views {views} clients {}", view.number(), self.clients.load(Relaxed));
        for (name, _, value) in self.counters() {
            let _ = write!(text, " {name} {value}");
        }
        text + " node " + self.node.name()
    }

    /// Why this proxy can't serve all keys now, or can't be sure that it will soon: a line for each reason.
    ///
    /// # Errors
    ///
    /// There is no memory.
    pub fn hindrances(&self) -> Done<Vec<String>> {
        let mut all = Vec::new();
        if self.is_ending.load(Relaxed) {
            all.push("this proxy ends".to_string());
        }
        let silence = self.node.silence();
        if !self.node.has_heard() {
            all.push("the bus was not heard yet".to_string());
        } else if silence > SILENCE {
            all.push(format!("the bus has said nothing for {} s", silence.as_secs()));
        }
        let (course, _) = self.node.course()?;
        let legs = course.old_plan().into_iter().chain(course.new_plan());
        let states = self.watch.states();
        for part in legs.map(|leg| leg.part).collect::<BTreeSet<_>>() {
            match states.get(&part) {
                None => {
                    all.push(format!("partition {part} has no address: --part {part}=HOST:PORT is missing"))
                }
                Some(why) => all.extend(why.iter().map(|why| format!("partition {part} {why}"))),
            }
        }
        Ok(all)
    }

    /// All that Prometheus reads.
    ///
    /// # Errors
    ///
    /// There is no memory.
    pub fn metrics(&self) -> Done<String> {
        let mut page = String::new();
        add_counters(&mut page, &self.counters());
        add_gauges(&mut page, &of_course(&self.node)?);
        let gauges = [
            ("clients", "clients", self.clients.load(Relaxed) as u64),
            ("memory_bytes", "bytes of commands and answers that are held", self.bound.held() as u64),
            ("uptime_seconds", "seconds since the program began", self.began.elapsed().as_secs()),
        ];
        add_gauges(&mut page, &gauges);
        add_partitions(&mut page, self.watch.states().into_iter().map(|(part, why)| (part, why.is_none())));
        add_kinds(&mut page, &self.counts);
        add_waits(&mut page, &self.counts);
        Ok(page)
    }
}
