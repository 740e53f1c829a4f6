//! Where requests go, and what becomes of those that a partition refuses.

use super::client::{Chase, Client, Diverted};
use super::deeds::is_fence;
use super::link::unreached;
use super::pages;
use super::plan::Plan;
use super::roles::Standing;
use super::upstream::{Due, InFlight};
use super::worker::Worker;
use crate::faults;
use crate::resp::error;
use squall::{Next, Reply};
use std::sync::atomic::Ordering::Relaxed;
use std::time::Duration;

/// The pause before a key that is on its way is asked for again, at first and at most. News end it.
const FIRST: Duration = Duration::from_millis(2);
const LAST: Duration = Duration::from_millis(50);
/// What is answered instead of a page that is none, or has too large a cursor.
const ODD: &str = "ERR the partition's page is of another form";

/// The connection of each request, and whether it is sent by the guard.
pub enum Targets {
    /// Of a command with one request.
    One([(usize, bool); 1]),
    /// Of a command that is split.
    Many(Vec<(usize, bool)>),
    /// A connection of the client's own.
    Own,
}

impl Targets {
    /// All of them.
    pub fn as_slice(&self) -> &[(usize, bool)] {
        match self {
            Targets::One(one) => one,
            Targets::Many(many) => many,
            Targets::Own => &[],
        }
    }
}

/// What a partition answered to a request.
pub enum Said {
    /// This is the answer.
    Answer,
    /// It lets this proxy in no longer, or was asked by the number of another course.
    Fenced,
    /// The keys are elsewhere, or on their way.
    Elsewhere(Reply),
    /// Only some of the keys are there.
    Split,
}

impl Worker {
    /// The target of each request of a command; none if one has to wait. An error if its keys are at
    /// several partitions and it can't be split.
    pub(super) fn targets(&mut self, client: &Client, plan: &Plan) -> Result<Option<Targets>, Vec<u8>> {
        if plan.len() == 1 {
            let target = self.target(client, plan, 0)?;
            let is_own = |is_guarded| is_guarded && !plan.may_be_guarded(client.is_resp3);
            return Ok(
                target.map(|target| if is_own(target.1) { Targets::Own } else { Targets::One([target]) })
            );
        }
        let mut targets = Vec::with_capacity(plan.len());
        for part in 0..plan.len() {
            match self.target(client, plan, part)? {
                Some(target) => targets.push(target),
                None => return Ok(None),
            }
        }
        Ok(Some(Targets::Many(targets)))
    }

    fn target(
        &mut self,
        client: &Client,
        plan: &Plan,
        part: usize,
    ) -> Result<Option<(usize, bool)>, Vec<u8>> {
        let ranks = plan.ranks(part);
        let Some(asked) = self.view.route(ranks[0]) else {
            return Err(error("ERR no partition has this key"));
        };
        let Some(at) = self.ready(asked, client.is_resp3) else {
            return Ok(None);
        };
        let mut is_guarded = false;
        for &rank in ranks {
            let standing = self.upstreams[at].table.standing(rank);
            is_guarded |= standing != Standing::Stays && !plan.is_free();
            if self.view.route(rank) != Some(asked) {
                return self.apart(client, ranks);
            }
            if standing == Standing::Comes && is_guarded {
                self.confirm(asked, client.is_resp3);
            }
        }
        if faults::is_on("never-guard") {
            is_guarded = false;
        }
        Ok(Some((at, is_guarded)))
    }

    /// What is answered to a command whose keys are at several partitions: they may be on their way to
    /// one.
    pub(super) fn apart(
        &mut self,
        client: &Client,
        ranks: &[squall::Rank],
    ) -> Result<Option<(usize, bool)>, Vec<u8>> {
        let mut are_moving = false;
        for &rank in ranks {
            let part = self.view.route(rank).unwrap_or_default();
            match self.ready(part, client.is_resp3) {
                Some(at) => are_moving |= self.upstreams[at].role(rank).is_some(),
                None => return Ok(None),
            }
        }
        Err(error(if are_moving {
            "TRYAGAIN the keys are at several partitions, and some of them move"
        } else {
            "CROSSSLOT the keys are at several partitions"
        }))
    }

    /// Takes the reply to a request.
    pub(super) fn answered(&mut self, at: usize, sent: InFlight, reply: &[u8]) {
        if reply.first() != Some(&b'-') {
            let exact = reply.strip_prefix(b"+SQUALL INT ").filter(|_| sent.is_guarded);
            let page = if sent.is_page { pages::answer(reply, self.upstreams[at].part) } else { None };
            return match (exact, page) {
                (Some(number), _) => self.deliver(&sent, &[b":", number].concat()),
                (_, Some(page)) => self.deliver(&sent, &page),
                (None, None) if sent.is_page => self.deliver(&sent, &error(ODD)),
                (None, None) => self.deliver(&sent, reply),
            };
        }
        match read(reply, sent.is_guarded) {
            Said::Answer => self.deliver(&sent, reply),
            said => self.divert(at, sent, said),
        }
    }

    /// Keeps a request that was refused, for an errand.
    fn divert(&mut self, at: usize, sent: InFlight, said: Said) {
        let upstream = &mut self.upstreams[at];
        let part = upstream.part;
        if let Said::Fenced = said {
            // It logs in again once nothing is in flight.
            upstream.number = 0;
            self.shared.node.ask();
        }
        self.count(&said);
        let now = self.now;
        let Some(client) = self.client_of(&sent) else {
            return;
        };
        client.in_flight -= 1;
        client.guarded -= usize::from(sent.is_guarded && !sent.is_chased);
        if sent.is_chased {
            heed(client, said, now);
        } else {
            let said = match said {
                Said::Elsewhere(reply) => Some((part, reply)),
                _ => None,
            };
            client.diverted.push(Diverted { seq: sent.seq, part: sent.part, said });
        }
        self.wake(sent.client);
    }

    pub(super) fn count(&self, said: &Said) {
        let counts = self.counts();
        let counter = match said {
            Said::Elsewhere(Reply::Moved { .. }) => &counts.moved,
            Said::Fenced => &counts.fenced,
            _ => &counts.pending,
        };
        counter.fetch_add(1, Relaxed);
    }

    /// Gives a client the answer to a request.
    pub(super) fn deliver(&mut self, sent: &InFlight, reply: &[u8]) {
        let now = self.now;
        let Some(client) = self.client_of(sent) else {
            return;
        };
        client.in_flight -= 1;
        client.guarded -= usize::from(sent.is_guarded && !sent.is_chased);
        client.answer(sent.seq, sent.part, reply);
        if sent.is_chased {
            client.diverted.remove(0);
            if let Some(chase) = client.chase.take() {
                self.counts().waited(now - chase.since);
            }
        }
        self.wake(sent.client);
    }

    /// Goes on with the first request that was refused, while nothing of the client is in flight:
    /// whether it was sent. If not, it waits, or was answered and is the first one no longer.
    pub(super) fn follow(&mut self, at: usize, client: &mut Client) -> bool {
        if client.chase.is_none() {
            client.diverted.sort_by_key(|it| (it.seq, it.part));
        }
        let first = &client.diverted[0];
        let (seq, part) = (first.seq, first.part);
        let rank = client.with(seq, |plan, _, _| plan.ranks(part as usize)[0]);
        let Some(rank) = rank else {
            client.diverted.remove(0);
            return false;
        };
        self.renew(client, rank);
        let Some(chase) = client.chase.as_ref() else {
            return false;
        };
        if self.now - chase.since > self.shared.wait {
            client.chase = None;
            client.diverted.remove(0);
            self.counts().gave_up.fetch_add(1, Relaxed);
            let late = error("TRYAGAIN the key is on its way");
            let down = self.unready(&[rank], client.is_resp3_of(seq));
            client.answer(seq, part, &down.map_or(late, unreached));
            return false;
        }
        if self.now < chase.again {
            return false;
        }
        let asked = chase.errand.asked();
        let Some(upstream) = self.ready(asked, client.is_resp3_of(seq)) else {
            return false;
        };
        if let Some(answer) = self.apart_of(client, (seq, part), upstream) {
            client.chase = None;
            client.diverted.remove(0);
            client.answer(seq, part, &answer);
            return false;
        }
        self.send_chased((at, upstream), client, (seq, part))
    }

    /// What is answered to a request if one of its keys can't come to the partition that is asked: only
    /// some of its keys have moved.
    fn apart_of(&self, client: &Client, (seq, part): (u64, u32), upstream: usize) -> Option<Vec<u8>> {
        let ranks = client.with(seq, |plan, _, _| plan.ranks(part as usize).to_vec())?;
        let (to, view) = (&self.upstreams[upstream], &self.view);
        let are_apart = to.are_apart(&ranks, |rank| view.route(rank));
        are_apart.then(|| error("TRYAGAIN the keys are at several partitions, and some of them move"))
    }

    /// Begins the errand of a request. It is begun anew if its key is routed to another partition, or
    /// if it has ended without the key. If its key is routed to the partition that it asks, that one is
    /// asked at once.
    fn renew(&self, client: &mut Client, rank: squall::Rank) {
        let (routed, number) = (self.view.route(rank), self.view.number());
        let said = client.diverted[0].said;
        let mut since = self.now;
        if let Some(chase) = client.chase.as_mut() {
            let is_news = chase.number != number || chase.routed != routed;
            if is_news && !chase.is_lost && chase.number == number && routed == Some(chase.errand.asked()) {
                chase.routed = routed;
                chase.again = self.now;
                return;
            }
            let is_over = chase.is_lost && self.now >= chase.again;
            if !is_news && !is_over {
                return;
            }
            since = chase.since;
        }
        let Ok(mut errand) = self.view.errand(rank) else {
            return;
        };
        // What the partition has said already need not be asked again.
        if let Some((part, reply)) = said.filter(|_| client.chase.is_none()) {
            if errand.asked() == part {
                let _ = errand.heed(reply);
            }
        }
        let pause = client.chase.as_ref().map_or(FIRST, |chase| chase.pause);
        client.chase = Some(Chase { errand, is_lost: false, routed, number, since, again: self.now, pause });
    }

    /// Sends a request that was refused to the partition that its errand names.
    fn send_chased(
        &mut self,
        (at, upstream): (usize, usize),
        client: &mut Client,
        (seq, part): (u64, u32),
    ) -> bool {
        let to = &mut self.upstreams[upstream];
        let (id, is_resp3) = (client.id, client.is_resp3_of(seq));
        let sent_as = client.with(seq, |plan, words, len| {
            let part = (part as usize, to.part);
            let stays = |&rank: &squall::Rank| to.table.standing(rank) == Standing::Stays;
            let is_plain = plan.is_free() || plan.ranks(part.0).iter().all(stays);
            if is_plain {
                plan.put(&mut to.out.bytes, part, words, len);
            } else if plan.may_be_guarded(is_resp3) {
                plan.put_guarded(&mut to.out.bytes, part, words, (to.number, is_resp3));
            } else {
                return None;
            }
            Some((!is_plain, plan.is_page()))
        });
        let Some((is_guarded, is_page)) = sent_as.flatten() else {
            return false;
        };
        let sent = InFlight { client: at, id, seq, part, is_guarded, is_chased: true, is_page };
        to.expect(Due::Request(sent), self.now);
        client.in_flight += 1;
        self.mark_upstream(upstream);
        true
    }
}

/// What an errand does after a reply.
fn heed(client: &mut Client, said: Said, now: std::time::Instant) {
    let Some(chase) = client.chase.as_mut() else {
        return;
    };
    let next = match said {
        Said::Elsewhere(reply) => chase.errand.heed(reply),
        _ => Ok(Next::Again(0)),
    };
    if let Ok(Next::Ask(_)) = next {
        chase.again = now;
        return;
    }
    chase.is_lost = !matches!(next, Ok(Next::Again(_)));
    chase.again = now + chase.pause;
    chase.pause = (chase.pause * 2).min(LAST);
}

/// What an error says: the partition's own words come of guarded requests alone.
pub fn read(reply: &[u8], is_guarded: bool) -> Said {
    if is_fence(reply) {
        return Said::Fenced;
    }
    let line = reply.strip_prefix(b"-SQUALL ").filter(|_| is_guarded);
    let Some(line) = line.and_then(|line| std::str::from_utf8(line).ok()) else {
        return Said::Answer;
    };
    let words: Vec<&str> = line.trim_end().split(' ').collect();
    let number = |at: usize| words.get(at).and_then(|word| word.parse().ok());
    match (words[0], number(1), number(2)) {
        ("MOVED", Some(dest), Some(number)) => Said::Elsewhere(Reply::Moved { dest, number }),
        ("PENDING", Some(source), _) => Said::Elsewhere(Reply::Pending { source }),
        ("ELSEWHERE", Some(dest), _) => Said::Elsewhere(Reply::Elsewhere { dest }),
        ("COURSE", ..) => Said::Fenced,
        ("SPLIT", ..) => Said::Split,
        _ => Said::Answer,
    }
}
