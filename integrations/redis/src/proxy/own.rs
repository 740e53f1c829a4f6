//! Connections of clients' own, and how far their tasks are.

use super::client::Client;
use super::link::{unknown, unreached};
use super::scan::Ground;
use super::serve::Flow;
use super::task::{Deed, Step, Task};
use super::upstream::{Own, State, Upstream};
use super::visit::Visit;
use super::worker::Worker;
use crate::resp::{error, push};
use std::sync::atomic::Ordering::Relaxed;
use std::sync::Arc;

/// No more connections to a partition are kept that no client has.
const MOST_SPARE: usize = 16;

/// What a task has come to.
pub enum Outcome {
    /// This is the answer.
    Answer(Vec<u8>),
    /// It waits for answers.
    Wait,
    /// It waits for time or news.
    Later,
}

impl Worker {
    /// Goes on with a client's task.
    pub(super) fn go_on_task(&mut self, at: usize, client: &mut Client) -> Flow {
        let Some(mut task) = client.task.take() else {
            return Flow::On;
        };
        let flow = match self.advance(at, client, &mut task) {
            Outcome::Wait => Flow::Idle,
            Outcome::Later => Flow::Blocked,
            Outcome::Answer(answer) => {
                if task.is_refused {
                    self.counts().waited(self.now - task.began);
                }
                if let Some(upstream) = task.upstream.filter(|_| !client.watches_on(task.upstream)) {
                    self.give_back(upstream);
                }
                if let Deed::Exec(_) = task.deed {
                    self.unwatch(client);
                }
                client.add_answer(answer);
                return Flow::On;
            }
        };
        client.task = Some(task);
        flow
    }

    fn advance(&mut self, at: usize, client: &mut Client, task: &mut Task) -> Outcome {
        if task.is_waiting() {
            return Outcome::Wait;
        }
        if task.step != Step::Idle {
            if let Some(outcome) = self.judge(client, task) {
                return outcome;
            }
        }
        if let Some(answer) = self.over(task) {
            return Outcome::Answer(answer);
        }
        if !task.is_due(self.now, self.views) {
            return Outcome::Later;
        }
        let part = match self.destination(client, task) {
            Ok(part) => part,
            Err(answer) => return Outcome::Answer(answer),
        };
        let Some(upstream) = self.own_ready((at, client.id), client, task, part) else {
            return Outcome::Later;
        };
        let (it, view) = (&self.upstreams[upstream], &self.view);
        if it.are_apart(&task.ranks, |rank| view.route(rank)) {
            return match self.apart(client, &task.ranks) {
                Err(answer) => Outcome::Answer(answer),
                Ok(_) => Outcome::Later,
            };
        }
        self.begin(client, task, upstream);
        Outcome::Wait
    }

    /// What is answered if it takes too long.
    fn over(&self, task: &Task) -> Option<Vec<u8>> {
        if self.now - task.since < self.shared.wait {
            return None;
        }
        self.counts().gave_up.fetch_add(1, Relaxed);
        let asked = task.errand.as_ref().map(|(errand, _)| errand.asked());
        let part = task.upstream.map(|at| self.upstreams[at].part).or(asked);
        let is_ready = task.upstream.is_some_and(|at| self.upstreams[at].is_ready(self.view.number()));
        Some(match part.filter(|_| !is_ready) {
            Some(part) => unreached(part),
            None => error("TRYAGAIN the keys are on their way"),
        })
    }

    /// The partition to ask, or what is answered if none can be.
    fn destination(&mut self, client: &Client, task: &mut Task) -> Result<u32, Vec<u8>> {
        match (&task.deed, &client.watch) {
            (Deed::Scan(cursor), _) => return Ok(cursor.part),
            (Deed::Names(names), _) => return Ok(names.cursor.part),
            (&Deed::Load(from) | &Deed::Visit(Visit { from, .. }), _) => {
                let part = self.ground().and_then(|ground| ground.part_from(from));
                return part.ok_or_else(|| error("TRYAGAIN a course has just begun"));
            }
            (Deed::Exec(_), Some(watch)) if watch.is_over(self.view.number()) => {
                return Err(client.nil_list());
            }
            (_, Some(watch)) if !watch.is_over(self.view.number()) && task.is_transaction() => {
                return Ok(watch.part);
            }
            _ => {}
        }
        let (view, views) = (&self.view, self.views);
        if task.errand.as_ref().is_none_or(|&(_, begun)| begun != views) {
            task.errand = view.errand(task.ranks[0]).ok().map(|errand| (errand, views));
        }
        let asked = task.errand.as_ref().map(|(errand, _)| errand.asked());
        asked.ok_or_else(|| error("ERR no partition has this key"))
    }

    /// The task's connection to a partition, if it can be used. Else it is made ready.
    fn own_ready(
        &mut self,
        owner: (usize, u64),
        client: &Client,
        task: &mut Task,
        part: u32,
    ) -> Option<usize> {
        let is_resp3 = client.is_resp3 && !task.is_read();
        let number = self.view.number();
        let watch = client.watch.as_ref().filter(|watch| task.is_transaction() && !watch.is_over(number));
        if let Some(at) = watch.and_then(|watch| watch.upstream) {
            task.upstream = Some(at);
        }
        if let Some(at) = task.upstream {
            if self.upstreams[at].part == part && self.upstreams[at].is_resp3 == is_resp3 {
                return self.ready_at(at);
            }
            if !client.watches_on(task.upstream) {
                self.give_back(at);
            }
            task.upstream = None;
        }
        let spare = self.spare.get_mut(&(part, is_resp3)).and_then(Vec::pop);
        let at = match spare {
            Some(at) => at,
            None => {
                let server = self.shared.setup.server(part)?;
                self.upstreams.push(Upstream::new(part, server, is_resp3, self.now));
                self.upstreams.len() - 1
            }
        };
        let own = self.upstreams[at].own.get_or_insert_with(Own::default);
        own.client = Some(owner);
        task.upstream = Some(at);
        self.ready_at(at)
    }

    /// Takes back a connection from its client.
    pub(super) fn give_back(&mut self, at: usize) {
        let it = &mut self.upstreams[at];
        let spare = self.spare.entry((it.part, it.is_resp3)).or_default();
        if spare.len() >= MOST_SPARE {
            it.drop_stream(self.now);
        }
        if let Some(own) = &mut it.own {
            *own = Own { skip: own.skip, ..Own::default() };
        }
        spare.push(at);
        self.enter(at);
    }

    /// Forgets which keys a connection watches.
    pub(super) fn forget_watches(&mut self, at: usize) {
        let it = &mut self.upstreams[at];
        if it.state != State::Ready {
            return;
        }
        push(&mut it.out.bytes, &["UNWATCH"]);
        if let Some(own) = &mut it.own {
            own.skip += 1;
        }
        self.mark_upstream(at);
    }

    /// Watches no key any more.
    pub(super) fn unwatch(&mut self, client: &mut Client) {
        let watch = client.watch.take();
        if let Some(at) = watch.and_then(|watch| watch.upstream) {
            self.forget_watches(at);
            self.give_back(at);
        }
    }

    /// Takes back the connections of a client that is no longer there.
    pub(super) fn abandon(&mut self, client: &mut Client) {
        if let Some(task) = client.task.take() {
            if let Some(at) = task.upstream {
                if task.step != Step::Idle {
                    self.upstreams[at].drop_stream(self.now);
                }
                if !client.watches_on(task.upstream) {
                    self.give_back(at);
                }
            }
        }
        self.unwatch(client);
    }

    /// Takes a reply on a client's own connection: whether one was due.
    pub(super) fn take_own(&mut self, at: usize, reply: &[u8]) -> bool {
        let owner = self.upstreams[at].own.as_ref().and_then(|own| own.client);
        let Some((place, id)) = owner else {
            return false;
        };
        let client = self.clients.get_mut(place).and_then(Option::as_deref_mut);
        let task = client.filter(|client| client.id == id).and_then(|client| client.task.as_mut());
        let Some(task) = task.filter(|task| task.upstream == Some(at) && task.is_waiting()) else {
            return false;
        };
        task.replies.push(reply.to_vec());
        if !task.is_waiting() {
            self.wake(place);
        }
        true
    }

    /// Tells a client that a connection of its own is lost.
    pub(super) fn lose_own(&mut self, at: usize) {
        let owner = self.upstreams[at].own.as_ref().and_then(|own| own.client);
        let Some((place, id)) = owner else {
            return;
        };
        let client = self.clients.get_mut(place).and_then(Option::as_deref_mut);
        let Some(client) = client.filter(|client| client.id == id) else {
            return;
        };
        let is_asked = client.task.as_ref().is_some_and(|task| task.upstream == Some(at));
        if let Some(task) = client.task.as_mut().filter(|_| is_asked) {
            task.is_lost = task.step != Step::Idle;
        }
        let is_watched = client.watches_on(Some(at));
        if let Some(watch) = client.watch.as_mut().filter(|_| is_watched) {
            watch.upstream = None;
        }
        if is_watched && !is_asked {
            self.give_back(at);
        }
        self.wake(place);
    }

    /// What is done about a task whose connection was lost before it had its answers.
    pub(super) fn judge_lost(&mut self, task: &mut Task, step: Step) -> Option<Outcome> {
        let part = task.upstream.map_or(0, |at| self.upstreams[at].part);
        let may_repeat =
            step == Step::Checking || matches!(task.deed, Deed::Scan(_) | Deed::Load(_)) || task.is_read();
        task.later(self.now);
        (!may_repeat).then(|| Outcome::Answer(unknown(part)))
    }

    /// The course, if it is that of the view. It is found once for each view: that looks at each move.
    pub(super) fn ground(&mut self) -> Option<Arc<Ground>> {
        if let Some((_, ground)) = self.ground.as_ref().filter(|&&(views, _)| views == self.views) {
            return Some(ground.clone());
        }
        let (course, progress) = self.shared.node.course().ok()?;
        let number = course.number();
        if number != self.view.number() {
            // The node has heard of it since the worker has looked.
            self.refresh();
        }
        if number != self.view.number() {
            return None;
        }
        let is_heard = progress.loaded == progress.moving;
        let ground = Ground::of(&course, |dest| is_heard && self.shared.tables.has_loaded(dest, number));
        let ground = Arc::new(ground);
        // Else it becomes quiet once the partitions have said so too, which no view tells.
        if ground.is_quiet == is_heard {
            self.ground = Some((self.views, ground.clone()));
        }
        Some(ground)
    }

    /// Asks all destinations how far they are that have not said that they have loaded all.
    pub(super) fn confirm_loads(&mut self, is_resp3: bool) {
        let Some(ground) = self.ground().filter(|ground| !ground.is_quiet) else {
            return;
        };
        let number = self.view.number();
        for &dest in &ground.dests {
            if !self.shared.tables.has_loaded(dest, number) {
                self.confirm(dest, is_resp3);
            }
        }
    }
}
