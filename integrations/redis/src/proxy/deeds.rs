//! What tasks ask of partitions, and what the answers mean.

use super::client::Client;
use super::follow::{read, Said};
use super::own::Outcome;
use super::roles::Standing;
use super::scan::{Cursor, Known, Page};
use super::task::{Deed, Step, Task, Watch};
use super::worker::Worker;
use crate::faults;
use crate::keymap;
use crate::resp::{error, push};
use squall::Next;
use std::sync::atomic::Ordering::Relaxed;
use std::time::Instant;

impl Worker {
    /// Asks a partition for the first time, or again.
    pub(super) fn begin(&mut self, client: &Client, task: &mut Task, at: usize) {
        let (view, it) = (&self.view, &self.upstreams[at]);
        let standing = it.standing(&task.ranks, |rank| view.route(rank));
        if standing == Standing::Comes {
            self.confirm(it.part, it.is_resp3);
        }
        let is_plain = standing == Standing::Stays || faults::is_on("never-guard");
        match &task.deed {
            Deed::Scan(_) | Deed::Names(_) | Deed::Visit(_) => {
                self.confirm_loads(client.is_resp3);
                self.ask_plain(client, task, at);
            }
            Deed::Load(_) => self.ask_plain(client, task, at),
            Deed::Wait(wait) if is_plain && !wait.ids.are_open() => self.ask_plain(client, task, at),
            Deed::Exec(_) | Deed::One | Deed::Wait(_) if is_plain => self.ask_to_do(client, task, at),
            _ => self.ask_where(client, task, at),
        }
    }

    /// Notes that so many answers are due on a connection.
    fn expect_own(&mut self, task: &mut Task, at: usize, step: Step, due: (usize, Option<Instant>)) {
        (task.step, task.again) = (step, self.now);
        task.replies.clear();
        task.due = due.0;
        let it = &mut self.upstreams[at];
        it.progress = self.now;
        if let Some(own) = &mut it.own {
            own.is_held = true;
            own.due = due.1;
        }
        self.mark_upstream(at);
    }

    /// Watches what says where keys are, or the keys themselves, and asks whether these are there.
    fn ask_where(&mut self, client: &Client, task: &mut Task, at: usize) {
        let it = &mut self.upstreams[at];
        let mut watched: Vec<&[u8]> = vec![b"WATCH"];
        let words = client.words();
        if let Deed::Watch = task.deed {
            watched.extend((1..words.count()).map(|at| words.at(at)));
        } else {
            watched.extend([&b"squall:number"[..], b"squall:edge"]);
        }
        push(&mut it.out.bytes, &watched);
        let head = ["FCALL", "squall_check", "0"].map(String::from);
        let ranks = task.ranks.iter().map(|&rank| keymap::hex(rank));
        let all: Vec<String> = head.into_iter().chain([it.number.to_string()]).chain(ranks).collect();
        push(&mut it.out.bytes, &all);
        let until = self.now + self.shared.answer;
        self.expect_own(task, at, Step::Checking, (2, Some(until)));
    }

    /// Asks to do all in one piece.
    fn ask_to_do(&mut self, client: &Client, task: &mut Task, at: usize) {
        let out = &mut self.upstreams[at].out.bytes;
        push(out, &["MULTI"]);
        let count = match &task.deed {
            Deed::Exec(queue) => {
                out.extend_from_slice(&queue.bytes);
                queue.count
            }
            Deed::Wait(wait) if wait.ids.are_open() => wait.ids.ask(client.words(), out),
            Deed::Wait(wait) => {
                push(out, &wait.ids.words(client.words()));
                1
            }
            _ => {
                out.extend_from_slice(&client.words().bytes[..client.parser.len()]);
                1
            }
        };
        push(out, &["EXEC"]);
        let until = self.now + self.shared.answer;
        self.expect_own(task, at, Step::Doing, (count + 2, Some(until)));
    }

    /// Asks by a plain command, or by several. One that waits does so until its end.
    fn ask_plain(&mut self, client: &Client, task: &mut Task, at: usize) {
        let (words, out) = (client.words(), &mut self.upstreams[at].out.bytes);
        let (mut due, mut until) = (1, Some(self.now));
        match &task.deed {
            Deed::Scan(cursor) => {
                let mut all = words.all();
                all[1] = cursor.at.to_string().into_bytes();
                push(out, &all);
            }
            Deed::Names(names) => names.ask(out),
            Deed::Visit(visit) => due = visit.ask(out),
            Deed::Wait(wait) => {
                push(out, &wait.words(words, self.now));
                until = wait.until.map(|until| until.max(self.now));
            }
            _ => push(out, &words.all()),
        }
        let until = until.map(|until| until + self.shared.answer);
        self.expect_own(task, at, Step::Asking, (due, until));
    }

    /// What the answers mean; none if the partition is to be asked again, or another one.
    pub(super) fn judge(&mut self, client: &mut Client, task: &mut Task) -> Option<Outcome> {
        let step = std::mem::replace(&mut task.step, Step::Idle);
        if std::mem::take(&mut task.is_lost) {
            return self.judge_lost(task, step);
        }
        let at = task.upstream?;
        let is_watched = client.watches_on(Some(at));
        if let Some(own) = &mut self.upstreams[at].own {
            (own.is_held, own.due) = (is_watched, None);
        }
        let replies = std::mem::take(&mut task.replies);
        match step {
            Step::Checking => self.judge_check(client, task, &replies),
            Step::Doing => self.judge_done(client, task, &replies),
            _ if matches!(task.deed, Deed::Visit(_)) => self.judge_visit(client, task, &replies),
            _ => self.judge_asked(task, &replies[0]),
        }
    }

    /// Whether the keys are there.
    fn judge_check(&mut self, client: &mut Client, task: &mut Task, replies: &[Vec<u8>]) -> Option<Outcome> {
        let at = task.upstream?;
        let Some(refusal) = replies.iter().find(|reply| reply.first() == Some(&b'-')) else {
            if !matches!(task.deed, Deed::Watch) {
                self.ask_to_do(client, task, at);
                return Some(Outcome::Wait);
            }
            self.note_watch(client, task, at);
            return Some(Outcome::Answer(b"+OK\r\n".to_vec()));
        };
        let is_watched = client.watches_on(Some(at));
        if let Some(watch) = client.watch.as_mut().filter(|_| is_watched) {
            // What was watched here may change elsewhere.
            watch.is_broken = true;
            return Some(Outcome::Answer(match task.deed {
                Deed::Watch => b"+OK\r\n".to_vec(),
                _ => client.nil_list(),
            }));
        }
        self.forget_watches(at);
        match read(refusal, true) {
            Said::Answer => return Some(Outcome::Answer(refusal.clone())),
            Said::Fenced => self.fenced(task, at),
            said => self.heed_own(task, said),
        }
        None
    }

    fn note_watch(&mut self, client: &mut Client, task: &Task, at: usize) {
        let it = &mut self.upstreams[at];
        if let Some(own) = &mut it.own {
            own.is_held = true;
        }
        let (part, number) = (it.part, it.number);
        let watch = client.watch.get_or_insert_with(|| Watch {
            upstream: Some(at),
            part,
            number,
            ranks: Vec::new(),
            is_broken: false,
        });
        watch.ranks.extend(&task.ranks);
    }

    /// The partition lets this proxy in no longer: the connection logs in anew.
    pub(super) fn fenced(&mut self, task: &mut Task, at: usize) {
        self.counts().fenced.fetch_add(1, Relaxed);
        self.upstreams[at].number = 0;
        self.shared.node.ask();
        task.later(self.now);
    }

    /// The keys are elsewhere, or on their way.
    fn heed_own(&mut self, task: &mut Task, said: Said) {
        self.count(&said);
        task.later(self.now);
        let Said::Elsewhere(reply) = said else {
            return;
        };
        match task.errand.as_mut().map(|(errand, _)| errand.heed(reply)) {
            Some(Ok(Next::Ask(_))) => task.again = self.now,
            Some(Ok(Next::Again(_))) => {}
            _ => task.errand = None,
        }
    }

    /// Whether it was done in one piece.
    fn judge_done(&mut self, client: &mut Client, task: &mut Task, replies: &[Vec<u8>]) -> Option<Outcome> {
        let at = task.upstream?;
        let (done, queued) = replies.split_last()?;
        let is_watched = client.watches_on(Some(at));
        let refusal = refusal(queued, done);
        let is_fenced = is_fence(refusal.unwrap_or(done)) || is_fence(element(done));
        if is_fenced || is_nil(done) {
            if is_watched {
                return Some(Outcome::Answer(client.nil_list()));
            }
            if is_fenced {
                self.fenced(task, at);
            }
            // Else keys were given since it was asked where they are: it is asked again.
            return None;
        }
        let asked_at = task.again;
        match (&mut task.deed, refusal) {
            (Deed::Exec(_), _) => Some(Outcome::Answer(with_reason(queued, done))),
            (_, Some(refusal)) => Some(Outcome::Answer(refusal.to_vec())),
            (Deed::Wait(wait), _) if wait.ids.are_open() => {
                let taken = wait.ids.take(done);
                task.go_on(self.now);
                taken.err().map(Outcome::Answer)
            }
            (Deed::Wait(wait), _) if is_nil(element(done)) => {
                // It was looked for after the end of the wait.
                let until = wait.until;
                if until.is_some_and(|until| asked_at >= until) {
                    return Some(Outcome::Answer(client.nil_list()));
                }
                task.look_again(self.now, until);
                None
            }
            _ => Some(Outcome::Answer(element(done).to_vec())),
        }
    }

    /// The page of a walk that a partition has answered, if the course is known: none in it if it is no page.
    fn page(&mut self, at: usize, cursor: Cursor, reply: &[u8]) -> Option<Option<Page>> {
        let ground = self.ground()?;
        let known = Known { view: &self.view, tables: &self.shared.tables };
        Some(cursor.page(reply, &self.upstreams[at], &ground, &known))
    }

    /// What a plain command has come to.
    fn judge_asked(&mut self, task: &mut Task, reply: &[u8]) -> Option<Outcome> {
        let at = task.upstream?;
        if is_fence(reply) {
            self.fenced(task, at);
            return None;
        }
        let part = self.upstreams[at].part;
        match &mut task.deed {
            Deed::Wait(_) if is_end_of_wait(reply) => {
                // The fence of the next course has ended it.
                (task.since, task.is_refused) = (self.now, true);
                self.shared.node.ask();
                None
            }
            Deed::Scan(cursor) if reply.first() != Some(&b'-') => {
                let cursor = *cursor;
                let page = self.page(at, cursor, reply)?;
                let large = || error("ERR the partition's cursor is too large");
                Some(Outcome::Answer(page.and_then(|page| page.answer()).unwrap_or_else(large)))
            }
            Deed::Names(names) if reply.first() != Some(&b'-') => {
                let page = self.page(at, names.cursor, reply)?;
                let odd = || Some(error("ERR the partition answers in another form"));
                let answer = page.map_or_else(odd, |page| names.take(page, self.shared.memory));
                task.go_on(self.now);
                answer.map(Outcome::Answer)
            }
            Deed::Load(from) if reply.first() != Some(&b'-') => {
                *from = part + 1;
                let is_last = self.ground()?.part_from(part + 1).is_none();
                is_last.then(|| Outcome::Answer(reply.to_vec()))
            }
            _ => Some(Outcome::Answer(reply.to_vec())),
        }
    }
}

/// Why nothing was done in one piece, if it was refused: what was queued, or all of it in the end, as when
/// the server has no memory left by then.
fn refusal<'a>(queued: &'a [Vec<u8>], done: &'a [u8]) -> Option<&'a [u8]> {
    let mut all = queued.iter().map(Vec::as_slice).chain([done]);
    all.find(|reply| reply.first() == Some(&b'-'))
}

/// What a transaction is answered with. If a command of it was refused when it was queued, the client has not seen why, and so
/// this says it, as a server says why it refuses `EXEC`.
fn with_reason(queued: &[Vec<u8>], done: &[u8]) -> Vec<u8> {
    let refused = queued.iter().find_map(|reply| reply.strip_prefix(b"-"));
    match refused.filter(|_| done.starts_with(b"-EXECABORT")) {
        Some(why) => [b"-EXECABORT Transaction discarded because of: ", why].concat(),
        None => done.to_vec(),
    }
}

/// The one element of a list.
fn element(list: &[u8]) -> &[u8] {
    let begin = list.iter().position(|&byte| byte == b'\n').map_or(0, |at| at + 1);
    &list[begin..]
}

fn is_nil(reply: &[u8]) -> bool {
    [&b"*-1\r"[..], b"$-1\r", b"_\r"].iter().any(|nil| reply.starts_with(nil))
}

/// Whether somebody has ended a wait. A stream that was deleted ends waits of its groups in another way.
fn is_end_of_wait(reply: &[u8]) -> bool {
    reply.starts_with(b"-UNBLOCKED") && !reply.starts_with(b"-UNBLOCKED the stream key")
}

/// Whether a command was refused by the fence. A script that was, has not begun; one that asks for what
/// its user may not do has, and says so.
pub fn is_fence(reply: &[u8]) -> bool {
    let is_refused = reply.starts_with(b"-NOPERM");
    is_refused && !reply.windows(7).any(|word| word == b" script")
}

#[cfg(test)]
mod tests {
    use super::*;

    #[test]
    fn refusals_are_found() {
        let queued = [b"+OK\r\n".to_vec(), b"+QUEUED\r\n".to_vec()];
        assert_eq!(refusal(&queued, b"*1\r\n-ERR no\r\n"), None);
        assert_eq!(refusal(&queued, b"*-1\r\n"), None);
        let aborted = b"-EXECABORT Transaction discarded because of: OOM\r\n";
        assert_eq!(refusal(&queued, aborted), Some(&aborted[..]));
        let refused = [b"+OK\r\n".to_vec(), b"-OOM\r\n".to_vec()];
        assert_eq!(refusal(&refused, aborted), Some(&b"-OOM\r\n"[..]));
        let unknown = b"-EXECABORT Transaction discarded because of previous errors.\r\n";
        assert_eq!(with_reason(&refused, unknown), aborted);
        assert_eq!(with_reason(&queued, unknown), unknown);
        assert_eq!(with_reason(&queued, b"*1\r\n:5\r\n"), b"*1\r\n:5\r\n");
    }

    #[test]
    fn one_element_is_the_answer() {
        assert_eq!(element(b"*1\r\n:5\r\n"), b":5\r\n");
        assert!(is_nil(element(b"*1\r\n$-1\r\n")) && is_nil(b"*-1\r\n") && !is_nil(b"*1\r\n:5\r\n"));
    }

    #[test]
    fn fences_are_told_from_scripts() {
        assert!(is_fence(b"-NOPERM this user has no permissions to run the 'get' command\r\n"));
        assert!(!is_fence(b"-NOPERM ACL failure in script: x\r\n") && !is_fence(b"-ERR x\r\n"));
    }
}
