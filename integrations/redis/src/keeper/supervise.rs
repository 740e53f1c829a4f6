//! Lets routers in again at partitions whose servers were restarted and have lost nothing.

use super::numbers::Numbers;
use crate::args::Args;
use crate::conn::Server;
use crate::fault::{Done, Fault};
use crate::log;
use crate::mover::partition::Partition;
use crate::mover::survey::Survey;
use crate::{stop, user};
use std::collections::BTreeMap;
use std::sync::atomic::Ordering::Relaxed;
use std::sync::Arc;
use std::thread;
use std::time::Duration;

/// How often each partition is looked at.
const ROUND: Duration = Duration::from_secs(1);

/// The partitions of a deployment, and what their routers' users need.
struct Supervisor {
    servers: BTreeMap<u32, Server>,
    secret: String,
}

/// Begins to look at each partition, in a thread for each: one that does not answer holds up no other.
pub fn start(args: &Args, numbers: &Arc<Numbers>) -> Done<()> {
    let password = args.password("password-file")?;
    let with = |server| Server { password: password.clone(), ..server };
    let supervisor = Arc::new(Supervisor {
        servers: args.parts()?.into_iter().map(|(part, server)| (part, with(server))).collect(),
        secret: args.secret()?,
    });
    for &part in supervisor.servers.keys() {
        let (supervisor, numbers) = (supervisor.clone(), numbers.clone());
        thread::spawn(move || supervisor.watch(part, &numbers));
    }
    Ok(())
}

impl Supervisor {
    /// Looks at a partition until the program is asked to end. Why it is not let in is said once.
    fn watch(&self, part: u32, numbers: &Numbers) {
        let mut said = String::new();
        while !stop::is_asked() {
            let now = match self.look(part) {
                Ok(false) => String::new(),
                Ok(true) => {
                    numbers.admissions.fetch_add(1, Relaxed);
                    log::info(format!("partition {part} is let in again"));
                    String::new()
                }
                Err(fault) => fault.to_string(),
            };
            numbers.see(part, now.is_empty());
            if !now.is_empty() && now != said {
                log::warn(format!("partition {part} is not let in: {now}"));
            }
            said = now;
            stop::sleep(ROUND);
        }
    }

    /// Whether routers were let in at a partition just now. A server that was restarted has no users of routers, unless
    /// it has saved them.
    fn look(&self, part: u32) -> Done<bool> {
        let mut partition = Partition::open(part, &self.servers[&part], 0)?;
        let number = partition.ask(&["GET", "squall:number"])?.text();
        let run = partition.ask(&["GET", "squall:run"])?.text();
        let users = partition.users()?;
        let is_its_run = run.is_empty() || run == partition.life.run;
        if !number.is_empty() && is_its_run && users.contains(&user(&number)) {
            return Ok(false);
        }
        let opened = self.servers.iter().map(|(&part, server)| Partition::open(part, server, 0));
        let mut all = opened.collect::<Done<Vec<_>>>()?;
        let survey = Survey::of(all.iter_mut())?;
        let Some(partition) = all.into_iter().find(|it| it.part == part) else {
            return Ok(false);
        };
        self.let_in(partition, &survey, !users.is_empty())
    }

    /// Lets routers in if nothing was lost, and otherwise shuts them out. What the partition has said was heard over this
    /// connection, which ends with the run of its server.
    fn let_in(&self, mut partition: Partition, survey: &Survey, has_users: bool) -> Done<bool> {
        let own = &survey.facts[&partition.part];
        if let Some(why) = why_not(survey, partition.part) {
            if has_users {
                partition.shut(own)?;
            }
            return Err(Fault::new(why));
        }
        let mut partition = partition.of_course(own.number);
        partition.admit(&self.secret)?;
        partition.let_read(&self.secret)?;
        if survey.fence() == own.number {
            partition.fence(&[])?;
        }
        Ok(true)
    }
}

/// Why routers must not be let in at a partition, or can't be.
fn why_not(survey: &Survey, part: u32) -> Option<String> {
    let own = &survey.facts[&part];
    let number = own.number;
    if number == 0 && survey.seen(part).0 == 0 {
        return Some("it is in no course: a mover lets it in".to_string());
    }
    let signs: Vec<String> = survey.signs(part, number).iter().map(ToString::to_string).collect();
    if !signs.is_empty() {
        return Some(format!("{}; the mover says what is lost, and how to go on", signs.join("; ")));
    }
    if own.run.is_none() {
        return Some(format!("it was let in by an earlier version: run the mover of course {number} once"));
    }
    survey.awaits(part).then(|| format!("keys are on their way to it: run the mover of course {number}"))
}

#[cfg(test)]
mod tests {
    use super::*;
    use crate::mover::state::{Life, Role, Stand, State};
    use squall::Rank;

    fn state(number: u32, role: Role, edge: u64) -> State {
        let peer = if role == Role::Out { 3 } else { 1 };
        let (lo, hi) = (Rank(100), Rank(200));
        let (edge, forgot, pulled) = (Rank(edge), Rank(100), BTreeMap::new());
        let stand = Stand { lo, hi, role, peer, edge, forgot, gone: 0, pulled };
        let run = Some("first".to_string());
        State {
            number,
            generation: 1,
            fence: number,
            run,
            seen: BTreeMap::new(),
            moves: vec![stand],
            is_closed: false,
        }
    }

    fn why(change: impl FnOnce(&mut State, &mut Life)) -> Option<String> {
        let mut own = state(2, Role::In, 140);
        let mut life = Life { run: "second".to_string(), has_log: true };
        change(&mut own, &mut life);
        let states = BTreeMap::from([(1, state(2, Role::Out, 140)), (3, own)]);
        let lives = BTreeMap::from([(1, Life::default()), (3, life)]);
        why_not(&Survey { claims: states.clone(), facts: states, lives }, 3)
    }

    #[test]
    fn what_has_lost_nothing_is_let_in() {
        assert_eq!(why(|_, _| ()), None);
        let says = |said: Option<String>, words: &str| said.is_some_and(|said| said.contains(words));
        // A mover has fenced a later course elsewhere.
        assert!(says(why(|own, _| own.number = 1), "course 2 had begun everywhere"));
        assert!(says(why(|own, _| *own = State::default()), "in no course"));
        assert!(says(why(|own, _| own.moves[0].edge = Rank(120)), "on their way to it"));
        assert!(says(why(|own, _| own.run = None), "an earlier version"));
        assert!(says(why(|_, life| life.has_log = false), "writes no log"));
    }
}
