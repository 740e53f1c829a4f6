//! What a mover asks of one partition.

use super::patience::Patience;
use super::state::Life;
use crate::conn::{Conn, Server};
use crate::course::Move;
use crate::fault::{Done, Fault, Trying};
use crate::keymap::hex;
use crate::resp::Value;
use crate::secret::{self, READER};
use crate::{faults, user, GUARD};
use squall::Rank;

/// What a router's user may do. It reads the partition's own keys, and writes all others: a pattern for
/// each letter at which a name can differ from `squall:`. A script can't change database.
const RIGHTS: &[&str] = &[
    "~",
    "~[^s]*",
    "~s",
    "~s[^q]*",
    "~sq",
    "~sq[^u]*",
    "~squ",
    "~squ[^a]*",
    "~squa",
    "~squa[^l]*",
    "~squal",
    "~squal[^l]*",
    "~squall",
    "~squall[^:]*",
    "%R~squall:*",
    "&*",
    "+@all",
    "-@admin",
    "-@dangerous",
    "-select",
    "-move",
    "-@scripting",
    "+fcall",
    "+fcall_ro",
    "+eval",
    "+eval_ro",
    "+evalsha",
    "+evalsha_ro",
    "+script|exists",
    "+script|load",
    "+sort",
    "+sort_ro",
    "+restore",
    "+info",
];

/// What the user may do who reads what a partition keeps of its course.
const READS: [&str; 6] = ["%R~squall:*", "+fcall_ro", "+get", "+hget", "+hgetall", "+lrange"];

/// A partition, as its operator.
pub struct Partition {
    /// Its number.
    pub part: u32,
    /// Connected to it.
    pub conn: Conn,
    /// The run of its server. The connection ends with it.
    pub life: Life,
    /// The course's number.
    pub(super) number: String,
    /// How long it has refused.
    patience: Patience,
}

/// A course, as it begins at one partition.
pub struct Beginning<'a> {
    /// The ranges of its plans.
    pub old: &'a str,
    pub new: &'a str,
    /// What the partition is then.
    pub start: Start,
    /// All its moves, by rising key.
    pub moves: &'a [Move],
}

/// What a partition is as a course begins there.
pub enum Start {
    /// The course before has ended there at the old plan.
    Known,
    /// The old plan gives it no keys. What others have seen of it, if it was there before: its generation rises above that.
    Fresh(u64),
    /// The course before is closed, and the old plan says where the keys are. The generations of the other partitions.
    Left(Vec<(u32, u64)>),
}

impl Partition {
    /// Connects, for the course of that number.
    pub fn open(part: u32, server: &Server, number: u32) -> Done<Partition> {
        let conn = Conn::open(server).trying(|| format!("partition {part}"))?;
        let (number, patience) = (number.to_string(), Patience::default());
        let mut partition = Partition { part, conn, life: Life::default(), number, patience };
        let info = partition.ask(&["INFO", "server", "persistence"])?.text();
        // Meanwhile a server says that it writes no log.
        if Life::is_loading(&info) {
            return Err(Fault::lost(format!("partition {part} is loading its data")));
        }
        let other = || Fault::new(format!("partition {part}: INFO of another form"));
        partition.life = Life::read(&info).ok_or_else(other)?;
        Ok(partition)
    }

    /// The same partition, for the course of that number.
    pub fn of_course(self, number: u32) -> Partition {
        Partition { number: number.to_string(), ..self }
    }

    /// Loads the functions that make it a partition.
    pub fn prepare(&mut self) -> Done<()> {
        self.ask(&["FUNCTION", "LOAD", "REPLACE", &faults::in_guard(GUARD)]).map(drop)
    }

    /// Whether the course may begin here; it changes nothing.
    pub fn may_begin(&mut self, course: &Beginning) -> Done<()> {
        self.call_begin("squall_may_begin", course)
    }

    /// Begins the course here. Routers of the course before are still let in.
    pub fn begin(&mut self, course: &Beginning) -> Done<()> {
        self.call_begin("squall_begin", course)
    }

    fn call_begin(&mut self, function: &str, course: &Beginning) -> Done<()> {
        let start = match &course.start {
            Start::Known => "known".to_string(),
            Start::Fresh(0) => "fresh".to_string(),
            Start::Fresh(seen) => format!("fresh:{seen}"),
            Start::Left(others) => {
                let others = others.iter().map(|(part, generation)| format!(":{part}={generation}"));
                format!("left:{}{}", self.part, others.collect::<String>())
            }
        };
        let head = ["FCALL", function, "0", &self.number, course.old, course.new, &start];
        let mut words: Vec<String> = head.into_iter().map(String::from).collect();
        words.extend(course.moves.iter().map(|it| self.line(it)));
        self.ask(&words).map(drop)
    }

    /// Gives nothing more in this course.
    pub fn close(&mut self) -> Done<()> {
        let number = self.number.clone();
        self.ask(&["FCALL", "squall_close", "0", &number]).map(drop)
    }

    /// A move, as this partition sees it.
    pub(super) fn line(&self, it: &Move) -> String {
        let (role, peer) = match self.part {
            part if part == it.source => ("out", it.dest),
            part if part == it.dest => ("in", it.source),
            _ => ("none", it.source),
        };
        format!("{} {} {role} {peer}", hex(it.lo), hex(it.hi))
    }

    /// Lets in routers of this course, and notes in which run of the server that is.
    pub fn admit(&mut self, secret: &str) -> Done<()> {
        let (name, run) = (user(&self.number), self.life.run.clone());
        let secret = format!(">{secret}");
        let words = [&["ACL", "SETUSER", &name, "reset", "on", &secret][..], RIGHTS].concat();
        self.in_course(&[vec!["FCALL", "squall_run", "0", &run], words])
    }

    /// Says the course to routers that hear nothing from the bus. All partitions have to have begun it: a router that
    /// knows it is let in nowhere else.
    pub fn tell(&mut self, secret: &str, issue: &[u8]) -> Done<()> {
        let issue = secret::digits(issue);
        self.in_course(&[vec!["SET", "squall:issue", &issue]])?;
        self.let_read(secret)
    }

    /// Lets routers read what it keeps of its course, also those that are not let in.
    pub fn let_read(&mut self, secret: &str) -> Done<()> {
        let password = format!(">{}", secret::of_reader(secret));
        self.in_course(&[[&["ACL", "SETUSER", READER, "reset", "on", &password][..], &READS].concat()])
    }

    /// The users of routers.
    pub fn users(&mut self) -> Done<Vec<String>> {
        let users = self.ask(&["ACL", "USERS"])?.list().into_iter().map(Value::text);
        Ok(users.filter(|name| name.starts_with(&user(""))).collect())
    }

    /// Shuts out routers of all other courses. The course has begun at all partitions, which had these generations.
    pub fn fence(&mut self, generations: &[(u32, u64)]) -> Done<()> {
        let own = user(&self.number);
        let users = self.users()?;
        let others = users.iter().filter(|name| **name != own);
        let mut commands: Vec<_> =
            others.map(|name| ["ACL", "SETUSER", name, "reset"].map(String::from).to_vec()).collect();
        let mut note = ["FCALL", "squall_fence", "0", &self.number].map(String::from).to_vec();
        let seen = generations.iter().filter(|(part, _)| *part != self.part);
        note.extend(seen.flat_map(|(part, generation)| [part.to_string(), generation.to_string()]));
        commands.push(note);
        let words: Vec<Vec<&str>> =
            commands.iter().map(|words| words.iter().map(String::as_str).collect()).collect();
        self.in_course(&words)?;
        self.end_waits(&own)
    }

    /// Ends the waits of all routers' users but one. A command that waits was let in before the fence,
    /// and could take from a key that is only on its way back here.
    fn end_waits(&mut self, own: &str) -> Done<()> {
        if faults::is_on("leave-waits") {
            return Ok(());
        }
        let clients = self.ask(&["CLIENT", "LIST"])?.text();
        for line in clients.lines() {
            let field = |name| line.split(' ').find_map(|word| word.strip_prefix(name));
            let is_other = field("user=").is_some_and(|name| name.starts_with(&user("")) && name != own);
            if let Some(id) = field("id=").filter(|_| is_other) {
                self.ask(&["CLIENT", "UNBLOCK", id, "ERROR"])?;
            }
        }
        Ok(())
    }

    /// Does commands at once, if the partition is in this course. Else a late mover would let in
    /// routers that another one has shut out.
    fn in_course(&mut self, commands: &[Vec<&str>]) -> Done<()> {
        // That of the partition ends with each command that is not refused.
        let mut patience = Patience::default();
        while !self.try_in_course(commands, &mut patience)? {}
        Ok(())
    }

    /// The same; false if the partition refuses for a reason that passes. What was done then may be done again.
    fn try_in_course(&mut self, commands: &[Vec<&str>], patience: &mut Patience) -> Done<bool> {
        let late = || Fault::new("another course has begun");
        self.ask(&["WATCH", "squall:number"])?;
        if self.ask(&["GET", "squall:number"])?.text() != self.number {
            return Err(late()).trying(|| format!("partition {}", self.part));
        }
        self.conn.put(&["MULTI"]);
        for command in commands {
            self.conn.put(command);
        }
        self.conn.put(&["EXEC"]);
        let mut answers = self.conn.hear_all(commands.len() + 2)?;
        // A command that is refused is not queued. The answer to EXEC is the last one, and does not say why.
        match refusal(&answers) {
            Some(error) if patience.bears(&self.conn, error) => return Ok(false),
            Some(error) => return Err(self.explain(error)),
            None => {}
        }
        match answers.pop() {
            Some(Value::List(done)) => match done.into_iter().find(|it| matches!(it, Value::Error(_))) {
                None => Ok(true),
                Some(Value::Error(error)) if patience.bears(&self.conn, &error) => Ok(false),
                Some(error) => Err(self.explain(&error.text())),
            },
            _ => Err(late()).trying(|| format!("partition {}", self.part)),
        }
    }

    /// The words of a put, of a row that the source has given at that generation.
    pub fn put(&mut self, key: &[u8], rank: Rank, (dump, ends): (&[u8], i64), (source, given): (u32, u64)) {
        let args = [self.number.clone(), hex(rank), ends.max(0).to_string()];
        let give = [u64::from(source), given].map(|it| it.to_string());
        let mut words: Vec<&[u8]> = vec![b"FCALL", b"squall_put", b"1", key];
        words.extend(args.iter().map(String::as_bytes));
        words.push(dump);
        words.extend(give.iter().map(String::as_bytes));
        self.conn.put(&words);
    }

    /// Whether answers are no refusals. If one passes, all of it is to be tried again.
    ///
    /// # Errors
    ///
    /// One is a refusal that does not pass.
    pub fn accepts(&mut self, answers: &[Value]) -> Done<bool> {
        match refusal(answers) {
            None => self.patience.end(),
            Some(error) if self.patience.bears(&self.conn, error) => return Ok(false),
            Some(error) => return Err(self.explain(error)),
        }
        Ok(true)
    }

    /// Asks, also again if a refusal passes, and explains one that does not.
    pub fn ask<W: AsRef<[u8]>>(&mut self, words: &[W]) -> Done<Value> {
        match self.try_ask(words)? {
            Value::Error(text) => Err(self.explain(&text)),
            value => Ok(value),
        }
    }

    /// Asks, also again if a refusal passes. One that does not is the answer.
    pub(super) fn try_ask<W: AsRef<[u8]>>(&mut self, words: &[W]) -> Done<Value> {
        self.patience.ask(&mut self.conn, words)
    }
}

/// The first refusal among answers.
fn refusal(answers: &[Value]) -> Option<&str> {
    answers.iter().find_map(|answer| match answer {
        Value::Error(error) => Some(error.as_str()),
        _ => None,
    })
}

/// The rank of sixteen digits.
pub fn rank(hex: &str) -> Option<Rank> {
    u64::from_str_radix(hex, 16).ok().map(Rank)
}

#[cfg(test)]
mod tests {
    use super::*;
    use std::sync::atomic::{AtomicBool, Ordering::SeqCst};
    use std::thread;
    use std::time::Duration;

    /// A partition over the server that `tools/integrations` names.
    fn partition(number: u32) -> Partition {
        let addr = std::env::var("SQUALL_REDIS").expect("SQUALL_REDIS");
        Partition::open(1, &Server::plain(addr.parse().unwrap()), number).unwrap()
    }

    #[test]
    #[ignore = "needs a server"]
    fn refusals_that_pass_end_no_step() {
        let (mut mover, mut other) = (partition(1), partition(1));
        mover.prepare().unwrap();
        let course = Beginning { old: "[]", new: "[]", start: Start::Fresh(0), moves: &[] };
        mover.begin(&course).unwrap();
        other.ask(&["CONFIG", "SET", "maxmemory", "1"]).unwrap();
        let has_room = AtomicBool::new(false);
        thread::scope(|scope| {
            scope.spawn(|| {
                thread::sleep(Duration::from_millis(300));
                has_room.store(true, SeqCst);
                other.ask(&["CONFIG", "SET", "maxmemory", "0"]).unwrap();
            });
            // Redis 7 also refuses the commands of `admit` without memory, and Redis 8 none of them.
            mover.in_course(&[vec!["SET", "squall:test", "1"]]).unwrap();
            assert!(has_room.load(SeqCst));
        });
        mover.admit("secret").unwrap();
        assert!(mover.ask(&["ACL", "USERS"]).unwrap().list().contains(&Value::Bulk(user("1").into_bytes())));
        mover.fence(&[]).unwrap();
        // A transaction of which a command is refused for another reason, and one of another course.
        let unknown = mover.in_course(&[vec!["ACL", "UNKNOWN"]]).unwrap_err().to_string();
        assert!(unknown.contains("partition 1: ERR"), "{unknown}");
        let late = partition(2).in_course(&[vec!["PING"]]).unwrap_err().to_string();
        assert!(late.contains("another course has begun"), "{late}");
    }
}
