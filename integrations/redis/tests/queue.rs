//! Queues that many clients share: what each of them pushes is taken once. `tools/integrations` names
//! two proxies in SQUALL_PROXIES, and moves the keys as long as the file of SQUALL_WHILE is there.

use squall_redis::conn::{Conn, Server};
use squall_redis::dice::Dice;
use squall_redis::resp::Value;
use std::collections::BTreeMap;
use std::path::PathBuf;
use std::sync::atomic::{AtomicBool, Ordering::SeqCst};
use std::sync::Mutex;
use std::thread;
use std::time::Duration;

const PRODUCERS: u64 = 6;
/// How many texts each of them pushes at least.
const LEAST: usize = 100;
const CONSUMERS: u64 = 24;
/// Lists at all partitions, of which some move.
const LISTS: [&str; 8] = ["1:0:q", "340:0:q", "400:0:q", "499:0:q", "510:0:q", "660:0:q", "jobs:a", "jobs:b"];
const SCRIPT: &str = "return redis.call('RPUSH', KEYS[1], ARGV[1])";

/// How often each text was pushed and taken.
#[derive(Default)]
struct Ledger {
    pushed: Mutex<BTreeMap<String, usize>>,
    taken: Mutex<BTreeMap<String, usize>>,
    is_over: AtomicBool,
}

fn note(counts: &Mutex<BTreeMap<String, usize>>, text: String) {
    *counts.lock().unwrap().entry(text).or_default() += 1;
}

fn open(own: u64) -> Conn {
    let proxies = std::env::var("SQUALL_PROXIES").expect("SQUALL_PROXIES");
    let all: Vec<&str> = proxies.split(' ').collect();
    let addr = all[own as usize % all.len()].parse().unwrap();
    let mut conn = Conn::open(&Server::plain(addr)).unwrap();
    conn.set_patience(Duration::from_secs(60)).unwrap();
    conn
}

/// The answer of the last line.
fn ask(conn: &mut Conn, lines: &[&[&str]]) -> Value {
    lines.iter().for_each(|line| conn.put(line));
    conn.hear_all(lines.len()).unwrap().pop().unwrap()
}

fn produce(own: u64, ledger: &Ledger) {
    let file = PathBuf::from(std::env::var("SQUALL_WHILE").expect("SQUALL_WHILE"));
    let (mut conn, mut dice) = (open(own), Dice::of(own));
    let mut pushed = 0;
    // Not for ever, if all are refused.
    for count in 0..50_000 {
        if pushed >= LEAST && !file.exists() {
            return;
        }
        let list = LISTS[dice.below(LISTS.len() as u64) as usize];
        let text = format!("{own}.{count}");
        let push = ["RPUSH", list, &text];
        let answer = match count % 3 {
            0 => ask(&mut conn, &[&push]),
            1 => ask(&mut conn, &[&["MULTI"], &push, &["EXEC"]]),
            _ => ask(&mut conn, &[&["EVAL", SCRIPT, "1", list, &text]]),
        };
        match answer {
            Value::Int(_) | Value::List(_) => {
                note(&ledger.pushed, format!("{list} {text}"));
                pushed += 1;
            }
            Value::Error(error) if error.starts_with("TRYAGAIN") => {}
            other => panic!("{list}: {other:?}"),
        }
        thread::sleep(Duration::from_micros(dice.below(4000)));
    }
}

fn consume(own: u64, ledger: &Ledger) {
    let (mut conn, mut dice) = (open(own), Dice::of(1000 + own));
    while !ledger.is_over.load(SeqCst) {
        let list = LISTS[dice.below(LISTS.len() as u64) as usize];
        let seconds = ["0.05", "0.3", "1"][dice.below(3) as usize];
        match ask(&mut conn, &[&["BLPOP", list, seconds]]) {
            Value::List(taken) => {
                let words: Vec<String> = taken.into_iter().map(Value::text).collect();
                note(&ledger.taken, words.join(" "));
            }
            Value::Nil => {}
            Value::Error(error) if error.starts_with("TRYAGAIN") => {}
            other => panic!("{list}: {other:?}"),
        }
    }
}

/// Takes what consumers have left.
fn drain(ledger: &Ledger) {
    let mut conn = open(0);
    for list in LISTS {
        let rest = ask(&mut conn, &[&["LRANGE", list, "0", "-1"]]).list();
        rest.into_iter().for_each(|text| note(&ledger.taken, format!("{list} {}", text.text())));
    }
}

#[test]
#[ignore = "needs proxies"]
fn what_is_pushed_is_taken_once() {
    let ledger = Ledger::default();
    thread::scope(|scope| {
        let ledger = &ledger;
        let producers: Vec<_> = (0..PRODUCERS).map(|own| scope.spawn(move || produce(own, ledger))).collect();
        let consumers: Vec<_> = (0..CONSUMERS).map(|own| scope.spawn(move || consume(own, ledger))).collect();
        let done: Vec<_> = producers.into_iter().map(|it| it.join()).collect();
        ledger.is_over.store(true, SeqCst);
        let all: Vec<_> = consumers.into_iter().map(|it| it.join()).chain(done).collect();
        assert!(all.iter().all(Result::is_ok), "a client was answered what it never may be");
    });
    drain(&ledger);
    let (pushed, taken) = (ledger.pushed.into_inner().unwrap(), ledger.taken.into_inner().unwrap());
    println!("pushed {} taken {}", pushed.len(), taken.len());
    let lost: Vec<_> = pushed.keys().filter(|text| !taken.contains_key(*text)).take(5).collect();
    let twice: Vec<_> =
        taken.iter().filter(|&(text, &count)| count > 1 || !pushed.contains_key(text)).collect();
    assert!(lost.is_empty() && twice.is_empty(), "lost {lost:?} twice or never pushed {twice:.200?}");
    assert!(pushed.len() >= LEAST * PRODUCERS as usize, "{}", pushed.len());
}
