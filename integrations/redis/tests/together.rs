//! Transactions, scripts, waits and `SCAN`, as one client sees them of a proxy. `tools/integrations` runs
//! them at rest and while all keys move, as those of `serving.rs`.

mod client;

use client::{bulk, command, is_apart, until_waiting, Client};
use squall_redis::resp::Value;
use std::collections::BTreeSet;
use std::time::{Duration, Instant};

#[test]
#[ignore = "needs a proxy"]
fn transactions_are_done_in_one_piece() {
    let mut client = Client::new();
    let lines = ["MULTI", "SET 1:0:t a", "INCR 2:0:t", "MGET 1:0:t 3:0:t", "INCR 1:0:t", "EXEC", "GET 1:0:t"];
    client.send(&lines.map(command).concat());
    assert_eq!(client.text(), "+OK\r\n");
    for _ in 0..4 {
        assert_eq!(client.text(), "+QUEUED\r\n");
    }
    let wrong = "-ERR value is not an integer or out of range\r\n";
    assert_eq!(client.text(), format!("*4\r\n+OK\r\n:1\r\n*2\r\n$1\r\na\r\n$-1\r\n{wrong}"));
    assert_eq!(client.text(), bulk("a"));
    assert_eq!(client.ask("MULTI"), "+OK\r\n");
    assert!(client.ask("MULTI").starts_with("-ERR "));
    assert_eq!(client.ask("DEL 1:0:t"), "+QUEUED\r\n");
    assert_eq!(client.ask("DISCARD"), "+OK\r\n");
    assert_eq!(client.ask("MULTI"), "+OK\r\n");
    assert_eq!(client.ask("EXEC"), "*0\r\n");
    for line in ["GET", "KEYS *", "INFO", "SELECT 0", "FCALL squall_do 1 a"] {
        assert_eq!(client.ask("MULTI"), "+OK\r\n");
        assert!(client.ask(line).starts_with("-ERR "), "{line}");
        assert!(client.ask("WATCH a").starts_with("-ERR "));
        assert_eq!(client.ask("SET 1:0:t b"), "+QUEUED\r\n");
        assert!(client.ask("EXEC").starts_with("-EXECABORT "), "{line}");
    }
    assert_eq!(client.ask("MULTI"), "+OK\r\n");
    assert_eq!(client.ask("SET 1:0:t c"), "+QUEUED\r\n");
    assert_eq!(client.ask("SET 900:0:t c"), "+QUEUED\r\n");
    assert!(is_apart(&client.ask("EXEC")));
    assert_eq!(client.ask("GET 1:0:t"), bulk("a"));
    // What a partition refuses when it is queued is named.
    let few = "ERR wrong number of arguments for 'get' command\r\n";
    assert_eq!(client.ask("MULTI"), "+OK\r\n");
    assert_eq!(client.ask("SET 1:0:t d"), "+QUEUED\r\n");
    assert_eq!(client.ask("GET 1:0:t x"), "+QUEUED\r\n");
    assert_eq!(client.ask("EXEC"), format!("-EXECABORT Transaction discarded because of: {few}"));
    assert_eq!(client.ask("GET 1:0:t"), bulk("a"));
    assert_eq!(client.ask("MULTI"), "+OK\r\n");
    assert_eq!(client.ask("BLPOP 1:0:none 0"), "+QUEUED\r\n");
    assert_eq!(client.ask("DEL 1:0:t 2:0:t"), "+QUEUED\r\n");
    assert_eq!(client.ask("EXEC"), "*2\r\n*-1\r\n:2\r\n");
}

#[test]
#[ignore = "needs a proxy"]
fn watched_keys_that_change_end_a_transaction() {
    let (mut client, mut other) = (Client::new(), Client::new());
    for (change, wanted) in [("GET 2:1:w", "*1\r\n+OK\r\n"), ("SET 2:1:w x", "*-1\r\n")] {
        assert_eq!(client.ask("WATCH 1:1:w 2:1:w"), "+OK\r\n");
        assert_eq!(client.ask("WATCH 3:1:w"), "+OK\r\n");
        other.ask(change);
        assert_eq!(client.ask("MULTI"), "+OK\r\n");
        assert_eq!(client.ask("SET 1:1:w y"), "+QUEUED\r\n");
        assert_eq!(client.ask("EXEC"), wanted);
        assert_eq!(client.ask("MULTI"), "+OK\r\n");
        assert_eq!(client.ask("SET 1:1:w y"), "+QUEUED\r\n");
        assert_eq!(client.ask("EXEC"), "*1\r\n+OK\r\n");
    }
    for end in ["UNWATCH", "MULTI DISCARD"] {
        assert_eq!(client.ask("WATCH 1:1:w"), "+OK\r\n");
        other.ask("SET 1:1:w z");
        for line in end.split(' ') {
            assert_eq!(client.ask(line), "+OK\r\n");
        }
        assert_eq!(client.ask("MULTI"), "+OK\r\n");
        assert_eq!(client.ask("SET 1:1:w y"), "+QUEUED\r\n");
        assert_eq!(client.ask("EXEC"), "*1\r\n+OK\r\n");
    }
    assert!(is_apart(&client.ask("WATCH 1:1:w 900:1:w")));
    assert_eq!(client.ask("WATCH 1:1:w"), "+OK\r\n");
    assert!(client.ask("HELLO 3").starts_with("%7"));
    assert_eq!(client.ask("MULTI"), "+OK\r\n");
    assert_eq!(client.ask("EXEC"), "_\r\n");
    assert_eq!(client.ask("MULTI"), "+OK\r\n");
    assert_eq!(client.ask("HGETALL 1:1:h"), "+QUEUED\r\n");
    assert_eq!(client.ask("EXEC"), "*1\r\n%0\r\n");
    assert_eq!(client.ask("DEL 1:1:w 2:1:w"), ":2\r\n");
}

#[test]
#[ignore = "needs a proxy"]
fn scripts_have_keys_of_one_partition() {
    let mut client = Client::new();
    let script = "return\tredis.call('INCRBY',KEYS[1],ARGV[1])";
    assert_eq!(client.ask(&format!("EVAL {script} 1 1:2:s 5")), ":5\r\n");
    let loaded = client.ask(&format!("SCRIPT LOAD {script}"));
    let sha = loaded.lines().nth(1).unwrap().to_string();
    assert_eq!(sha.len(), 40, "{loaded}");
    let unknown = "0000000000000000000000000000000000000000";
    assert_eq!(client.ask(&format!("SCRIPT EXISTS {sha} {unknown}")), "*2\r\n:1\r\n:0\r\n");
    assert!(
        client.ask("SCRIPT EXISTS").starts_with("-ERR ") && client.ask("SCRIPT FLUSH").starts_with("-ERR ")
    );
    for key in ["1:2:s", "900:2:s", "hashed:s"] {
        assert!(client.ask(&format!("EVALSHA {sha} 1 {key} 2")).starts_with(':'), "{key}");
    }
    assert!(client.ask("EVALSHA 0000000000000000000000000000000000000000 1 1:2:s").starts_with("-NOSCRIPT "));
    assert_eq!(client.ask("EVAL_RO return\tredis.call('GET',KEYS[1]) 1 1:2:s"), bulk("7"));
    assert!(client.ask("EVAL_RO return\tredis.call('DEL',KEYS[1]) 1 1:2:s").starts_with("-ERR "));
    assert!(client.ask("FCALL none 1 1:2:s").starts_with("-ERR Function not found"));
    assert!(is_apart(&client.ask("EVAL x 2 1:2:s 900:2:s")));
    for call in ["'SET','squall:number',7", "'SELECT',1", "'FLUSHALL'", "'KEYS','*'"] {
        let said = client.ask(&format!("EVAL redis.call('INCR',KEYS[1])return\tredis.call({call}) 1 1:2:s"));
        assert!(said.starts_with("-ERR ") || said.starts_with("-NOPERM "), "{call}: {said}");
    }
    // Each of them was done once.
    assert_eq!(client.ask("GET 1:2:s"), bulk("11"));
    assert_eq!(client.ask("DEL 1:2:s 900:2:s hashed:s"), ":3\r\n");
}

#[test]
#[ignore = "needs a proxy"]
fn waits_hold_nobody_up() {
    let (mut client, mut other) = (Client::new(), Client::new());
    client.send(&[command("BLPOP 1:3:q 2:3:q 20"), command("PING")].concat());
    assert_eq!(other.ask("GET 1:3:none"), "$-1\r\n");
    assert_eq!(other.ask("RPUSH 2:3:q x y"), ":2\r\n");
    assert_eq!(client.text(), format!("*2\r\n{}{}", bulk("2:3:q"), bulk("x")));
    assert_eq!(client.text(), "+PONG\r\n");
    assert_eq!(client.ask("BRPOPLPUSH 2:3:q 1:3:p 1"), bulk("y"));
    assert_eq!(client.ask("BLMOVE 1:3:p 2:3:q LEFT RIGHT 1"), bulk("y"));
    assert_eq!(
        client.ask("BLMPOP 1 2 1:3:p 2:3:q LEFT"),
        format!("*2\r\n{}*1\r\n{}", bulk("2:3:q"), bulk("y"))
    );
    let began = Instant::now();
    assert_eq!(client.ask("BRPOP 1:3:q 0.1"), "*-1\r\n");
    assert_eq!(client.ask("BLMOVE 1:3:q 2:3:q LEFT RIGHT 0.1"), "*-1\r\n");
    let took = began.elapsed();
    assert!(took >= Duration::from_millis(200) && took < Duration::from_secs(20), "{took:?}");
    client.send(&command("BZPOPMIN 1:3:z 0"));
    until_waiting(1);
    assert_eq!(other.ask("ZADD 1:3:z 1.5 m"), ":1\r\n");
    assert_eq!(client.text(), format!("*3\r\n{}{}{}", bulk("1:3:z"), bulk("m"), bulk("1.5")));
    assert!(is_apart(&client.ask("BLPOP 1:3:q 900:3:q 1")));
    assert_eq!(client.ask("SET 1:3:q x"), "+OK\r\n");
    assert!(client.ask("BLPOP 1:3:q 1").starts_with("-WRONGTYPE "));
    assert_eq!(client.ask("DEL 1:3:q"), ":1\r\n");
    // What comes after a client has gone stays.
    client.send(&command("BLPOP 1:3:q 0"));
    until_waiting(1);
    drop(client);
    until_waiting(0);
    assert_eq!(other.ask("RPUSH 1:3:q x"), ":1\r\n");
    assert_eq!(other.ask("LPOP 1:3:q"), bulk("x"));
}

#[test]
#[ignore = "needs a proxy"]
fn a_scan_names_all_keys() {
    let mut client = Client::new();
    let keys: Vec<String> = (0..500).map(|at| format!("{}:4:scanned", at * 2)).collect();
    for key in &keys {
        assert_eq!(client.ask(&format!("SET {key} x")), "+OK\r\n");
    }
    let mut found = BTreeSet::new();
    let mut cursor = "0".to_string();
    loop {
        // Any connection may go on.
        client = Client::new();
        let reply = client.ask(&format!("SCAN {cursor} MATCH *:4:scanned COUNT 100"));
        let mut page = Value::read(reply.as_bytes()).unwrap().unwrap().0.list();
        found.extend(page.pop().unwrap().list().into_iter().map(Value::text));
        cursor = page.pop().unwrap().text();
        if cursor == "0" {
            break;
        }
    }
    assert_eq!(found, keys.iter().cloned().collect());
    for key in keys {
        client.ask(&format!("DEL {key}"));
    }
}
