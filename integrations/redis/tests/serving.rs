//! What one client sees of a proxy. `tools/integrations` starts it, and names its address in
//! SQUALL_PROXY. Its limit on the memory of a client is 1 MiB, and that on clients 20. In a second run
//! all keys move, so each command is guarded, and has the same answers: SQUALL_COURSE is 2 then.

mod client;

use client::{command, is_moving, until_waiting, Client};
use squall_redis::resp::Value;
use std::io::Write;
use std::net::Shutdown;
use std::thread::sleep;
use std::time::{Duration, Instant};

#[test]
#[ignore = "needs a proxy"]
fn answers_come_in_order() {
    let mut client = Client::new();
    let mut all = Vec::new();
    for at in 0..1000 {
        all.extend(command(&format!("SET {at}:1:order {at}")));
        all.extend(command(&format!("GET {at}:1:order")));
        all.extend(command("PING"));
    }
    client.send(&all);
    for at in 0..1000 {
        let digits = at.to_string();
        assert_eq!(client.text(), "+OK\r\n");
        assert_eq!(client.text(), format!("${}\r\n{digits}\r\n", digits.len()));
        assert_eq!(client.text(), "+PONG\r\n");
    }
}

#[test]
#[ignore = "needs a proxy"]
fn commands_may_come_byte_by_byte() {
    let mut client = Client::new();
    for byte in [command("SET 7:1:bytes abc"), command("GET 7:1:bytes")].concat() {
        client.send(&[byte]);
    }
    assert_eq!(client.text(), "+OK\r\n");
    assert_eq!(client.text(), "$3\r\nabc\r\n");
}

#[test]
#[ignore = "needs a proxy"]
fn keys_may_lie_in_several_partitions() {
    let mut client = Client::new();
    assert_eq!(client.ask("MSET 1:0:m a 900:0:m b hashed:m c"), "+OK\r\n");
    assert_eq!(client.ask("HSET 5:0:h f v"), ":1\r\n");
    let values = client.ask("MGET 900:0:m 1:0:m none:m 5:0:h hashed:m");
    assert_eq!(values, "*5\r\n$1\r\nb\r\n$1\r\na\r\n$-1\r\n$-1\r\n$1\r\nc\r\n");
    assert_eq!(client.ask("EXISTS 1:0:m 1:0:m 900:0:m none:m"), ":3\r\n");
    assert_eq!(client.ask("TOUCH 1:0:m 900:0:m"), ":2\r\n");
    assert_eq!(client.ask("UNLINK 1:0:m 900:0:m none:m"), ":2\r\n");
    assert_eq!(client.ask("DEL hashed:m 5:0:h"), ":2\r\n");
    assert_eq!(client.ask("MSET 1:0:m a 1:0:m b 900:0:m c"), "+OK\r\n");
    assert_eq!(client.ask("GET 1:0:m"), "$1\r\nb\r\n");
    assert_eq!(client.ask("DEL 1:0:m 900:0:m"), ":2\r\n");
}

#[test]
#[ignore = "needs a proxy"]
fn keys_of_one_partition_are_served_together() {
    let mut client = Client::new();
    assert_eq!(client.ask("SET 1:0:from x"), "+OK\r\n");
    assert_eq!(client.ask("RENAME 1:0:from 2:0:to"), "+OK\r\n");
    assert_eq!(client.ask("GET 2:0:to"), "$1\r\nx\r\n");
    let refused = client.ask("RENAME 2:0:to 900:0:to");
    assert!(refused.starts_with("-CROSSSLOT ") || is_moving() && refused.starts_with("-TRYAGAIN "));
    assert_eq!(client.ask("DEL 2:0:to"), ":1\r\n");
}

#[test]
#[ignore = "needs a proxy"]
fn what_is_not_served_is_refused() {
    let mut client = Client::new();
    for line in [
        "KEYS",
        "DBSIZE x",
        "FLUSHALL",
        "EVAL x 0",
        "EVAL x 1 squall:number",
        "EVAL x 2 a",
        "EXEC",
        "DISCARD",
        "MULTI x",
        "WATCH",
        "WATCH squall:number",
        "BLPOP a",
        "BLPOP a x",
        "BLPOP a -1",
        "BLPOP a nan",
        "SPUBLISH a",
        "FCALL squall_do 1 a",
        "FCALL squall_give 1 a",
        "SCAN",
        "SCAN x",
        "SCRIPT FLUSH",
        "WAIT 1 1",
        "GET squall:number",
        "MOVE a 1",
        "SELECT 1",
        "GET",
        "MSET a",
        "AUTH x",
        "CLIENT KILL x",
        "XREAD a",
    ] {
        assert!(client.ask(line).starts_with("-ERR "), "{line}");
    }
    assert_eq!(client.ask("PING"), "+PONG\r\n");
}

#[test]
#[ignore = "needs a proxy"]
fn clients_may_speak_resp3() {
    let mut client = Client::new();
    assert_eq!(client.ask("HSET 3:0:three a 1"), ":1\r\n");
    assert_eq!(client.ask("HGETALL 3:0:three"), "*2\r\n$1\r\na\r\n$1\r\n1\r\n");
    assert!(client.ask("HELLO 3").starts_with("%7\r\n"));
    assert_eq!(client.ask("HGETALL 3:0:three"), "%1\r\n$1\r\na\r\n$1\r\n1\r\n");
    assert_eq!(client.ask("GET 3:0:none"), "_\r\n");
    assert_eq!(client.ask("HMGET 3:0:three a b"), "*2\r\n$1\r\n1\r\n_\r\n");
    assert_eq!(client.ask("ZADD 3:0:z 1.5 m"), ":1\r\n");
    assert_eq!(client.ask("ZSCORE 3:0:z m"), ",1.5\r\n");
    assert_eq!(client.ask("DEL 3:0:z"), ":1\r\n");
    assert!(client.ask("HELLO 4").starts_with("-NOPROTO"));
    assert!(client.ask("HELLO 2").starts_with("*14\r\n"));
    assert_eq!(client.ask("GET 3:0:none"), "$-1\r\n");
    assert_eq!(client.ask("DEL 3:0:three"), ":1\r\n");
}

#[test]
#[ignore = "needs a proxy"]
fn garbage_ends_the_connection_after_the_answers_before_it() {
    for garbage in [&b"*\r\n"[..], b"*1\r\n+x\r\n", b"*1\r\n$99999999\r\n", b"GET '\r\n", b"*-x\r\n"] {
        let mut client = Client::new();
        client.send(&[&command("GET 1:0:none"), garbage].concat());
        assert_eq!(client.text(), "$-1\r\n");
        assert!(client.text().starts_with("-ERR Protocol error"), "{garbage:?}");
        assert_eq!(client.hear(), None);
    }
}

#[test]
#[ignore = "needs a proxy"]
fn half_a_command_holds_nobody_up() {
    let mut half = Client::new();
    half.send(b"*2\r\n$3\r\nGET\r\n$5\r\n1:");
    assert_eq!(Client::new().ask("PING"), "+PONG\r\n");
    half.send(b"0:x\r\n");
    assert_eq!(half.text(), "$-1\r\n");
}

#[test]
#[ignore = "needs a proxy"]
fn large_values_pass_and_too_large_ones_are_refused() {
    let mut client = Client::new();
    let value = "v".repeat(900_000);
    assert_eq!(client.ask(&format!("SET 4:0:large {value}")), "+OK\r\n");
    assert_eq!(client.ask("STRLEN 4:0:large"), ":900000\r\n");
    client.send(&[command("GET 4:0:large"), command("PING")].concat());
    assert_eq!(client.text().len(), 900_000 + 11);
    assert_eq!(client.text(), "+PONG\r\n");
    assert_eq!(client.ask("DEL 4:0:large"), ":1\r\n");
    let many = format!("MSET {}", "5:0:many v ".repeat(100_000).trim_end());
    client.stream.write_all(&command(&many)).ok();
    assert!(client.hear().is_none_or(|reply| reply.starts_with(b"-ERR Protocol error")));
}

#[test]
#[ignore = "needs a proxy"]
fn one_that_sends_no_more_gets_its_answers() {
    for _ in 0..100 {
        let mut client = Client::new();
        client.send(
            &[command("SET 4:0:shut v"), command("GET 4:0:shut"), command("GET 4")[..9].into()].concat(),
        );
        client.stream.shutdown(Shutdown::Write).unwrap();
        assert_eq!(client.text(), "+OK\r\n");
        assert_eq!(client.text(), "$1\r\nv\r\n");
        assert_eq!(client.hear(), None);
    }
    // It waits for no key.
    for has_begun in [false, true] {
        let (mut client, mut other) = (Client::new(), Client::new());
        client.send(&[command("DEL 4:0:shut"), command("BLPOP 4:0:shut 0")].concat());
        assert_eq!(client.text(), ":1\r\n");
        if has_begun {
            until_waiting(1);
        }
        client.stream.shutdown(Shutdown::Write).unwrap();
        assert_eq!(client.hear(), None);
        // The partition hears of it too.
        until_waiting(0);
        assert_eq!(other.ask("RPUSH 4:0:shut v"), ":1\r\n");
        assert_eq!(other.ask("LLEN 4:0:shut"), ":1\r\n");
    }
    assert_eq!(Client::new().ask("DEL 4:0:shut"), ":1\r\n");
}

#[test]
#[ignore = "needs a proxy"]
fn one_that_reads_late_gets_all() {
    let (mut client, mut other) = (Client::new(), Client::new());
    let value = "v".repeat(600_000);
    assert_eq!(other.ask(&format!("MSET 4:0:late {value} 4:0:count 0")), "+OK\r\n");
    // Its answers fill what the system keeps for the connection. Then the proxy does nothing more for it.
    let mut sent = 0;
    let mut is_done = true;
    while is_done && sent < 100 {
        client.send(&[command("GET 4:0:late"), command("INCR 4:0:count")].concat());
        sent += 1;
        let done = format!("${}\r\n{sent}\r\n", sent.to_string().len());
        is_done = (0..50).any(|_| {
            sleep(Duration::from_millis(5));
            other.ask("GET 4:0:count") == done
        });
    }
    assert!(!is_done, "{sent} commands were done");
    for at in 1..=sent {
        let reply = client.hear().map(|reply| reply.len());
        assert_eq!(reply, Some(600_000 + 11), "answer {at} of {sent}");
        assert_eq!(client.text(), format!(":{at}\r\n"));
    }
    assert_eq!(client.ask("DEL 4:0:late 4:0:count"), ":2\r\n");
}

#[test]
#[ignore = "needs a proxy"]
fn too_many_clients_are_refused() {
    let mut clients: Vec<Client> = (0..30).map(|_| Client::new()).collect();
    let mut refused = 0;
    for client in &mut clients {
        client.stream.write_all(&command("PING")).ok();
        match client.hear() {
            Some(reply) if reply == b"+PONG\r\n" => {}
            _ => refused += 1,
        }
    }
    assert!((1..30).contains(&refused), "{refused}");
    drop(clients);
    until_served();
}

/// Waits until the proxy serves a new client: it may not have seen yet that others are gone.
fn until_served() {
    let began = Instant::now();
    loop {
        let mut client = Client::new();
        client.stream.write_all(&command("PING")).ok();
        if client.hear().is_some_and(|reply| reply == b"+PONG\r\n") {
            return;
        }
        assert!(began.elapsed() < Duration::from_secs(60), "no client is served");
        sleep(Duration::from_millis(5));
    }
}

#[test]
#[ignore = "needs a proxy"]
fn large_numbers_are_exact() {
    let mut client = Client::new();
    assert_eq!(client.ask("SET 6:0:n 9007199254740992"), "+OK\r\n");
    assert_eq!(client.ask("INCR 6:0:n"), ":9007199254740993\r\n");
    assert_eq!(client.ask("HINCRBY 6:0:h f -9223372036854775807"), ":-9223372036854775807\r\n");
    assert_eq!(client.ask("DECRBY 6:0:n 2"), ":9007199254740991\r\n");
    assert!(client.ask("INCR 6:0:h").starts_with("-WRONGTYPE "));
    assert_eq!(client.ask("DEL 6:0:n 6:0:h"), ":2\r\n");
}

#[test]
#[ignore = "needs a proxy"]
fn values_are_whole() {
    let mut client = Client::new();
    let reply = client.ask("SQUALL INFO");
    let Ok(Some((Value::Bulk(text), _))) = Value::read(reply.as_bytes()) else {
        panic!("{reply}");
    };
    let course = if is_moving() { 2 } else { 1 };
    let text = String::from_utf8(text).unwrap();
    assert!(text.starts_with(&format!("course {course} views")), "{text}");
    let route = client.ask("SQUALL ROUTE 1:0");
    assert!(route.contains(&format!("key 1:0 partition 1 course {course}")), "{route}");
}
