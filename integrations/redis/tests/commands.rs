//! Commands beyond those on plain keys, as one client sees them of a proxy. `tools/integrations` runs them at rest and while
//! all keys move, as those of `serving.rs`.

mod client;

use client::{bulk, command, is_apart, is_moving, until_waiting, Client};
use squall_redis::resp::Value;
use std::collections::BTreeSet;
use std::thread::sleep;
use std::time::{Duration, Instant};

/// The texts of a list of texts.
fn texts(reply: &str) -> Vec<String> {
    let (list, _) = Value::read(reply.as_bytes()).unwrap().unwrap();
    list.list().into_iter().map(Value::text).collect()
}

/// An entry of a stream.
fn entry(id: &str, value: &str) -> String {
    format!("*2\r\n{}*2\r\n{}{}", bulk(id), bulk("f"), bulk(value))
}

/// The answer to a read of one stream that has one entry.
fn read_of(key: &str, entry: &str) -> String {
    format!("*1\r\n*2\r\n{}*1\r\n{entry}", bulk(key))
}

#[test]
#[ignore = "needs a proxy"]
fn transactions_take_commands_without_keys() {
    let mut client = Client::new();
    for line in ["MULTI", "PING", "PING hi", "ECHO x", "EVAL return\t7 0"] {
        assert!(["+OK\r\n", "+QUEUED\r\n"].contains(&&client.ask(line)[..]), "{line}");
    }
    assert_eq!(client.ask("EXEC"), "*4\r\n+PONG\r\n$2\r\nhi\r\n$1\r\nx\r\n:7\r\n");
    for key in ["1:0:p", "900:0:p"] {
        for line in ["MULTI", "PING", "EVAL return\t7 0"] {
            client.ask(line);
        }
        assert_eq!(client.ask(&format!("SET {key} v")), "+QUEUED\r\n");
        assert_eq!(client.ask("EXEC"), "*3\r\n+PONG\r\n:7\r\n+OK\r\n");
    }
    assert_eq!(client.ask("MULTI"), "+OK\r\n");
    assert!(client.ask("PING a b").starts_with("-ERR "));
    assert!(client.ask("EXEC").starts_with("-EXECABORT "));
    assert_eq!(client.ask("DEL 1:0:p 900:0:p"), ":2\r\n");
}

#[test]
#[ignore = "needs a proxy"]
fn scripts_may_have_no_keys() {
    let mut client = Client::new();
    assert_eq!(client.ask("EVAL return\tARGV[1] 0 x"), bulk("x"));
    assert_eq!(client.ask("EVAL_RO return\t1 0"), ":1\r\n");
    assert!(client.ask("EVALSHA 0000000000000000000000000000000000000000 0").starts_with("-NOSCRIPT "));
    assert!(client.ask("FCALL none 0").starts_with("-ERR Function not found"));
    assert!(client.ask("FCALL squall_moves 0 1").starts_with("-ERR functions that begin"));
    assert!(client.ask("BLMPOP 0 0 LEFT").starts_with("-ERR numkeys should be greater than 0"));
    assert!(client.ask("COMMAND COUNT").starts_with(':') && client.ask("COMMAND DOCS get").starts_with('*'));
}

#[test]
#[ignore = "needs a proxy"]
fn streams_are_read() {
    let mut client = Client::new();
    assert_eq!(client.ask("XADD 1:0:x 5-5 f v"), bulk("5-5"));
    assert_eq!(client.ask("XREAD STREAMS 1:0:x 0"), read_of("1:0:x", &entry("5-5", "v")));
    assert_eq!(client.ask("XREAD COUNT 1 STREAMS 1:0:x 2:0:x 5-5 0"), "*-1\r\n");
    assert_eq!(client.ask("XREAD BLOCK 20 STREAMS 1:0:x 2:0:x $ $"), "*-1\r\n");
    assert_eq!(client.ask("XREAD BLOCK 0 STREAMS 1:0:x 0"), read_of("1:0:x", &entry("5-5", "v")));
    assert!(is_apart(&client.ask("XREAD STREAMS 1:0:x 900:0:x 0 0")));
    assert!(client.ask("XREAD BLOCK x STREAMS 1:0:x 0").starts_with("-ERR timeout is not an integer"));
    assert!(client.ask("XREAD BLOCK -1 STREAMS 1:0:x 0").starts_with("-ERR timeout is negative"));
    assert!(client.ask("XREAD STREAMS 1:0:x").starts_with("-ERR an unbalanced list"));
    assert!(client.ask("XREADGROUP GROUP g c STREAMS 1:0:x >").starts_with("-NOGROUP "));
    assert_eq!(client.ask("XGROUP CREATE 1:0:x g 0"), "+OK\r\n");
    let group = "XREADGROUP GROUP g c COUNT 1";
    assert_eq!(client.ask(&format!("{group} STREAMS 1:0:x >")), read_of("1:0:x", &entry("5-5", "v")));
    assert_eq!(client.ask(&format!("{group} BLOCK 20 STREAMS 1:0:x >")), "*-1\r\n");
    assert_eq!(client.ask("MULTI"), "+OK\r\n");
    assert_eq!(client.ask("XREAD BLOCK 0 STREAMS 1:0:x $"), "+QUEUED\r\n");
    assert_eq!(client.ask("EXEC"), "*1\r\n*-1\r\n");
    assert!(client.ask("HELLO 3").starts_with("%7"));
    let read = format!("%1\r\n{}*1\r\n{}", bulk("1:0:x"), entry("5-5", "v"));
    assert_eq!(client.ask("XREAD STREAMS 1:0:x 0"), read);
    assert_eq!(client.ask("XREAD BLOCK 20 STREAMS 1:0:x $"), "_\r\n");
    assert_eq!(client.ask("DEL 1:0:x"), ":1\r\n");
    assert_eq!(client.ask("SET 1:0:x v"), "+OK\r\n");
    assert!(client.ask("XREAD BLOCK 20 STREAMS 1:0:x $").starts_with("-WRONGTYPE "));
    assert_eq!(client.ask("DEL 1:0:x"), ":1\r\n");
}

/// What comes after an XREAD that waits is seen, also of a stream that was not there.
#[test]
#[ignore = "needs a proxy"]
fn waits_for_streams_see_what_comes() {
    let (mut client, mut other) = (Client::new(), Client::new());
    assert_eq!(other.ask("XADD 1:0:y 7-1 f old"), bulk("7-1"));
    for (line, key, id) in [
        ("XREAD BLOCK 0 STREAMS 1:0:y 2:0:y $ $", "1:0:y", "7-2"),
        ("XREAD BLOCK 60000 STREAMS 1:0:y 2:0:y $ $", "2:0:y", "1-1"),
        ("XREADGROUP GROUP g c BLOCK 0 STREAMS 1:0:y >", "1:0:y", "7-3"),
    ] {
        if line.starts_with("XREADGROUP") {
            assert_eq!(other.ask("XGROUP CREATE 1:0:y g $"), "+OK\r\n");
        }
        client.send(&command(line));
        until_waiting(1);
        sleep(Duration::from_millis(30));
        assert_eq!(other.ask(&format!("XADD {key} {id} f new")), bulk(id));
        assert_eq!(client.text(), read_of(key, &entry(id, "new")));
    }
    // A group whose stream goes.
    client.send(&command("XREADGROUP GROUP g c BLOCK 0 STREAMS 1:0:y >"));
    until_waiting(1);
    assert_eq!(other.ask("DEL 1:0:y 2:0:y"), ":2\r\n");
    let ended = client.text();
    assert!(ended.starts_with("-UNBLOCKED the stream key") || ended.starts_with("-NOGROUP "), "{ended}");
}

#[test]
#[ignore = "needs a proxy"]
fn keys_are_sorted() {
    let mut client = Client::new();
    assert_eq!(client.ask("RPUSH 1:0:l 3 1 2"), ":3\r\n");
    let sorted = format!("*3\r\n{}{}{}", bulk("1"), bulk("2"), bulk("3"));
    assert_eq!(client.ask("SORT 1:0:l"), sorted);
    assert_eq!(client.ask("SORT_RO 1:0:l LIMIT 0 1 DESC"), format!("*1\r\n{}", bulk("3")));
    assert_eq!(client.ask("SORT 1:0:l STORE 2:0:l"), ":3\r\n");
    assert_eq!(client.ask("LRANGE 2:0:l 0 -1"), sorted);
    assert_eq!(client.ask("SORT 1:0:l BY nosort LIMIT 0 1"), format!("*1\r\n{}", bulk("3")));
    assert!(is_apart(&client.ask("SORT 1:0:l STORE 900:0:l")));
    for line in ["SORT 1:0:l BY w_*", "SORT 1:0:l GET #", "SORT_RO 1:0:l GET d_*"] {
        assert!(client.ask(line).starts_with("-ERR a pattern of BY or GET"), "{line}");
    }
    assert!(client.ask("SORT_RO 1:0:l STORE 2:0:l").starts_with("-ERR "));
    assert!(client.ask("EVAL return\tredis.call('SORT',KEYS[1],'BY','w_*') 1 1:0:l").starts_with("-ERR "));
    assert_eq!(client.ask("DEL 1:0:l 2:0:l"), ":2\r\n");
}

#[test]
#[ignore = "needs a proxy"]
fn places_are_found_and_stored() {
    let mut client = Client::new();
    assert_eq!(client.ask("GEOADD 1:0:g 13.361389 38.115556 p 15.087269 37.502669 c"), ":2\r\n");
    let far = bulk("56.4413");
    for name in ["GEORADIUS", "GEORADIUS_RO"] {
        let line = format!("{name} 1:0:g 15 37 100 km WITHDIST");
        assert_eq!(client.ask(&line), format!("*1\r\n*2\r\n{}{far}", bulk("c")));
    }
    assert_eq!(client.ask("GEORADIUSBYMEMBER 1:0:g p 200 km STORE 2:0:g"), ":2\r\n");
    assert_eq!(client.ask("GEORADIUS 1:0:g 15 37 100 km STOREDIST 2:0:g"), ":1\r\n");
    assert_eq!(client.ask("ZCARD 2:0:g"), ":1\r\n");
    assert!(is_apart(&client.ask("GEORADIUS 1:0:g 15 37 100 km STORE 900:0:g")));
    let without = client.ask("GEORADIUSBYMEMBER 1:0:g p 200 km WITHCOORD");
    assert!(client.ask("HELLO 3").starts_with("%7"));
    let with = client.ask("GEORADIUSBYMEMBER 1:0:g p 200 km WITHCOORD");
    let numbers = |reply: &str| reply.matches("13.36138").count() + reply.matches("15.08726").count();
    assert_eq!((numbers(&without), numbers(&with)), (2, 2), "{with}");
    assert_eq!(client.ask("DEL 1:0:g 2:0:g"), ":2\r\n");
}

#[test]
#[ignore = "needs a proxy"]
fn dumps_are_restored() {
    let mut client = Client::new();
    assert_eq!(client.ask("SET 1:0:d 7"), "+OK\r\n");
    client.send(&command("DUMP 1:0:d"));
    let (dump, _) = Value::read(&client.hear().unwrap()).unwrap().unwrap();
    let dump = dump.bytes();
    let words = |key: &str, more: &[u8]| {
        let mut words = vec![&b"RESTORE"[..], key.as_bytes(), b"0", &dump];
        words.extend((!more.is_empty()).then_some(more));
        let mut bytes = Vec::new();
        squall_redis::resp::push(&mut bytes, &words);
        bytes
    };
    for (key, more, wanted) in [
        ("900:0:d", &b""[..], "+OK\r\n"),
        ("900:0:d", b"", "-BUSYKEY Target key name already exists.\r\n"),
        ("900:0:d", b"REPLACE", "+OK\r\n"),
    ] {
        client.send(&words(key, more));
        assert_eq!(client.text(), wanted);
    }
    assert_eq!(client.ask("GET 900:0:d"), bulk("7"));
    client.send(&words("squall:number", b"REPLACE"));
    assert!(client.text().starts_with("-ERR keys that begin with 'squall:'"));
    assert!(client.ask("RESTORE 1:0:d 0 x REPLACE").starts_with("-ERR "));
    assert_eq!(client.ask("DEL 1:0:d 900:0:d"), ":2\r\n");
}

#[test]
#[ignore = "needs a proxy"]
fn commands_may_be_lines() {
    let mut client = Client::new();
    client.send(b"PING\r\nset 1:0:i \"a b\\x41\"\n\r\n  get   1:0:i \r\n");
    client.send(&command("GET 1:0:i"));
    client.send(b"MULTI\r\nSET 1:0:i 'c'\r\nPING\r\nEXEC\r\nDEL 1:0:i\r\n");
    let quoted = bulk("a bA");
    for wanted in ["+PONG\r\n", "+OK\r\n", &quoted, &quoted, "+OK\r\n", "+QUEUED\r\n", "+QUEUED\r\n"] {
        assert_eq!(client.text(), wanted);
    }
    assert_eq!([client.text(), client.text()], ["*2\r\n+OK\r\n+PONG\r\n", ":1\r\n"]);
    // A line may come in pieces.
    for byte in b"ECHO abc\r\n" {
        client.send(&[*byte]);
    }
    assert_eq!(client.text(), bulk("abc"));
    for (line, why) in [(&b"GET \"a\r\n"[..], "unbalanced quotes"), (b"POST / HTTP/1.1\r\n", "a browser")] {
        let mut client = Client::new();
        client.send(line);
        assert!(client.text().starts_with(&format!("-ERR Protocol error: {why}")));
        assert_eq!(client.hear(), None);
    }
    let mut client = Client::new();
    client.send(&[b'x'; 1 << 16]);
    assert!(client.text().starts_with("-ERR Protocol error: too big inline request"));
}

/// Keys of other tests come and go meanwhile, but these stay.
#[test]
#[ignore = "needs a proxy"]
fn all_keys_are_named_and_counted() {
    let mut client = Client::new();
    let before: i64 = client.ask("DBSIZE")[1..].trim_end().parse().unwrap();
    let keys: Vec<String> = (0..300).map(|at| format!("{:03}:5:all", at * 3)).collect();
    for key in &keys {
        assert_eq!(client.ask(&format!("SET {key} x PX 3600000")), "+OK\r\n");
    }
    assert_eq!(texts(&client.ask("KEYS *:5:all")), keys);
    assert_eq!(texts(&client.ask("KEYS 003:5:all")), ["003:5:all"]);
    assert_eq!(client.ask("KEYS squall:*"), "*0\r\n");
    assert!(client.ask("KEYS").starts_with("-ERR wrong number"));
    let after: i64 = client.ask("DBSIZE")[1..].trim_end().parse().unwrap();
    assert_eq!(after - before, 300);
    let began = Instant::now();
    while !client.ask("RANDOMKEY").contains(":5:all") {
        assert!(began.elapsed() < Duration::from_secs(60), "no key was drawn");
    }
    let info = client.ask("INFO keyspace");
    assert!(info.contains(&format!("# Keyspace\r\ndb0:keys={after},expires=")), "{info}");
    assert!(client.ask("INFO replication").contains("role:master\r\n"));
    let course = if is_moving() { 2 } else { 1 };
    assert!(client.ask("INFO").contains(&format!("squall_course:{course}\r\n")));
    assert!(client.ask("HELLO 3").starts_with("%7"));
    assert_eq!(texts(&client.ask("KEYS *:5:all")), keys);
    assert!(client.ask("INFO server").starts_with('=') && client.ask("RANDOMKEY").starts_with('$'));
    assert_eq!(client.ask(&format!("DEL {}", keys.join(" "))), ":300\r\n");
    assert_eq!(client.ask("KEYS *:5:all"), "*0\r\n");
}

#[test]
#[ignore = "needs a proxy"]
fn clients_have_names() {
    let (mut client, mut other) = (Client::new(), Client::new());
    assert_eq!(client.ask("CLIENT GETNAME"), "$-1\r\n");
    assert_eq!(client.ask("CLIENT SETNAME me-7"), "+OK\r\n");
    assert_eq!(client.ask("CLIENT SETINFO LIB-NAME x"), "+OK\r\n");
    assert!(client.ask("CLIENT SETNAME a\nb").starts_with("-ERR Client names cannot contain"));
    assert_eq!(client.ask("CLIENT GETNAME"), bulk("me-7"));
    let id = client.ask("CLIENT ID")[1..].trim_end().to_string();
    assert_ne!(other.ask("CLIENT ID"), format!(":{id}\r\n"));
    // Clients of all threads are in the list.
    let list = other.ask(&format!("CLIENT LIST ID {id}"));
    assert!(list.contains(&format!("id={id} addr=127.0.0.1:")) && list.contains(" name=me-7 "), "{list}");
    assert!(other.ask("CLIENT LIST").matches("id=").count() >= 2);
    assert!(other.ask("CLIENT INFO").contains(" name= "));
    assert_eq!(client.ask("ACL WHOAMI"), bulk("default"));
    assert_eq!(client.ask("AUTH default any"), "+OK\r\n");
    assert!(client.ask("AUTH nobody any").starts_with("-WRONGPASS "));
    assert!(client.ask("HELLO 3 SETNAME you").starts_with("%7"));
    assert_eq!(client.ask("CLIENT GETNAME"), bulk("you"));
    assert_eq!(client.ask("MULTI"), "+OK\r\n");
    assert!(client.ask("HELLO 2").starts_with("-ERR "));
    assert_eq!(client.ask("WATCH x"), "-ERR WATCH inside MULTI is not allowed\r\n");
    assert_eq!(client.ask("RESET"), "+RESET\r\n");
    assert_eq!(client.ask("EXEC"), "-ERR EXEC without MULTI\r\n");
    assert_eq!(client.ask("CLIENT GETNAME"), "$-1\r\n");
    assert_eq!(client.ask("MULTI"), "+OK\r\n");
    assert_eq!(client.ask("QUIT"), "+OK\r\n");
    assert_eq!(client.hear(), None);
}

/// That one has a channel or pattern, or has it no more, and how many then.
fn told(verb: &str, name: &str, count: usize) -> String {
    format!("*3\r\n{}{}:{count}\r\n", bulk(verb), bulk(name))
}

fn message(channel: &str, text: &str) -> String {
    format!("*3\r\n{}{}{}", bulk("message"), bulk(channel), bulk(text))
}

#[test]
#[ignore = "needs a proxy"]
fn messages_are_heard() {
    let (mut client, mut other) = (Client::new(), Client::new());
    assert_eq!(other.ask("PUBLISH 1:0:c x"), ":0\r\n");
    client.send(&command("SUBSCRIBE 1:0:c 900:0:c hashed"));
    for (at, name) in ["1:0:c", "900:0:c", "hashed"].into_iter().enumerate() {
        assert_eq!(client.text(), told("subscribe", name, at + 1));
    }
    for name in ["1:0:c", "900:0:c", "hashed"] {
        assert_eq!(other.ask(&format!("PUBLISH {name} {name}")), ":1\r\n");
        assert_eq!(client.text(), message(name, name));
    }
    assert_eq!(client.ask("PSUBSCRIBE *:0:c"), told("psubscribe", "*:0:c", 4));
    assert_eq!(other.ask("PUBLISH 900:0:c two"), ":2\r\n");
    let by_pattern = ["pmessage", "*:0:c", "900:0:c", "two"].map(bulk).concat();
    assert_eq!([client.text(), client.text()], [message("900:0:c", "two"), format!("*4\r\n{by_pattern}")]);
    assert!(client.ask("GET a").starts_with("-ERR Can't execute 'get': only (P|S)SUBSCRIBE"));
    assert!(client.ask("HELLO 3").starts_with("-ERR Can't execute 'hello'"));
    assert_eq!(client.ask("PING"), format!("*2\r\n{}{}", bulk("pong"), bulk("")));
    assert_eq!(client.ask("PING x"), format!("*2\r\n{}{}", bulk("pong"), bulk("x")));
    assert_eq!(client.ask("SUBSCRIBE hashed"), told("subscribe", "hashed", 4));
    assert_eq!(client.ask("UNSUBSCRIBE none"), told("unsubscribe", "none", 4));
    client.send(&command("UNSUBSCRIBE"));
    for (left, name) in [(3, "1:0:c"), (2, "900:0:c"), (1, "hashed")] {
        assert_eq!(client.text(), told("unsubscribe", name, left));
    }
    assert_eq!(client.ask("PUNSUBSCRIBE *:0:c"), told("punsubscribe", "*:0:c", 0));
    assert_eq!(client.ask("PUNSUBSCRIBE"), format!("*3\r\n{}$-1\r\n:0\r\n", bulk("punsubscribe")));
    assert_eq!([client.ask("PING"), client.ask("GET 1:0:none")], ["+PONG\r\n", "$-1\r\n"]);
}

#[test]
#[ignore = "needs a proxy"]
fn subscribers_may_speak_resp3() {
    let (mut client, mut other) = (Client::new(), Client::new());
    assert!(client.ask("HELLO 3").starts_with("%7"));
    assert_eq!(client.ask("SUBSCRIBE 1:0:c"), told("subscribe", "1:0:c", 1).replacen('*', ">", 1));
    assert_eq!([client.ask("SET 1:0:c v"), client.ask("GET 1:0:c")], ["+OK\r\n", &bulk("v")]);
    // Messages come from scripts and transactions too, and one may publish what one hears.
    assert_eq!(other.ask("EVAL return\tredis.call('PUBLISH',KEYS[1],'a') 1 1:0:c"), ":1\r\n");
    assert_eq!(client.text(), message("1:0:c", "a").replacen('*', ">", 1));
    assert_eq!([other.ask("MULTI"), other.ask("PUBLISH 1:0:c b")], ["+OK\r\n", "+QUEUED\r\n"]);
    assert_eq!(other.ask("EXEC"), "*1\r\n:1\r\n");
    assert_eq!(client.text(), message("1:0:c", "b").replacen('*', ">", 1));
    client.send(&command("PUBLISH 1:0:c c"));
    let both = BTreeSet::from([client.text(), client.text()]);
    assert_eq!(both, BTreeSet::from([":1\r\n".into(), message("1:0:c", "c").replacen('*', ">", 1)]));
    assert_eq!(client.ask("RESET"), "+RESET\r\n");
    assert_eq!([client.ask("DEL 1:0:c"), other.ask("PUBLISH 1:0:c d")], [":1\r\n", ":0\r\n"]);
    for line in [
        "SUBSCRIBE",
        "PUBLISH a",
        "SUBSCRIBE __keyevent@0__:new",
        "PUBLISH __keyspace@0__:a x",
        "SSUBSCRIBE",
        "PUBSUB",
        "PUBSUB HELP",
        "PUBSUB NUMPAT x",
        "PUBSUB CHANNELS a b",
    ] {
        assert!(client.ask(line).starts_with("-ERR "), "{line}");
    }
    assert_eq!(client.ask("SUBSCRIBE a"), told("subscribe", "a", 1));
    assert_eq!(
        [client.ask("QUIT"), client.hear().map_or("closed".into(), |_| "open".into())],
        ["+OK\r\n", "closed"]
    );
}

/// A client of that protocol, and the mark of what it is sent unasked.
fn speaking(proto: u8) -> (Client, &'static str) {
    let mut client = Client::new();
    if proto == 3 {
        assert!(client.ask("HELLO 3").starts_with("%7"));
    }
    (client, if proto == 3 { ">" } else { "*" })
}

#[test]
#[ignore = "needs a proxy"]
fn sharded_channels_are_heard() {
    for proto in [2, 3] {
        let ((mut client, mark), (mut other, _)) = (speaking(proto), speaking(proto));
        let marked = |text: String| text.replacen('*', mark, 1);
        assert_eq!(other.ask("SPUBLISH 1:0:s x"), ":0\r\n");
        client.send(&command("SSUBSCRIBE 1:0:s 900:0:s hashed"));
        for (at, name) in ["1:0:s", "900:0:s", "hashed"].into_iter().enumerate() {
            assert_eq!(client.text(), marked(told("ssubscribe", name, at + 1)));
        }
        // Channels of the same name are others, and count apart.
        assert_eq!(client.ask("SUBSCRIBE 1:0:s"), marked(told("subscribe", "1:0:s", 1)));
        for name in ["1:0:s", "900:0:s", "hashed"] {
            assert_eq!(other.ask(&format!("SPUBLISH {name} {name}")), ":1\r\n");
            assert_eq!(client.text(), marked(message(name, name).replacen("$7\r\nm", "$8\r\nsm", 1)));
        }
        assert_eq!(other.ask("PUBLISH 1:0:s x"), ":1\r\n");
        assert_eq!(client.text(), marked(message("1:0:s", "x")));
        assert_eq!(client.ask("SUNSUBSCRIBE hashed none"), marked(told("sunsubscribe", "hashed", 2)));
        assert_eq!(client.text(), marked(told("sunsubscribe", "none", 2)));
        assert_eq!(client.ask("UNSUBSCRIBE"), marked(told("unsubscribe", "1:0:s", 0)));
        if proto == 2 {
            assert!(client.ask("GET a").starts_with("-ERR Can't execute 'get'"));
        }
        client.send(&command("SUNSUBSCRIBE"));
        for (left, name) in [(1, "1:0:s"), (0, "900:0:s")] {
            assert_eq!(client.text(), marked(told("sunsubscribe", name, left)));
        }
        assert_eq!(client.ask("GET 1:0:none"), if proto == 2 { "$-1\r\n" } else { "_\r\n" });
        assert_eq!([other.ask("MULTI"), other.ask("SPUBLISH 1:0:s b")], ["+OK\r\n", "+QUEUED\r\n"]);
        assert_eq!(other.ask("EXEC"), "*1\r\n:0\r\n");
    }
}

/// Asks until that is the answer: those who have gone are forgotten a little later.
fn until_answered(client: &mut Client, line: &str, wanted: &str) {
    let began = Instant::now();
    while client.ask(line) != wanted {
        assert!(began.elapsed() < Duration::from_secs(20), "{line}: {}", client.ask(line));
        sleep(Duration::from_millis(10));
    }
}

#[test]
#[ignore = "needs a proxy"]
fn subscriptions_are_shown() {
    for proto in [2, 3] {
        let ((mut client, _), (mut other, _)) = (speaking(proto), speaking(proto));
        let list = |names: &[&str]| {
            format!("*{}\r\n", names.len()) + &names.iter().map(|name| bulk(name)).collect::<String>()
        };
        until_answered(&mut other, "PUBSUB CHANNELS", "*0\r\n");
        until_answered(&mut other, "PUBSUB SHARDCHANNELS", "*0\r\n");
        until_answered(&mut other, "PUBSUB NUMPAT", ":0\r\n");
        client.send(&command("SUBSCRIBE 1:0:q 900:0:q hashed"));
        client.send(&command("PSUBSCRIBE *:q *:r"));
        client.send(&command("SSUBSCRIBE 900:0:q"));
        (0..6).for_each(|_| drop(client.text()));
        assert_eq!(other.ask("PUBSUB CHANNELS"), list(&["1:0:q", "900:0:q", "hashed"]));
        assert_eq!(other.ask("pubsub channels 9*"), list(&["900:0:q"]));
        assert_eq!(other.ask("PUBSUB SHARDCHANNELS"), list(&["900:0:q"]));
        assert_eq!(other.ask("PUBSUB NUMPAT"), ":2\r\n");
        let counts = |of: &[(&str, u8)]| {
            let pairs = of.iter().map(|(name, count)| format!("{}:{count}\r\n", bulk(name)));
            format!("*{}\r\n", 2 * of.len()) + &pairs.collect::<String>()
        };
        assert_eq!(
            other.ask("PUBSUB NUMSUB hashed none 1:0:q"),
            counts(&[("hashed", 1), ("none", 0), ("1:0:q", 1)])
        );
        assert_eq!(other.ask("PUBSUB SHARDNUMSUB 1:0:q 900:0:q"), counts(&[("1:0:q", 0), ("900:0:q", 1)]));
        assert_eq!(other.ask("PUBSUB NUMSUB"), "*0\r\n");
        // What has ended counts no more once that is answered.
        for (line, count) in [("UNSUBSCRIBE", 3), ("PUNSUBSCRIBE", 2), ("SUNSUBSCRIBE", 1)] {
            client.send(&command(line));
            (0..count).for_each(|_| drop(client.text()));
        }
        assert_eq!([other.ask("PUBSUB CHANNELS"), other.ask("PUBSUB SHARDCHANNELS")], ["*0\r\n", "*0\r\n"]);
        assert_eq!([other.ask("PUBSUB NUMPAT"), other.ask("PUBLISH hashed x")], [":0\r\n", ":0\r\n"]);
    }
}
