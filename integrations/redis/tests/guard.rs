//! What the functions of a partition answer. `tools/integrations` starts an empty Redis server, and
//! names its address in SQUALL_REDIS.

mod partition;

use partition::{moving, Partition, BESIDE, IN, OUT};
use squall_redis::conn::{Conn, Server};
use squall_redis::resp::Value;
use squall_redis::GUARD;

#[test]
#[ignore = "needs a server"]
fn replies_follow_the_edges() {
    let mut it = moving();
    for (rank, wanted) in [
        ("0000000100000000", "here"),
        ("0000000200000000", "here"),
        ("00000002ffffffff", "here"),
        ("0000000500000000", "SQUALL PENDING 4"),
        ("0000000600000000", "here"),
        ("0000000700000001", "SQUALL ELSEWHERE 6"),
    ] {
        assert_eq!(it.get(&[rank]), wanted, "{rank}");
    }
    assert_eq!(it.call("squall_give", &["2", "0000000200000000", "0000000200000005"]), "0000000200000005");
    assert_eq!(it.call("squall_load", &["2", "0000000500000000", "0000000500000005"]), "0000000500000005");
    for (rank, wanted) in [
        ("0000000200000004", "SQUALL MOVED 3 2"),
        ("0000000200000005", "here"),
        ("0000000500000004", "here"),
        ("0000000500000005", "SQUALL PENDING 4"),
    ] {
        assert_eq!(it.get(&[rank]), wanted, "{rank}");
    }
    // Edges never fall.
    assert_eq!(it.call("squall_give", &["2", "0000000200000000", "0000000200000001"]), "0000000200000005");
    assert_eq!(it.get(&["0000000200000004"]), "SQUALL MOVED 3 2");
}

#[test]
#[ignore = "needs a server"]
fn several_keys_have_one_reply() {
    let mut it = moving();
    it.call("squall_give", &["2", "0000000200000000", "0000000200000005"]);
    let (moved, here) = ("0000000200000001", "0000000200000009");
    assert_eq!(it.get(&[here, "0000000100000000"]), "here");
    assert_eq!(it.get(&[moved, moved]), "SQUALL MOVED 3 2");
    assert_eq!(it.get(&[moved, here]), "SQUALL SPLIT");
    assert_eq!(it.get(&[here, moved]), "SQUALL SPLIT");
}

#[test]
#[ignore = "needs a server"]
fn a_check_says_where_keys_are() {
    let mut it = moving();
    it.call("squall_give", &["2", "0000000200000000", "0000000200000005"]);
    let (moved, here) = ("0000000200000001", "0000000200000009");
    for (ranks, wanted) in [
        (&[here][..], "here"),
        (&[here, "0000000100000000"], "here"),
        (&[moved], "SQUALL MOVED 3 2"),
        (&[here, moved], "SQUALL SPLIT"),
        (&["0000000500000000"], "SQUALL PENDING 4"),
        (&["0000000700000001"], "SQUALL ELSEWHERE 6"),
    ] {
        assert_eq!(it.call("squall_check", &[&["2"], ranks].concat()), wanted, "{ranks:?}");
    }
    assert_eq!(it.call("squall_check", &["1", here]), "SQUALL COURSE 2");
}

/// A transaction after a check is not done if keys were given, loaded, or a course begun in between.
#[test]
#[ignore = "needs a server"]
fn what_changes_after_a_check_ends_a_transaction() {
    let give = ["FCALL", "squall_give", "0", "2", "0000000200000000", "0000000200000005"];
    let load = ["FCALL", "squall_load", "0", "2", "0000000500000000", "0000000500000005"];
    for (change, wanted) in [(&["PING"][..], "OK"), (&give, ""), (&load, ""), (&["GET", "x"], "OK")] {
        let mut it = moving();
        it.ask(&["WATCH", "squall:number", "squall:edge"]);
        assert_eq!(it.call("squall_check", &["2", "0000000200000001"]), "here");
        let addr = std::env::var("SQUALL_REDIS").unwrap();
        let mut other = Partition(Conn::open(&Server::plain(addr.parse().unwrap())).unwrap());
        other.ask(change);
        it.ask(&["MULTI"]);
        it.ask(&["SET", "x", "done"]);
        it.0.put(&["EXEC"]);
        it.0.flush().unwrap();
        let done = it.0.hear().unwrap().list();
        let said = done.into_iter().next().map_or(String::new(), |value| value.text());
        assert_eq!(said, wanted, "{change:?}");
    }
}

#[test]
#[ignore = "needs a server"]
fn commands_of_another_course_are_refused() {
    let mut it = moving();
    let ask = ["1", "2", "1", "0000000100000000", "SET", "x", "late"];
    assert_eq!(it.call("squall_do", &ask), "SQUALL COURSE 2");
    assert_eq!(it.call("squall_moves", &["1"]), "SQUALL COURSE 2");
    assert_eq!(it.call("squall_give", &["1", "0000000200000000", "0000000200000005"]), "SQUALL COURSE 2");
    assert_eq!(it.ask(&["GET", "x"]), "here");
}

#[test]
#[ignore = "needs a server"]
fn a_put_is_done_only_while_its_key_is_pending() {
    let mut it = moving();
    it.0.put(&["DUMP", "x"]);
    it.0.flush().unwrap();
    let dump = it.0.hear().unwrap().bytes();
    let mut put = |number: &str, rank: &str| {
        let head: [&[u8]; 4] = [b"FCALL", b"squall_put", b"1", b"y"];
        let rest: [&[u8]; 4] = [number.as_bytes(), rank.as_bytes(), b"0", &dump];
        it.0.put(&[head, rest].concat());
        it.0.flush().unwrap();
        it.0.hear().unwrap().text()
    };
    assert_eq!(put("2", "0000000500000001"), "put");
    assert_eq!(put("2", "0000000500000001"), "put");
    assert_eq!(put("1", "0000000500000001"), "SQUALL COURSE 2");
    assert_eq!(put("2", "0000000200000001"), "SQUALL STRANGER");
    assert_eq!(put("2", "0000000100000001"), "SQUALL STRANGER");
    it.call("squall_load", &["2", "0000000500000000", "0000000500000002"]);
    it.ask(&["SET", "y", "newer"]);
    let head: [&[u8]; 4] = [b"FCALL", b"squall_put", b"1", b"y"];
    let rest: [&[u8]; 4] = [b"2", b"0000000500000001", b"0", &dump];
    it.0.put(&[head, rest].concat());
    it.0.flush().unwrap();
    assert_eq!(it.0.hear().unwrap().text(), "loaded");
    assert_eq!(it.ask(&["GET", "y"]), "newer");
}

#[test]
#[ignore = "needs a server"]
fn only_what_was_given_is_forgotten() {
    let mut it = moving();
    let (lo, five, nine) = ("0000000200000000", "0000000200000005", "0000000200000009");
    it.call("squall_give", &["2", lo, five]);
    let forget = |it: &mut Partition, edge| it.ask(&["FCALL", "squall_forget", "1", "x", "2", lo, edge]);
    assert_eq!(forget(&mut it, nine), "SQUALL STRANGER");
    assert_eq!(it.ask(&["GET", "x"]), "here");
    assert_eq!(forget(&mut it, five), five);
    assert_eq!(it.ask(&["EXISTS", "x"]), "0");
}

#[test]
#[ignore = "needs a server"]
fn courses_begin_one_after_another() {
    let mut it = moving();
    let words = ["2", "A", "B", "known", OUT, IN, BESIDE];
    assert_eq!(it.begin(&words), "again 2");
    assert_eq!(it.begin(&words[..6]), "SQUALL CLASH 2");
    assert_eq!(it.begin(&["2", "A", "C", "known", OUT, IN, BESIDE]), "SQUALL CLASH 2");
    assert_eq!(it.begin(&["1", "A", "A", "fresh"]), "SQUALL LATE 2");
    assert_eq!(it.begin(&["3", "B", "C", "known"]), "SQUALL RUNNING 2 0000000200000000");
    it.call("squall_give", &["2", "0000000200000000", "0000000300000000"]);
    it.call("squall_forget", &["2", "0000000200000000", "0000000300000000"]);
    assert_eq!(it.begin(&["3", "B", "C", "known"]), "SQUALL RUNNING 2 0000000500000000");
    it.call("squall_load", &["2", "0000000500000000", "0000000600000000"]);
    assert_eq!(it.begin(&["3", "A", "C", "known"]), "SQUALL OTHER 2");
    assert_eq!(it.begin(&["4", "B", "C", "known"]), "SQUALL GAP 2");
    // One that the old plan gives no keys may have missed courses.
    assert_eq!(it.begin(&["7", "B", "C", "fresh"]), "begun 6");
    assert_eq!(it.call("squall_moves", &["7", "C"]), "");
    assert_eq!(it.call("squall_moves", &["7", "A"]), "SQUALL CLASH 7");
}

#[test]
#[ignore = "needs a server"]
fn an_empty_partition_is_no_known_one() {
    let mut it = Partition::new();
    it.ask(&["FLUSHALL"]);
    it.ask(&["FUNCTION", "LOAD", "REPLACE", GUARD]);
    assert_eq!(it.begin(&["2", "A", "B", "known"]), "SQUALL EMPTY");
    assert_eq!(it.begin(&["2", "A", "B", "fresh"]), "begun 1");
}

/// The generation, the fence, the run, and what was seen of others.
fn state(it: &mut Partition) -> Vec<String> {
    it.0.put(&["FCALL", "squall_state", "0"]);
    it.0.flush().unwrap();
    let said = it.0.hear().unwrap().list();
    said.into_iter()
        .skip(1)
        .take(4)
        .map(|word| match word {
            Value::List(pairs) => pairs.into_iter().map(Value::text).collect::<Vec<_>>().join(" "),
            word => word.text(),
        })
        .collect()
}

#[test]
#[ignore = "needs a server"]
fn each_step_raises_the_generation() {
    let mut it = moving();
    assert_eq!(state(&mut it), ["2", "", "", ""]);
    let (out, into, five) = ("0000000200000000", "0000000500000000", "0000000500000005");
    // Without a generation of the other end, as of an earlier mover, none is said.
    assert_eq!(it.call("squall_give", &["2", out, "0000000200000005"]), "0000000200000005");
    assert_eq!(it.call("squall_give", &["2", out, "0000000200000005", "-", "0"]), "0000000200000005 3");
    assert_eq!(it.call("squall_load", &["2", into, five, "4", "70"]), format!("{five} 4"));
    assert_eq!(it.call("squall_load", &["2", into, five, "4", "60"]), format!("{five} 4"));
    let forget = ["FCALL", "squall_forget", "1", "x", "2", out, "0000000200000005", "3", "9"];
    assert_eq!(it.ask(&forget), "0000000200000005 5");
    assert_eq!(it.call("squall_fence", &["2", "4", "71", "6", "1"]), "OK");
    assert_eq!(it.call("squall_fence", &["1", "4", "99"]), "SQUALL COURSE 2");
    it.call("squall_run", &["abc"]);
    assert_eq!(state(&mut it), ["5", "2", "abc", "4 71 3 9 6 1"]);
    assert_eq!(it.ask(&["HGET", "squall:gone", out]), "1");
    // A late mover knows of what the other end has lost since.
    it.call("squall_since", &["4", "100"]);
    assert_eq!(it.call("squall_load", &["2", into, "0000000500000009", "4", "99"]), "SQUALL BEFORE 4");
    it.ask(&["SET", "y", "row"]);
    it.0.put(&["DUMP", "y"]);
    it.0.flush().unwrap();
    let dump = it.0.hear().unwrap().bytes();
    let mut put = |generation: &str| {
        let head: [&[u8]; 6] = [b"FCALL", b"squall_put", b"1", b"y", b"2", b"0000000500000007"];
        let rest: [&[u8]; 4] = [b"0", &dump, b"4", generation.as_bytes()];
        it.0.put(&[&head[..], &rest[..]].concat());
        it.0.flush().unwrap();
        it.0.hear().unwrap().text()
    };
    assert_eq!((put("99").as_str(), put("100").as_str()), ("SQUALL BEFORE 4", "put"));
    assert_eq!(it.call("squall_load", &["2", into, "0000000500000009", "4", "100"]), "0000000500000009 6");
}

#[test]
#[ignore = "needs a server"]
fn what_is_accepted_has_the_edges_of_others() {
    let mut it = moving();
    let raised: Vec<String> =
        [OUT, IN, BESIDE].iter().map(|line| format!("{line} {}", &line[..16])).collect();
    let mut words = vec!["2", "A", "B", "1:50:7"];
    words.extend(raised.iter().map(String::as_str));
    // Another mover has done something since.
    assert_eq!(it.call("squall_accept", &words), "SQUALL CHANGED");
    words[3] = "2:50:7";
    words[1] = "C";
    assert_eq!(it.call("squall_accept", &words), "SQUALL CLASH 2");
    words[1] = "A";
    let out = format!("{OUT} 0000000200000005");
    words[4] = &out;
    assert_eq!(it.call("squall_accept", &words), "accepted 50");
    assert_eq!(it.get(&["0000000200000004"]), "SQUALL MOVED 3 2");
    // A later course begins with what there is, whether or not the last one was over.
    let later = ["4", "B", "C", "50:60:1", "0000000500000000 0000000600000000 in 4 0000000500000003"];
    assert_eq!(it.call("squall_accept", &later), "accepted 60");
    it.ask(&["SET", "x", "here"]);
    let wanted = "SQUALL PENDING 4";
    let get = |rank| ["4", "2", "1", rank, "GET", "x"];
    assert_eq!(it.call("squall_do", &get("0000000500000002")), "here");
    assert_eq!(it.call("squall_do", &get("0000000500000003")), wanted);
    assert_eq!(it.call("squall_accept", &["3", "B", "C", "60:70:0"]), "SQUALL LATE 4");
    assert_eq!(it.ask(&["HGET", "squall:losses", "rows"]), "8");
}

#[test]
#[ignore = "needs a server"]
fn a_fresh_one_outgrows_what_was_seen_of_it() {
    let mut it = Partition::new();
    assert_eq!(it.begin(&["7", "B", "C", "fresh:42"]), "begun 43");
    assert_eq!(it.begin(&["8", "C", "D", "fresh:5"]), "begun 44");
}
