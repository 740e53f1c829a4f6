//! How the functions of a partition move a chunk, and give it back. `tools/integrations` starts an empty Redis server, and
//! names its address in SQUALL_REDIS.

mod partition;

use partition::{moving, Partition, BESIDE, IN, OUT as OUT_MOVE};

/// The first key of the move that goes out, and of the one that comes in; a rank in each of them.
const OUT: &str = "0000000200000000";
const INTO: &str = "0000000500000000";
const OUT_FIVE: &str = "0000000200000005";
const FIVE: &str = "0000000500000005";
const NINE: &str = "0000000500000009";

/// Puts the value of the key `x` at another one of that rank, with that generation of the source.
fn put(it: &mut Partition, key: &str, rank: &str, generation: &str) -> String {
    it.0.put(&["DUMP", "x"]);
    it.0.flush().unwrap();
    let dump = it.0.hear().unwrap().bytes();
    let head = ["FCALL", "squall_put", "1", key, "2", rank, "0"].map(str::as_bytes);
    let rest: [&[u8]; 3] = [&dump, b"4", generation.as_bytes()];
    it.0.put(&[&head[..], &rest[..]].concat());
    it.0.flush().unwrap();
    it.0.hear().unwrap().text()
}

fn exist(it: &mut Partition, keys: &[&str]) -> String {
    it.ask(&[&["EXISTS"], keys].concat())
}

#[test]
#[ignore = "needs a server"]
fn a_key_that_is_too_large_is_not_given() {
    let mut it = moving();
    it.ask(&["SETRANGE", "packs", "100000", "x"]);
    it.ask(&["SET", "small", "x"]);
    let noise: String = (0..20_000_u64).map(|at| format!("{:x}", at * at * 2_654_435_761 + at)).collect();
    it.ask(&["SET", "large", &noise]);
    let give = |it: &mut Partition, keys: &[&str], most| {
        let (count, tail) = (keys.len().to_string(), ["2", OUT, OUT_FIVE, "-", "0", most]);
        it.ask(&[&["FCALL", "squall_give", &count], keys, &tail].concat())
    };
    let said = give(&mut it, &["small", "packs", "gone", "large"], "50000");
    assert!(said.starts_with("SQUALL LARGE 4 "), "{said}");
    // One of which a dump would be of no use is not dumped.
    assert!(give(&mut it, &["packs"], "10000").starts_with("SQUALL LARGE 1 1"));
    assert_eq!(it.get(&["0000000200000004"]), "here");
    assert_eq!(it.call("squall_give", &["2", OUT, OUT, "-", "0"]), format!("{OUT} 2"));
    assert_eq!(give(&mut it, &["small", "packs"], "50000"), format!("{OUT_FIVE} 3"));
    // What was given stays so.
    assert_eq!(give(&mut it, &["large"], "50000"), format!("{OUT_FIVE} 3"));
    it.0.put(&["FCALL", "squall_large", "3", "small", "large", "gone", "50000"]);
    it.0.flush().unwrap();
    let large = it.0.hear().unwrap().list();
    assert_eq!((large.len(), large[0].clone().text()), (2, "2".to_string()));
}

#[test]
#[ignore = "needs a server"]
fn what_goes_back_is_not_loaded() {
    let mut it = moving();
    assert_eq!(put(&mut it, "a", "0000000500000001", "70"), "put");
    assert_eq!(it.call("squall_load", &["2", INTO, "0000000500000002", "4", "70"]), "0000000500000002 3");
    assert_eq!(put(&mut it, "b", "0000000500000003", "71"), "put");
    assert_eq!(put(&mut it, "c", NINE, "72"), "put");
    // It is not loaded up to there, or a row was put with a later generation.
    assert_eq!(it.call("squall_back", &["2", INTO, INTO, "4", "72"]), "0000000500000002 0");
    assert_eq!(it.call("squall_back", &["2", INTO, FIVE, "4", "72"]), "0000000500000002 0");
    assert_eq!(it.call("squall_back", &["2", INTO, "0000000500000002", "4", "71"]), "SQUALL CHANGED");
    assert_eq!((exist(&mut it, &["a", "b", "c"]), it.get(&[FIVE])), ("3".into(), "SQUALL PENDING 4".into()));
    for _ in 0..2 {
        assert_eq!(it.call("squall_back", &["2", INTO, "0000000500000002", "4", "72"]), "0000000500000002 4");
    }
    assert_eq!((exist(&mut it, &["a"]), exist(&mut it, &["b", "c"])), ("1".into(), "0".into()));
    assert_eq!(it.get(&[FIVE]), "SQUALL ELSEWHERE 4");
    // A late row, and a late load. One that changes nothing is no harm.
    assert_eq!(put(&mut it, "b", "0000000500000003", "72"), "SQUALL BACK 4");
    assert_eq!(it.call("squall_load", &["2", INTO, FIVE, "4", "72"]), "SQUALL BACK 4");
    assert_eq!(it.call("squall_load", &["2", INTO, FIVE]), "SQUALL BACK 4");
    assert_eq!(it.call("squall_load", &["2", INTO, "0000000500000002", "4", "70"]), "0000000500000002 4");
    // It is given once more.
    assert_eq!(put(&mut it, "b", "0000000500000003", "74"), "put");
    assert_eq!(it.get(&[FIVE]), "SQUALL PENDING 4");
    assert_eq!(it.call("squall_load", &["2", INTO, FIVE, "4", "74"]), format!("{FIVE} 5"));
    assert_eq!((it.get(&["0000000500000003"]).as_str(), it.ask(&["GET", "b"]).as_str()), ("here", "here"));
    assert_eq!(exist(&mut it, &["squall:arrived"]), "0");
}

/// Only rows that are not loaded go, and each one's name may be anything.
#[test]
#[ignore = "needs a server"]
fn rows_that_are_loaded_stay() {
    let mut it = moving();
    for (key, rank) in [("", INTO), ("x", "0000000500000001"), ("squal", FIVE), ("y", NINE)] {
        assert_eq!(put(&mut it, key, rank, "70"), "put");
    }
    assert_eq!(it.call("squall_load", &["2", INTO, FIVE, "4", "70"]), format!("{FIVE} 3"));
    assert_eq!(it.ask(&["ZCARD", "squall:arrived"]), "2");
    assert_eq!(it.call("squall_back", &["2", INTO, FIVE, "4", "70"]), format!("{FIVE} 4"));
    assert_eq!((exist(&mut it, &["", "x"]), exist(&mut it, &["squal", "y"])), ("2".into(), "0".into()));
    // What a partition knows of it is read again with its data.
    it.ask(&["FUNCTION", "LOAD", "REPLACE", squall_redis::GUARD]);
    assert_eq!(put(&mut it, "y", NINE, "70"), "SQUALL BACK 4");
    assert_eq!(it.call("squall_load", &["2", INTO, "0000000600000000", "4", "71"]), "0000000600000000 5");
    it.call("squall_give", &["2", OUT, "0000000300000000"]);
    it.call("squall_forget", &["2", OUT, "0000000300000000"]);
    assert_eq!(it.begin(&["3", "B", "C", "known"]), "begun 8");
    assert_eq!(exist(&mut it, &["squall:back", "squall:put", "squall:arrived"]), "0");
}

#[test]
#[ignore = "needs a server"]
fn a_source_takes_back_what_is_not_loaded() {
    let mut it = moving();
    let give = |it: &mut Partition, edge| it.call("squall_give", &["2", OUT, edge, "-", "0"]);
    assert_eq!(give(&mut it, OUT_FIVE), format!("{OUT_FIVE} 3"));
    assert_eq!(give(&mut it, "0000000200000009"), "0000000200000009 4");
    let take = |it: &mut Partition, edge, own| it.call("squall_take", &["2", OUT, edge, "3", "50", own]);
    // Nothing is given above that, or it has done another step since.
    assert_eq!(take(&mut it, "0000000200000009", "4"), "0000000200000009 0");
    assert_eq!(take(&mut it, OUT_FIVE, "3"), "SQUALL CHANGED");
    it.call("squall_forget", &["2", OUT, OUT_FIVE]);
    assert_eq!(take(&mut it, OUT, "5"), "SQUALL CHANGED");
    assert_eq!(it.get(&["0000000200000007"]), "SQUALL MOVED 3 2");
    assert_eq!(take(&mut it, OUT_FIVE, "5"), format!("{OUT_FIVE} 6"));
    assert_eq!(take(&mut it, OUT_FIVE, "5"), format!("{OUT_FIVE} 0"));
    assert_eq!(it.get(&["0000000200000007"]), "here");
    assert_eq!(it.get(&["0000000200000004"]), "SQUALL MOVED 3 2");
    assert_eq!(it.ask(&["HGET", "squall:seen", "3"]), "50");
    // Its destination was let in with less since it has refused them.
    assert_eq!(give(&mut it, "0000000200000009"), "0000000200000009 7");
    it.call("squall_since", &["3", "60"]);
    assert_eq!(take(&mut it, OUT_FIVE, "7"), "SQUALL BEFORE 3");
    assert_eq!(it.call("squall_take", &["1", OUT, OUT_FIVE, "3", "60", "7"]), "SQUALL COURSE 2");
}

/// A partition that has lost its keys, and that it has refused a chunk, refuses it once it is let in with less.
#[test]
#[ignore = "needs a server"]
fn what_was_refused_before_a_loss_is_refused() {
    let mut it = moving();
    assert_eq!(it.call("squall_back", &["2", INTO, INTO, "4", "72"]), format!("{INTO} 3"));
    it.ask(&["FLUSHALL"]);
    it.ask(&["FUNCTION", "LOAD", "REPLACE", squall_redis::GUARD]);
    it.ask(&["SET", "x", "here"]);
    let raised = [OUT_MOVE, IN, BESIDE].map(|line| format!("{line} {}", &line[..16]));
    let head = ["2", "A", "B", "0:50:0:4=73:3=8"];
    let words: Vec<&str> = head.into_iter().chain(raised.iter().map(String::as_str)).collect();
    assert_eq!(it.call("squall_accept", &words), "accepted 50");
    assert_eq!(put(&mut it, "late", FIVE, "72"), "SQUALL BEFORE 4");
    assert_eq!(it.call("squall_load", &["2", INTO, FIVE, "4", "72"]), "SQUALL BEFORE 4");
    assert_eq!(it.get(&["0000000500000001"]), "SQUALL PENDING 4");
    // The source has given it once more, and would be missed with less.
    assert_eq!(put(&mut it, "late", FIVE, "73"), "put");
    assert_eq!(it.call("squall_load", &["2", INTO, NINE, "4", "73"]), format!("{NINE} 51"));
    assert_eq!(
        (it.ask(&["HGET", "squall:seen", "4"]), it.ask(&["HGET", "squall:seen", "3"])),
        ("73".into(), "8".into())
    );
    assert_eq!((it.get(&[FIVE]).as_str(), it.ask(&["GET", "late"]).as_str()), ("here", "here"));
}
