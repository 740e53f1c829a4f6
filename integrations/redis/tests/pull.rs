//! How the functions of a partition pull a key ahead of its chunk. `tools/integrations` starts an empty Redis server, and
//! names its address in SQUALL_REDIS.

mod partition;

use partition::{moving, Partition, BESIDE, IN, OUT as OUT_MOVE};
use squall_redis::conn::{Conn, Server};

/// The first key of the move that goes out, and of the one that comes in; ranks in each of them.
const OUT: &str = "0000000200000000";
const OUT_FIVE: &str = "0000000200000005";
const OUT_NINE: &str = "0000000200000009";
const OUT_END: &str = "0000000300000000";
const INTO: &str = "0000000500000000";
const FIVE: &str = "0000000500000005";
const SIX: &str = "0000000500000006";
const NINE: &str = "0000000500000009";

/// A partition that has shut out routers of other courses.
fn fenced() -> Partition {
    let mut it = moving();
    assert_eq!(it.call("squall_fence", &["2"]), "OK");
    it
}

fn give(it: &mut Partition, rank: &str) -> String {
    it.call("squall_pull_give", &["2", OUT, rank, "-", "0", "1000000"])
}

fn load(it: &mut Partition, rank: &str, generation: &str) -> String {
    it.call("squall_pull_load", &["2", INTO, rank, "4", generation])
}

/// Puts the value of the key `x` at another one of that rank, with that generation of the source.
fn put(it: &mut Partition, key: &str, rank: &str, generation: &str) -> String {
    it.0.put(&["DUMP", "x"]);
    it.0.flush().unwrap();
    let dump = it.0.hear().unwrap().bytes();
    let head = ["FCALL", "squall_put", "1", key, "2", rank, "0"].map(str::as_bytes);
    let rest: [&[u8]; 3] = [&dump, b"4", generation.as_bytes()];
    it.0.put(&[&head[..], &rest[..]].concat());
    it.0.flush().unwrap();
    it.0.hear().unwrap().text()
}

/// The lines of a function that answers a list.
fn lines(it: &mut Partition, words: &[&str]) -> Vec<String> {
    it.0.put(words);
    it.0.flush().unwrap();
    it.0.hear().unwrap().list().into_iter().map(|line| line.text()).collect()
}

#[test]
#[ignore = "needs a server"]
fn a_pulled_key_has_left_its_source() {
    let mut it = moving();
    assert_eq!(give(&mut it, OUT_NINE), "SQUALL EARLY");
    it.call("squall_fence", &["2"]);
    assert_eq!(give(&mut it, OUT_NINE), "given 3");
    assert_eq!(it.get(&[OUT_NINE]), "SQUALL MOVED 3 2");
    for rank in [OUT_FIVE, "0000000200000008", "000000020000000a"] {
        assert_eq!(it.get(&[rank]), "here");
    }
    // Once more, of another move, and of another course.
    assert_eq!(give(&mut it, OUT_NINE), "given 3");
    assert_eq!(give(&mut it, OUT_END), "SQUALL STRANGER");
    assert_eq!(it.call("squall_pull_give", &["2", INTO, FIVE, "-", "0", "1"]), "SQUALL STRANGER");
    assert_eq!(it.call("squall_pull_give", &["1", OUT, OUT_FIVE, "-", "0", "1"]), "SQUALL COURSE 2");
    // What a partition knows of it is read again with its data.
    it.ask(&["FUNCTION", "LOAD", "REPLACE", squall_redis::GUARD]);
    assert_eq!(it.get(&[OUT_NINE]), "SQUALL MOVED 3 2");
    assert_eq!(it.call("squall_check", &["2", OUT_NINE, OUT_FIVE]), "SQUALL SPLIT");
}

#[test]
#[ignore = "needs a server"]
fn a_large_key_is_not_pulled() {
    let mut it = fenced();
    let noise: String = (0..20_000_u64).map(|at| format!("{:x}", at * at * 2_654_435_761 + at)).collect();
    it.ask(&["SET", "large", &noise]);
    let give = ["FCALL", "squall_pull_give", "2", "x", "large", "2", OUT, OUT_NINE, "-", "0", "50000"];
    let said = it.ask(&give);
    assert!(said.starts_with("SQUALL LARGE 2 "), "{said}");
    assert_eq!(it.get(&[OUT_NINE]), "here");
}

#[test]
#[ignore = "needs a server"]
fn no_row_is_put_over_a_pulled_one() {
    let mut it = fenced();
    assert_eq!(put(&mut it, "a", FIVE, "70"), "put");
    assert_eq!(load(&mut it, FIVE, "70"), "loaded 3");
    assert_eq!((it.get(&[FIVE]).as_str(), it.get(&[SIX]).as_str()), ("here", "SQUALL PENDING 4"));
    assert_eq!(it.ask(&["EXISTS", "squall:arrived"]), "0");
    it.ask(&["SET", "a", "newer"]);
    // The chunk comes by, and a late pull.
    assert_eq!(put(&mut it, "a", FIVE, "71"), "loaded");
    assert_eq!(load(&mut it, FIVE, "71"), "loaded 3");
    let moves = lines(&mut it, &["FCALL", "squall_moves", "0", "2"]);
    assert!(moves[1].ends_with(&format!(" {INTO} {INTO} {FIVE}")), "{moves:?}");
    assert_eq!(it.call("squall_load", &["2", INTO, NINE, "4", "71"]), format!("{NINE} 4"));
    assert_eq!(
        (it.ask(&["GET", "a"]).as_str(), it.ask(&["EXISTS", "squall:pulled"]).as_str()),
        ("newer", "0")
    );
    assert_eq!(
        (put(&mut it, "a", FIVE, "71"), load(&mut it, FIVE, "71")),
        ("loaded".into(), "loaded 4".into())
    );
    assert_eq!(it.ask(&["EXISTS", "squall:pulled"]), "0");
}

/// A key that was pulled stays at its destination while the chunk around it goes back, also if the chunk was given before.
#[test]
#[ignore = "needs a server"]
fn a_pulled_key_does_not_go_back_with_a_chunk() {
    let mut it = fenced();
    assert_eq!(it.call("squall_give", &["2", OUT, OUT_NINE, "-", "0"]), format!("{OUT_NINE} 3"));
    assert_eq!(give(&mut it, OUT_FIVE), "given 4");
    assert_eq!(it.call("squall_take", &["2", OUT, OUT, "3", "50", "4"]), format!("{OUT} 5"));
    assert_eq!(
        (it.get(&[OUT_FIVE]), it.get(&["0000000200000004"])),
        ("SQUALL MOVED 3 2".into(), "here".into())
    );
    // At the destination it is none of the rows that go.
    assert_eq!(put(&mut it, "a", FIVE, "70"), "put");
    assert_eq!(load(&mut it, FIVE, "70"), "loaded 6");
    assert_eq!((put(&mut it, "b", NINE, "71"), put(&mut it, "c", SIX, "70")), ("put".into(), "put".into()));
    let back = |it: &mut Partition, rank| it.call("squall_back", &["2", INTO, INTO, "4", "71", rank]);
    assert_eq!(back(&mut it, FIVE), "SQUALL LOADED");
    assert_eq!(back(&mut it, SIX), format!("{INTO} 7"));
    assert_eq!((it.ask(&["EXISTS", "a"]), it.ask(&["EXISTS", "b", "c"])), ("1".into(), "0".into()));
    assert_eq!((it.get(&[FIVE]), it.get(&[NINE])), ("here".into(), "SQUALL ELSEWHERE 4".into()));
    // What was given before that is pulled no more.
    assert_eq!(load(&mut it, SIX, "71"), "SQUALL BACK 4");
    assert_eq!(load(&mut it, SIX, "72"), "loaded 8");
}

#[test]
#[ignore = "needs a server"]
fn a_pulled_key_goes_back_unless_it_is_loaded() {
    let mut it = fenced();
    give(&mut it, OUT_FIVE);
    let take = |it: &mut Partition, own| it.call("squall_pull_take", &["2", OUT, OUT_FIVE, "3", "50", own]);
    assert_eq!(take(&mut it, "2"), "SQUALL CHANGED");
    assert_eq!(take(&mut it, "3"), "taken 4");
    assert_eq!((take(&mut it, "3"), it.get(&[OUT_FIVE])), ("taken 4".into(), "here".into()));
    assert_eq!(give(&mut it, OUT_FIVE), "given 5");
    it.ask(&["FCALL", "squall_pull_forget", "1", "x", "2", OUT, OUT_FIVE, "3", "51"]);
    assert_eq!(take(&mut it, "6"), "SQUALL CHANGED");
    it.call("squall_since", &["3", "60"]);
    assert_eq!(take(&mut it, "6"), "SQUALL BEFORE 3");
}

#[test]
#[ignore = "needs a server"]
fn what_was_pulled_is_forgotten_once() {
    let mut it = fenced();
    let forget = |it: &mut Partition, rank, key: &str| {
        it.ask(&["FCALL", "squall_pull_forget", "1", key, "2", OUT, rank, "3", "9"])
    };
    assert_eq!(forget(&mut it, OUT_FIVE, "x"), "SQUALL STRANGER");
    assert_eq!(it.ask(&["EXISTS", "x"]), "1");
    for rank in [OUT_FIVE, OUT_NINE] {
        give(&mut it, rank);
    }
    it.ask(&["SET", "y", "row"]);
    assert_eq!(forget(&mut it, OUT_FIVE, "x"), "forgotten 5");
    assert_eq!(
        (forget(&mut it, OUT_FIVE, "x"), forget(&mut it, OUT_FIVE, "y")),
        ("forgotten 5".into(), "forgotten 6".into())
    );
    assert_eq!(give(&mut it, OUT_FIVE), "forgotten 6");
    let state = |it: &mut Partition| it.ask(&["HGET", "squall:pulled", OUT_FIVE]);
    assert_eq!(state(&mut it), "forgotten:2");
    // What the source may have back keeps it.
    it.call("squall_give", &["2", OUT, OUT_END, "-", "0"]);
    assert_eq!(state(&mut it), "forgotten:2");
    it.call("squall_forget", &["2", OUT, OUT_NINE, "3", "10"]);
    assert_eq!((state(&mut it), it.ask(&["HGET", "squall:gone", OUT])), (String::new(), "2".into()));
    assert_eq!(it.ask(&["HGET", "squall:pulled", OUT_NINE]), "given");
    assert_eq!(
        (give(&mut it, OUT_FIVE), it.ask(&["HLEN", "squall:pulled"])),
        ("forgotten 8".into(), "1".into())
    );
    // The next course knows nothing of it.
    it.call("squall_forget", &["2", OUT, OUT_END, "3", "11"]);
    load(&mut it, FIVE, "70");
    it.call("squall_load", &["2", INTO, "0000000600000000", "4", "71"]);
    assert!(it.begin(&["3", "B", "C", "known"]).starts_with("begun "));
    assert_eq!(it.ask(&["EXISTS", "squall:pulled"]), "0");
}

/// A transaction after a check is not done if its key was pulled in between.
#[test]
#[ignore = "needs a server"]
fn a_pull_ends_a_transaction() {
    let give = ["FCALL", "squall_pull_give", "0", "2", OUT, OUT_NINE, "-", "0", "1"];
    let load = ["FCALL", "squall_pull_load", "0", "2", INTO, FIVE, "4", "70"];
    for (change, wanted) in [(&["PING"][..], "OK"), (&give, ""), (&load, "")] {
        let mut it = fenced();
        it.ask(&["WATCH", "squall:number", "squall:edge"]);
        assert_eq!(it.call("squall_check", &["2", OUT_NINE]), "here");
        let addr = std::env::var("SQUALL_REDIS").unwrap();
        let mut other = Partition(Conn::open(&Server::plain(addr.parse().unwrap())).unwrap());
        other.ask(change);
        it.ask(&["MULTI"]);
        it.ask(&["SET", "x", "done"]);
        assert_eq!(lines(&mut it, &["EXEC"]).concat(), wanted, "{change:?}");
    }
}

#[test]
#[ignore = "needs a server"]
fn a_source_keeps_no_more_of_them() {
    let mut it = fenced();
    for second in 0..1024_u64 {
        assert!(give(&mut it, &format!("{:016x}", (2_u64 << 32) + 100 + second)).starts_with("given "));
    }
    assert_eq!(give(&mut it, OUT_FIVE), "SQUALL FULL 1024");
    assert_eq!(
        (it.get(&[OUT_FIVE]), it.get(&["0000000200000064"])),
        ("here".into(), "SQUALL MOVED 3 2".into())
    );
    it.call("squall_give", &["2", OUT, "0000000200000066", "-", "0"]);
    it.call("squall_forget", &["2", OUT, "0000000200000066", "3", "9"]);
    assert!(give(&mut it, "0000000200000fff").starts_with("given "));
}

/// A partition that goes on with less knows what the other end says of it.
#[test]
#[ignore = "needs a server"]
fn what_is_accepted_was_pulled() {
    let mut it = fenced();
    assert_eq!(
        (put(&mut it, "a", NINE, "70"), put(&mut it, "b", "0000000500000010", "70")),
        ("put".into(), "put".into())
    );
    let lines = [
        format!("{OUT_MOVE} 0000000200000008+{OUT_FIVE}+{OUT_NINE}"),
        format!("{IN} {FIVE}+{NINE}"),
        format!("{BESIDE} {}", &BESIDE[..16]),
    ];
    let head = ["2", "A", "B", "2:50:0"];
    let words: Vec<&str> = head.into_iter().chain(lines.iter().map(String::as_str)).collect();
    assert_eq!(it.call("squall_accept", &words), "accepted 50");
    // A chunk that was given around one of them goes back without it.
    assert_eq!(it.call("squall_take", &["2", OUT, OUT, "3", "50", "50"]), format!("{OUT} 51"));
    for rank in [OUT_FIVE, OUT_NINE] {
        assert_eq!(it.get(&[rank]), "SQUALL MOVED 3 2");
        assert_eq!(it.ask(&["HGET", "squall:pulled", rank]), "given");
    }
    assert_eq!(
        (it.get(&["0000000200000006"]), it.get(&[NINE]), it.get(&[SIX])),
        ("here".into(), "here".into(), "SQUALL PENDING 4".into())
    );
    assert_eq!(put(&mut it, "late", NINE, "99"), "loaded");
    assert_eq!(it.ask(&["HLEN", "squall:pulled"]), "3");
    // Its row stays there as others go back.
    assert_eq!(it.call("squall_back", &["2", INTO, FIVE, "4", "99"]), format!("{FIVE} 52"));
    assert_eq!((it.ask(&["EXISTS", "a"]), it.ask(&["EXISTS", "b"])), ("1".into(), "0".into()));
}
