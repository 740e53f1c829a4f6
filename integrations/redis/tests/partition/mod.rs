//! A partition for the tests of its functions.

use squall_redis::conn::{Conn, Server};
use squall_redis::GUARD;

pub const OUT: &str = "0000000200000000 0000000300000000 out 3";
pub const IN: &str = "0000000500000000 0000000600000000 in 4";
pub const BESIDE: &str = "0000000700000000 0000000800000000 none 6";

/// A partition, over the server that SQUALL_REDIS names.
pub struct Partition(pub Conn);

impl Partition {
    /// A partition in course 1 of plan A.
    pub fn new() -> Partition {
        let addr = std::env::var("SQUALL_REDIS").expect("SQUALL_REDIS");
        let server = Server::plain(addr.parse().unwrap());
        let mut partition = Partition(Conn::open(&server).unwrap());
        partition.ask(&["FLUSHALL"]);
        partition.ask(&["FUNCTION", "LOAD", "REPLACE", GUARD]);
        assert_eq!(partition.begin(&["1", "A", "A", "fresh"]), "begun 1");
        partition
    }

    pub fn ask(&mut self, words: &[&str]) -> String {
        self.0.put(words);
        self.0.flush().unwrap();
        self.0.hear().unwrap().text()
    }

    pub fn call(&mut self, function: &str, args: &[&str]) -> String {
        self.ask(&[&["FCALL", function, "0"], args].concat())
    }

    pub fn begin(&mut self, args: &[&str]) -> String {
        let may = self.call("squall_may_begin", args);
        let did = self.call("squall_begin", args);
        // What may not begin did not.
        assert_eq!(may.starts_with("SQUALL "), did.starts_with("SQUALL "), "{may} {did}");
        did
    }

    pub fn get(&mut self, ranks: &[&str]) -> String {
        let count = ranks.len().to_string();
        self.call("squall_do", &[&["2", "2", &count], ranks, &["GET", "x"]].concat())
    }
}

/// A partition in course 2, from which keys of root 2 go to 3, and to which keys of root 5 come from 4.
pub fn moving() -> Partition {
    let mut partition = Partition::new();
    assert_eq!(partition.begin(&["2", "A", "B", "known", OUT, IN, BESIDE]), "begun 2");
    partition.ask(&["SET", "x", "here"]);
    partition
}
