//! The table of all commands that a proxy passes on.

use super::commands::{row, Command, Guard, Keys, Kind, Split};

/// What a command does to the data of a server.
#[derive(Clone, Copy, Debug, PartialEq)]
pub enum Effect {
    /// It reads. Any server does it that has its data.
    Reads,
    /// It changes keys, and needs no memory.
    Frees,
    /// It may need memory.
    Grows,
}

/// The commands that only read, by name. `PFCOUNT` is none: it may keep its count.
#[rustfmt::skip]
pub const READS: &[&str] = &[
    "BITCOUNT", "BITPOS", "DUMP", "EXISTS", "EXPIRETIME", "GEODIST", "GEOHASH", "GEOPOS", "GEORADIUSBYMEMBER_RO",
    "GEORADIUS_RO", "GEOSEARCH", "GET", "GETBIT", "GETRANGE", "HEXISTS", "HGET", "HGETALL", "HKEYS", "HLEN",
    "HMGET", "HRANDFIELD", "HSCAN", "HSTRLEN", "HVALS", "LCS", "LINDEX", "LLEN", "LPOS", "LRANGE", "MEMORY", "MGET",
    "OBJECT", "PEXPIRETIME", "PTTL", "SCARD", "SDIFF", "SINTER", "SINTERCARD", "SISMEMBER", "SMEMBERS",
    "SMISMEMBER", "SORT_RO", "SRANDMEMBER", "SSCAN", "STRLEN", "SUBSTR", "SUNION", "TOUCH", "TTL", "TYPE", "XINFO", "XLEN",
    "XPENDING", "XRANGE", "XREVRANGE", "ZCARD", "ZCOUNT", "ZDIFF", "ZINTER", "ZINTERCARD", "ZLEXCOUNT", "ZMSCORE",
    "ZRANDMEMBER", "ZRANGE", "ZRANGEBYLEX", "ZRANGEBYSCORE", "ZRANK", "ZREVRANGE", "ZREVRANGEBYLEX",
    "ZREVRANGEBYSCORE", "ZREVRANK", "ZSCAN", "ZSCORE", "ZUNION",
];

/// Those that change keys and that a server without memory does, by name.
#[rustfmt::skip]
pub const FREES: &[&str] = &[
    "DEL", "EXPIRE", "EXPIREAT", "GETDEL", "GETEX", "HDEL", "LMPOP", "LPOP", "LREM", "LTRIM", "PERSIST", "PEXPIRE",
    "PEXPIREAT", "PFCOUNT", "RENAME", "RENAMENX", "RPOP", "SMOVE", "SPOP", "SREM", "UNLINK", "XACK", "XAUTOCLAIM",
    "XCLAIM", "XDEL", "XTRIM", "ZMPOP", "ZPOPMAX", "ZPOPMIN", "ZREM", "ZREMRANGEBYLEX", "ZREMRANGEBYRANK",
    "ZREMRANGEBYSCORE",
];

/// All commands, by name.
#[rustfmt::skip]
pub const COMMANDS: &[Command] = &[
    row("APPEND", Kind::Text, Keys::Range(1, 1, 1), Guard::Both, None),
    row("BITCOUNT", Kind::Bitmap, Keys::Range(1, 1, 1), Guard::Both, None),
    row("BITFIELD", Kind::Bitmap, Keys::Range(1, 1, 1), Guard::Never, None),
    row("BITFIELD_RO", Kind::Bitmap, Keys::Range(1, 1, 1), Guard::Never, None),
    row("BITOP", Kind::Bitmap, Keys::Range(2, -1, 1), Guard::Both, None),
    row("BITPOS", Kind::Bitmap, Keys::Range(1, 1, 1), Guard::Both, None),
    row("BLMOVE", Kind::Blocking, Keys::Range(1, 2, 1), Guard::Never, None),
    row("BLMPOP", Kind::Blocking, Keys::Named(2), Guard::Never, None),
    row("BLPOP", Kind::Blocking, Keys::Range(1, -2, 1), Guard::Never, None),
    row("BRPOP", Kind::Blocking, Keys::Range(1, -2, 1), Guard::Never, None),
    row("BRPOPLPUSH", Kind::Blocking, Keys::Range(1, 2, 1), Guard::Never, None),
    row("BZMPOP", Kind::Blocking, Keys::Named(2), Guard::Never, None),
    row("BZPOPMAX", Kind::Blocking, Keys::Range(1, -2, 1), Guard::Never, None),
    row("BZPOPMIN", Kind::Blocking, Keys::Range(1, -2, 1), Guard::Never, None),
    row("COMMAND", Kind::Own, Keys::None, Guard::Never, None),
    row("COPY", Kind::Key, Keys::Range(1, 2, 1), Guard::Both, None),
    row("DECR", Kind::Text, Keys::Range(1, 1, 1), Guard::Both, None),
    row("DECRBY", Kind::Text, Keys::Range(1, 1, 1), Guard::Both, None),
    row("DEL", Kind::Key, Keys::Range(1, -1, 1), Guard::Both, Some(Split::Sum)),
    row("DUMP", Kind::Key, Keys::Range(1, 1, 1), Guard::Both, None),
    row("EVAL", Kind::Script, Keys::Named(2), Guard::Never, None),
    row("EVALSHA", Kind::Script, Keys::Named(2), Guard::Never, None),
    row("EVALSHA_RO", Kind::Script, Keys::Named(2), Guard::Never, None),
    row("EVAL_RO", Kind::Script, Keys::Named(2), Guard::Never, None),
    row("EXISTS", Kind::Key, Keys::Range(1, -1, 1), Guard::Both, Some(Split::Sum)),
    row("EXPIRE", Kind::Key, Keys::Range(1, 1, 1), Guard::Both, None),
    row("EXPIREAT", Kind::Key, Keys::Range(1, 1, 1), Guard::Both, None),
    row("EXPIRETIME", Kind::Key, Keys::Range(1, 1, 1), Guard::Both, None),
    row("FCALL", Kind::Script, Keys::Named(2), Guard::Never, None),
    row("FCALL_RO", Kind::Script, Keys::Named(2), Guard::Never, None),
    row("GEOADD", Kind::Geo, Keys::Range(1, 1, 1), Guard::Both, None),
    row("GEODIST", Kind::Geo, Keys::Range(1, 1, 1), Guard::Both, None),
    row("GEOHASH", Kind::Geo, Keys::Range(1, 1, 1), Guard::Two, None),
    row("GEOPOS", Kind::Geo, Keys::Range(1, 1, 1), Guard::Resp2, None),
    row("GEORADIUS", Kind::Geo, Keys::Geo, Guard::Both, None),
    row("GEORADIUSBYMEMBER", Kind::Geo, Keys::Geo, Guard::Both, None),
    row("GEORADIUSBYMEMBER_RO", Kind::Geo, Keys::Range(1, 1, 1), Guard::Both, None),
    row("GEORADIUS_RO", Kind::Geo, Keys::Range(1, 1, 1), Guard::Both, None),
    row("GEOSEARCH", Kind::Geo, Keys::Range(1, 1, 1), Guard::Both, None),
    row("GEOSEARCHSTORE", Kind::Geo, Keys::Range(1, 2, 1), Guard::Both, None),
    row("GET", Kind::Text, Keys::Range(1, 1, 1), Guard::Both, None),
    row("GETBIT", Kind::Bitmap, Keys::Range(1, 1, 1), Guard::Both, None),
    row("GETDEL", Kind::Text, Keys::Range(1, 1, 1), Guard::Both, None),
    row("GETEX", Kind::Text, Keys::Range(1, 1, 1), Guard::Both, None),
    row("GETRANGE", Kind::Text, Keys::Range(1, 1, 1), Guard::Both, None),
    row("GETSET", Kind::Text, Keys::Range(1, 1, 1), Guard::Both, None),
    row("HDEL", Kind::Hash, Keys::Range(1, 1, 1), Guard::Both, None),
    row("HEXISTS", Kind::Hash, Keys::Range(1, 1, 1), Guard::Both, None),
    row("HGET", Kind::Hash, Keys::Range(1, 1, 1), Guard::Both, None),
    row("HGETALL", Kind::Hash, Keys::Range(1, 1, 1), Guard::Both, None),
    row("HINCRBY", Kind::Hash, Keys::Range(1, 1, 1), Guard::Both, None),
    row("HINCRBYFLOAT", Kind::Hash, Keys::Range(1, 1, 1), Guard::Both, None),
    row("HKEYS", Kind::Hash, Keys::Range(1, 1, 1), Guard::Both, None),
    row("HLEN", Kind::Hash, Keys::Range(1, 1, 1), Guard::Both, None),
    row("HMGET", Kind::Hash, Keys::Range(1, 1, 1), Guard::Two, None),
    row("HMSET", Kind::Hash, Keys::Range(1, 1, 1), Guard::Both, None),
    row("HRANDFIELD", Kind::Hash, Keys::Range(1, 1, 1), Guard::Both, None),
    row("HSCAN", Kind::Hash, Keys::Range(1, 1, 1), Guard::Both, None),
    row("HSET", Kind::Hash, Keys::Range(1, 1, 1), Guard::Both, None),
    row("HSETNX", Kind::Hash, Keys::Range(1, 1, 1), Guard::Both, None),
    row("HSTRLEN", Kind::Hash, Keys::Range(1, 1, 1), Guard::Both, None),
    row("HVALS", Kind::Hash, Keys::Range(1, 1, 1), Guard::Both, None),
    row("INCR", Kind::Text, Keys::Range(1, 1, 1), Guard::Both, None),
    row("INCRBY", Kind::Text, Keys::Range(1, 1, 1), Guard::Both, None),
    row("INCRBYFLOAT", Kind::Text, Keys::Range(1, 1, 1), Guard::Both, None),
    row("LCS", Kind::Text, Keys::Range(1, 2, 1), Guard::Both, None),
    row("LINDEX", Kind::List, Keys::Range(1, 1, 1), Guard::Both, None),
    row("LINSERT", Kind::List, Keys::Range(1, 1, 1), Guard::Both, None),
    row("LLEN", Kind::List, Keys::Range(1, 1, 1), Guard::Both, None),
    row("LMOVE", Kind::List, Keys::Range(1, 2, 1), Guard::Both, None),
    row("LMPOP", Kind::List, Keys::Counted(1), Guard::Both, None),
    row("LPOP", Kind::List, Keys::Range(1, 1, 1), Guard::Both, None),
    row("LPOS", Kind::List, Keys::Range(1, 1, 1), Guard::Both, None),
    row("LPUSH", Kind::List, Keys::Range(1, 1, 1), Guard::Both, None),
    row("LPUSHX", Kind::List, Keys::Range(1, 1, 1), Guard::Both, None),
    row("LRANGE", Kind::List, Keys::Range(1, 1, 1), Guard::Both, None),
    row("LREM", Kind::List, Keys::Range(1, 1, 1), Guard::Both, None),
    row("LSET", Kind::List, Keys::Range(1, 1, 1), Guard::Both, None),
    row("LTRIM", Kind::List, Keys::Range(1, 1, 1), Guard::Both, None),
    row("MEMORY", Kind::Key, Keys::Range(2, 2, 1), Guard::Both, None),
    row("MGET", Kind::Text, Keys::Range(1, -1, 1), Guard::Two, Some(Split::List)),
    row("MSET", Kind::Text, Keys::Range(1, -1, 2), Guard::Both, Some(Split::Done)),
    row("MSETNX", Kind::Text, Keys::Range(1, -1, 2), Guard::Both, None),
    row("OBJECT", Kind::Key, Keys::Range(2, 2, 1), Guard::Both, None),
    row("PERSIST", Kind::Key, Keys::Range(1, 1, 1), Guard::Both, None),
    row("PEXPIRE", Kind::Key, Keys::Range(1, 1, 1), Guard::Both, None),
    row("PEXPIREAT", Kind::Key, Keys::Range(1, 1, 1), Guard::Both, None),
    row("PEXPIRETIME", Kind::Key, Keys::Range(1, 1, 1), Guard::Both, None),
    row("PFADD", Kind::HyperLogLog, Keys::Range(1, 1, 1), Guard::Both, None),
    row("PFCOUNT", Kind::HyperLogLog, Keys::Range(1, -1, 1), Guard::Both, None),
    row("PFMERGE", Kind::HyperLogLog, Keys::Range(1, -1, 1), Guard::Both, None),
    row("PSETEX", Kind::Text, Keys::Range(1, 1, 1), Guard::Both, None),
    row("PTTL", Kind::Key, Keys::Range(1, 1, 1), Guard::Both, None),
    row("PUBLISH", Kind::PubSub, Keys::Channel, Guard::Never, None),
    row("RENAME", Kind::Key, Keys::Range(1, 2, 1), Guard::Both, None),
    row("RENAMENX", Kind::Key, Keys::Range(1, 2, 1), Guard::Both, None),
    row("RESTORE", Kind::Key, Keys::Range(1, 1, 1), Guard::Both, None),
    row("RPOP", Kind::List, Keys::Range(1, 1, 1), Guard::Both, None),
    row("RPOPLPUSH", Kind::List, Keys::Range(1, 2, 1), Guard::Both, None),
    row("RPUSH", Kind::List, Keys::Range(1, 1, 1), Guard::Both, None),
    row("RPUSHX", Kind::List, Keys::Range(1, 1, 1), Guard::Both, None),
    row("SADD", Kind::Set, Keys::Range(1, 1, 1), Guard::Both, None),
    row("SCARD", Kind::Set, Keys::Range(1, 1, 1), Guard::Both, None),
    row("SDIFF", Kind::Set, Keys::Range(1, -1, 1), Guard::Both, None),
    row("SDIFFSTORE", Kind::Set, Keys::Range(1, -1, 1), Guard::Both, None),
    row("SET", Kind::Text, Keys::Range(1, 1, 1), Guard::Both, None),
    row("SETBIT", Kind::Bitmap, Keys::Range(1, 1, 1), Guard::Both, None),
    row("SETEX", Kind::Text, Keys::Range(1, 1, 1), Guard::Both, None),
    row("SETNX", Kind::Text, Keys::Range(1, 1, 1), Guard::Both, None),
    row("SETRANGE", Kind::Text, Keys::Range(1, 1, 1), Guard::Both, None),
    row("SINTER", Kind::Set, Keys::Range(1, -1, 1), Guard::Both, None),
    row("SINTERCARD", Kind::Set, Keys::Counted(1), Guard::Both, None),
    row("SINTERSTORE", Kind::Set, Keys::Range(1, -1, 1), Guard::Both, None),
    row("SISMEMBER", Kind::Set, Keys::Range(1, 1, 1), Guard::Both, None),
    row("SMEMBERS", Kind::Set, Keys::Range(1, 1, 1), Guard::Both, None),
    row("SMISMEMBER", Kind::Set, Keys::Range(1, 1, 1), Guard::Both, None),
    row("SMOVE", Kind::Set, Keys::Range(1, 2, 1), Guard::Both, None),
    row("SORT", Kind::Key, Keys::Sort, Guard::Both, None),
    row("SORT_RO", Kind::Key, Keys::Sort, Guard::Both, None),
    row("SPOP", Kind::Set, Keys::Range(1, 1, 1), Guard::Both, None),
    row("SPUBLISH", Kind::PubSub, Keys::Channel, Guard::Never, None),
    row("SRANDMEMBER", Kind::Set, Keys::Range(1, 1, 1), Guard::Both, None),
    row("SREM", Kind::Set, Keys::Range(1, 1, 1), Guard::Both, None),
    row("SSCAN", Kind::Set, Keys::Range(1, 1, 1), Guard::Both, None),
    row("STRLEN", Kind::Text, Keys::Range(1, 1, 1), Guard::Both, None),
    row("SUBSTR", Kind::Text, Keys::Range(1, 1, 1), Guard::Both, None),
    row("SUNION", Kind::Set, Keys::Range(1, -1, 1), Guard::Both, None),
    row("SUNIONSTORE", Kind::Set, Keys::Range(1, -1, 1), Guard::Both, None),
    row("TOUCH", Kind::Key, Keys::Range(1, -1, 1), Guard::Both, Some(Split::Sum)),
    row("TTL", Kind::Key, Keys::Range(1, 1, 1), Guard::Both, None),
    row("TYPE", Kind::Key, Keys::Range(1, 1, 1), Guard::Both, None),
    row("UNLINK", Kind::Key, Keys::Range(1, -1, 1), Guard::Both, Some(Split::Sum)),
    row("XACK", Kind::Stream, Keys::Range(1, 1, 1), Guard::Both, None),
    row("XADD", Kind::Stream, Keys::Range(1, 1, 1), Guard::Both, None),
    row("XAUTOCLAIM", Kind::Stream, Keys::Range(1, 1, 1), Guard::Both, None),
    row("XCLAIM", Kind::Stream, Keys::Range(1, 1, 1), Guard::Both, None),
    row("XDEL", Kind::Stream, Keys::Range(1, 1, 1), Guard::Both, None),
    row("XGROUP", Kind::Stream, Keys::Range(2, 2, 1), Guard::Both, None),
    row("XINFO", Kind::Stream, Keys::Range(2, 2, 1), Guard::Resp2, None),
    row("XLEN", Kind::Stream, Keys::Range(1, 1, 1), Guard::Both, None),
    row("XPENDING", Kind::Stream, Keys::Range(1, 1, 1), Guard::Two, None),
    row("XRANGE", Kind::Stream, Keys::Range(1, 1, 1), Guard::Both, None),
    row("XREAD", Kind::Stream, Keys::Streams, Guard::Never, None),
    row("XREADGROUP", Kind::Stream, Keys::Streams, Guard::Never, None),
    row("XREVRANGE", Kind::Stream, Keys::Range(1, 1, 1), Guard::Both, None),
    row("XSETID", Kind::Stream, Keys::Range(1, 1, 1), Guard::Both, None),
    row("XTRIM", Kind::Stream, Keys::Range(1, 1, 1), Guard::Both, None),
    row("ZADD", Kind::SortedSet, Keys::Range(1, 1, 1), Guard::Both, None),
    row("ZCARD", Kind::SortedSet, Keys::Range(1, 1, 1), Guard::Both, None),
    row("ZCOUNT", Kind::SortedSet, Keys::Range(1, 1, 1), Guard::Both, None),
    row("ZDIFF", Kind::SortedSet, Keys::Counted(1), Guard::Both, None),
    row("ZDIFFSTORE", Kind::SortedSet, Keys::Counted(2), Guard::Both, None),
    row("ZINCRBY", Kind::SortedSet, Keys::Range(1, 1, 1), Guard::Both, None),
    row("ZINTER", Kind::SortedSet, Keys::Counted(1), Guard::Both, None),
    row("ZINTERCARD", Kind::SortedSet, Keys::Counted(1), Guard::Both, None),
    row("ZINTERSTORE", Kind::SortedSet, Keys::Counted(2), Guard::Both, None),
    row("ZLEXCOUNT", Kind::SortedSet, Keys::Range(1, 1, 1), Guard::Both, None),
    row("ZMPOP", Kind::SortedSet, Keys::Counted(1), Guard::Both, None),
    row("ZMSCORE", Kind::SortedSet, Keys::Range(1, 1, 1), Guard::Resp2, None),
    row("ZPOPMAX", Kind::SortedSet, Keys::Range(1, 1, 1), Guard::Both, None),
    row("ZPOPMIN", Kind::SortedSet, Keys::Range(1, 1, 1), Guard::Both, None),
    row("ZRANDMEMBER", Kind::SortedSet, Keys::Range(1, 1, 1), Guard::Both, None),
    row("ZRANGE", Kind::SortedSet, Keys::Range(1, 1, 1), Guard::Both, None),
    row("ZRANGEBYLEX", Kind::SortedSet, Keys::Range(1, 1, 1), Guard::Both, None),
    row("ZRANGEBYSCORE", Kind::SortedSet, Keys::Range(1, 1, 1), Guard::Both, None),
    row("ZRANGESTORE", Kind::SortedSet, Keys::Range(1, 2, 1), Guard::Both, None),
    row("ZRANK", Kind::SortedSet, Keys::Range(1, 1, 1), Guard::Both, None),
    row("ZREM", Kind::SortedSet, Keys::Range(1, 1, 1), Guard::Both, None),
    row("ZREMRANGEBYLEX", Kind::SortedSet, Keys::Range(1, 1, 1), Guard::Both, None),
    row("ZREMRANGEBYRANK", Kind::SortedSet, Keys::Range(1, 1, 1), Guard::Both, None),
    row("ZREMRANGEBYSCORE", Kind::SortedSet, Keys::Range(1, 1, 1), Guard::Both, None),
    row("ZREVRANGE", Kind::SortedSet, Keys::Range(1, 1, 1), Guard::Both, None),
    row("ZREVRANGEBYLEX", Kind::SortedSet, Keys::Range(1, 1, 1), Guard::Both, None),
    row("ZREVRANGEBYSCORE", Kind::SortedSet, Keys::Range(1, 1, 1), Guard::Both, None),
    row("ZREVRANK", Kind::SortedSet, Keys::Range(1, 1, 1), Guard::Both, None),
    row("ZSCAN", Kind::SortedSet, Keys::Range(1, 1, 1), Guard::Both, None),
    row("ZSCORE", Kind::SortedSet, Keys::Range(1, 1, 1), Guard::Both, None),
    row("ZUNION", Kind::SortedSet, Keys::Counted(1), Guard::Both, None),
    row("ZUNIONSTORE", Kind::SortedSet, Keys::Counted(2), Guard::Both, None),
];

#[cfg(test)]
mod tests {
    use super::super::commands::Guard;
    use super::*;
    use crate::conn::{Conn, Server};
    use crate::resp::Value;

    #[test]
    fn names_are_in_order() {
        for names in [READS, FREES] {
            assert!(names.windows(2).all(|two| two[0] < two[1]));
        }
    }

    /// What a server says that the command of a row does.
    fn said(conn: &mut Conn, name: &str) -> Effect {
        let name = match name {
            "MEMORY" => "MEMORY|USAGE",
            "OBJECT" => "OBJECT|ENCODING",
            "XGROUP" => "XGROUP|CREATE",
            "XINFO" => "XINFO|STREAM",
            name => name,
        };
        let info =
            conn.ask(&["COMMAND", "INFO", name]).unwrap().list().remove(0).list().swap_remove(2).list();
        let flags: Vec<String> = info.into_iter().map(Value::text).collect();
        let has = |flag: &str| flags.iter().any(|it| it == flag);
        if has("readonly") && name != "PFCOUNT" {
            Effect::Reads
        } else if has("denyoom") {
            Effect::Grows
        } else {
            Effect::Frees
        }
    }

    #[test]
    #[ignore = "needs a server"]
    fn effects_are_those_of_the_server() {
        let addr = std::env::var("SQUALL_REDIS").expect("SQUALL_REDIS");
        let mut conn = Conn::open(&Server::plain(addr.parse().unwrap())).unwrap();
        for command in COMMANDS.iter().filter(|it| it.guard != Guard::Never) {
            assert_eq!(command.effect(), said(&mut conn, command.name), "{}", command.name);
        }
    }
}
