//! A routing proxy and a mover over plain Redis servers.
//!
//! Each partition is a redis-server. [`keymap`] says which key of squall a Redis key belongs to, the
//! functions in `guard.lua` make a server say whether it holds a key, and [`bus`] carries what routers
//! know over Redis streams. `integrations/PROTOCOL.md` says how these work together.

pub mod args;
pub mod bus;
pub mod check;
pub mod config;
pub mod conn;
pub mod course;
pub mod diary;
pub mod dice;
pub mod fault;
pub mod faults;
pub mod http;
pub mod keep_alive;
pub mod keeper;
pub mod keymap;
pub mod log;
pub mod metrics;
pub mod mover;
pub mod proxy;
pub mod resp;
pub mod secret;
pub mod stop;
pub mod tls;

/// The functions of a partition.
pub const GUARD: &str = concat!(
    include_str!("guard.lua"),
    include_str!("begin.lua"),
    include_str!("chunk.lua"),
    include_str!("pull.lua"),
    include_str!("losses.lua")
);

/// The user as which a router of the course `number` logs in at a partition.
pub fn user(number: impl std::fmt::Display) -> String {
    format!("squall-{number}")
}
