//! The commands and the categories that rules of users name.

use super::commands::{find, Command, Keys, Kind};
use super::plan::shown;
use super::table::{COMMANDS, READS};
use std::collections::BTreeSet;

/// Commands that are not in the table, and can be allowed. Any client may call AUTH, HELLO, QUIT and RESET.
#[rustfmt::skip]
pub const OTHERS: [&str; 26] = [
    "ACL", "CLIENT", "CLIENT|LIST", "DBSIZE", "DISCARD", "ECHO", "EXEC", "INFO", "KEYS", "MULTI", "PING",
    "PSUBSCRIBE", "PUBSUB", "PUNSUBSCRIBE", "RANDOMKEY", "SCAN", "SCRIPT", "SELECT", "SQUALL", "SSUBSCRIBE", "SUBSCRIBE",
    "SUNSUBSCRIBE", "TIME", "UNSUBSCRIBE", "UNWATCH", "WATCH",
];
/// Those that only read beside the table's, for whoever gives rights.
pub const MORE_READS: [&str; 7] = ["BITFIELD_RO", "DBSIZE", "KEYS", "PFCOUNT", "RANDOMKEY", "SCAN", "XREAD"];
/// Those that Redis calls dangerous, and what shows the proxy.
pub const DANGEROUS: [&str; 7] = ["CLIENT|LIST", "INFO", "KEYS", "RESTORE", "SORT", "SORT_RO", "SQUALL"];

/// Commands whose second word is a part of their name.
const WITH_SUBCOMMANDS: [&str; 9] =
    ["ACL", "CLIENT", "COMMAND", "MEMORY", "OBJECT", "PUBSUB", "SCRIPT", "XGROUP", "XINFO"];

/// The name of a command as rules have it, and of a subcommand if it has a right of its own.
pub fn known(name: &[u8], sub: Option<&[u8]>) -> Option<&'static str> {
    let is_list =
        name.eq_ignore_ascii_case(b"CLIENT") && sub.is_some_and(|sub| sub.eq_ignore_ascii_case(b"LIST"));
    if is_list {
        return Some("CLIENT|LIST");
    }
    let other = OTHERS.iter().find(|other| name.eq_ignore_ascii_case(other.as_bytes()));
    find(name).map(|command| command.name).or(other.copied())
}

/// The name of a command with its subcommand, as errors have it.
pub fn full_name(name: &str, sub: Option<&[u8]>) -> String {
    let sub = sub.filter(|_| WITH_SUBCOMMANDS.contains(&name)).map(shown);
    let full = sub.map_or(name.to_string(), |sub| format!("{name}|{sub}"));
    full.to_ascii_lowercase()
}

/// Whether a command does a script.
pub fn is_script(name: &str) -> bool {
    name == "SCRIPT" || find(name.as_bytes()).is_some_and(|command| command.kind == Kind::Script)
}

/// The commands of a category.
pub fn category(name: &str) -> Option<BTreeSet<&'static str>> {
    let is_of_keys =
        |it: &&Command| !matches!(it.keys, Keys::None | Keys::Channel) && it.kind != Kind::Script;
    let of_keys = COMMANDS.iter().filter(is_of_keys).map(|it| it.name);
    Some(match name {
        "all" => COMMANDS.iter().map(|it| it.name).chain(OTHERS).collect(),
        "read" => READS.iter().copied().chain(MORE_READS).collect(),
        "write" => of_keys.filter(|name| !READS.contains(name) && !MORE_READS.contains(name)).collect(),
        "dangerous" => DANGEROUS.into(),
        _ => return None,
    })
}

/// The name of a rule's command.
pub fn rule_name(name: &str) -> Option<&'static str> {
    let mut parts = name.splitn(2, '|').map(str::as_bytes);
    let (name, sub) = (parts.next()?, parts.next());
    known(name, sub).filter(|known| known.contains('|') == sub.is_some())
}
