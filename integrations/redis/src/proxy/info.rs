//! `INFO`: what the partitions say of themselves, as one server would say it.

use super::visit::Heard;
use std::fmt::Write as _;

/// What a proxy says of itself.
pub struct Own {
    pub port: u16,
    pub uptime: u64,
    pub clients: usize,
    pub most_clients: usize,
    pub connections: u64,
    pub commands: u64,
    pub course: u32,
}

/// How the values of one field are joined.
#[derive(Clone, Copy)]
enum Join {
    /// As a sum.
    Sum,
    /// As a sum of numbers with a fraction.
    Fraction,
    /// As the largest.
    Most,
    /// As the first.
    First,
}

/// The fields that are those of the partitions, by section.
const FIELDS: [(&str, &[(&str, Join)]); 6] = [
    ("Server", &[("redis_version", Join::First), ("os", Join::First), ("arch_bits", Join::First)]),
    ("Clients", &[("blocked_clients", Join::Sum)]),
    (
        "Memory",
        &[
            ("used_memory", Join::Sum),
            ("used_memory_rss", Join::Sum),
            ("used_memory_peak", Join::Sum),
            ("used_memory_dataset", Join::Sum),
            ("total_system_memory", Join::Most),
            ("maxmemory", Join::Sum),
            ("maxmemory_policy", Join::First),
        ],
    ),
    (
        "Persistence",
        &[
            ("loading", Join::Most),
            ("rdb_changes_since_last_save", Join::Sum),
            ("rdb_bgsave_in_progress", Join::Most),
            ("aof_enabled", Join::Most),
            ("aof_rewrite_in_progress", Join::Most),
        ],
    ),
    (
        "Stats",
        &[
            ("instantaneous_ops_per_sec", Join::Sum),
            ("expired_keys", Join::Sum),
            ("evicted_keys", Join::Sum),
            ("keyspace_hits", Join::Sum),
            ("keyspace_misses", Join::Sum),
        ],
    ),
    ("CPU", &[("used_cpu_sys", Join::Fraction), ("used_cpu_user", Join::Fraction)]),
];
/// The names of all sections, in their order.
const SECTIONS: [&str; 8] =
    ["Server", "Clients", "Memory", "Persistence", "Stats", "Replication", "CPU", "Keyspace"];

/// The answer of a text.
pub fn verbatim(text: &str, is_resp3: bool) -> Vec<u8> {
    if is_resp3 {
        format!("={}\r\ntxt:{text}\r\n", text.len() + 4).into_bytes()
    } else {
        format!("${}\r\n{text}\r\n", text.len()).into_bytes()
    }
}

/// The text of these sections; of all of them if none is named.
pub fn text(heard: &[Heard], sections: &[Vec<u8>], own: &Own) -> String {
    let is_all = |name: &Vec<u8>| {
        ["all", "default", "everything"].iter().any(|it| name.eq_ignore_ascii_case(it.as_bytes()))
    };
    let mut text = String::new();
    for section in SECTIONS {
        let is_named = |name: &Vec<u8>| is_all(name) || name.eq_ignore_ascii_case(section.as_bytes());
        if sections.is_empty() || sections.iter().any(is_named) {
            let gap = if text.is_empty() { "" } else { "\r\n" };
            let _ = write!(text, "{gap}# {section}\r\n");
            add_section(&mut text, section, heard, own);
        }
    }
    text
}

fn add_section(text: &mut String, section: &str, heard: &[Heard], own: &Own) {
    let fields = FIELDS.iter().find(|(name, _)| *name == section).map_or(&[][..], |(_, fields)| fields);
    for &(name, how) in fields {
        let values: Vec<&str> = heard.iter().filter_map(|it| field(&it.info, name)).collect();
        add(text, name, joined(&values, how));
    }
    match section {
        "Server" => {
            add(text, "redis_mode", "standalone");
            add(text, "process_id", std::process::id());
            add(text, "tcp_port", own.port);
            add(text, "uptime_in_seconds", own.uptime);
            add(text, "uptime_in_days", own.uptime / 86_400);
            add(text, "squall_course", own.course);
            add(text, "squall_partitions", heard.len());
        }
        "Clients" => {
            add(text, "connected_clients", own.clients);
            add(text, "maxclients", own.most_clients);
        }
        "Stats" => {
            add(text, "total_connections_received", own.connections);
            add(text, "total_commands_processed", own.commands);
        }
        "Memory" => {
            let used: Vec<&str> = heard.iter().filter_map(|it| field(&it.info, "used_memory")).collect();
            let used = joined(&used, Join::Sum).parse().unwrap_or(0.0);
            add(text, "used_memory_human", format!("{:.2}M", used / f64::from(1 << 20)));
        }
        "Replication" => {
            add(text, "role", "master");
            add(text, "connected_slaves", 0);
        }
        "Keyspace" => add_keyspace(text, heard),
        _ => {}
    }
}

fn add(text: &mut String, name: &str, value: impl std::fmt::Display) {
    let _ = write!(text, "{name}:{value}\r\n");
}

/// The value of a field in the text of a server.
fn field<'a>(info: &'a str, name: &str) -> Option<&'a str> {
    info.lines().find_map(|line| line.strip_prefix(name)?.strip_prefix(':'))
}

fn joined(values: &[&str], how: Join) -> String {
    let numbers = || values.iter().map(|value| value.parse().unwrap_or(0_u64));
    match how {
        Join::First => values.first().copied().unwrap_or_default().to_string(),
        Join::Sum => numbers().fold(0, u64::saturating_add).to_string(),
        Join::Most => numbers().max().unwrap_or(0).to_string(),
        Join::Fraction => {
            let sum: f64 = values.iter().map(|value| value.parse().unwrap_or(0.0)).sum();
            format!("{sum:.6}")
        }
    }
}

/// Appends the line of database 0, if there are keys.
fn add_keyspace(text: &mut String, heard: &[Heard]) {
    let keys: u64 = heard.iter().map(|it| it.size).sum();
    let of = |it: &Heard, name: &str| -> u64 {
        let line = field(&it.info, "db0").unwrap_or_default();
        let value = line.split(',').find_map(|pair| pair.strip_prefix(name)?.strip_prefix('='));
        value.and_then(|value| value.parse().ok()).unwrap_or(0)
    };
    let expires: u64 = heard.iter().map(|it| of(it, "expires")).sum();
    // The mean of the partitions', each by how many of its keys end.
    let all: u128 =
        heard.iter().map(|it| u128::from(of(it, "avg_ttl")) * u128::from(of(it, "expires"))).sum();
    let mean = all / u128::from(expires.max(1));
    if keys > 0 {
        add(text, "db0", format!("keys={keys},expires={expires},avg_ttl={mean}"));
    }
}

#[cfg(test)]
mod tests {
    use super::*;

    fn sections(names: &[&str]) -> String {
        let server = |size, used: u64, ttl: u64, expires: u64| {
            Heard::with_info(
            size,
            &format!("# Memory\r\nused_memory:{used}\r\nused_memory_rss:1\r\n# CPU\r\nused_cpu_sys:0.25\r\n# Keyspace\r\n\
                      db0:keys={},expires={expires},avg_ttl={ttl}\r\n", size + 9),
        )
        };
        let own = Own {
            port: 7,
            uptime: 90_000,
            clients: 3,
            most_clients: 9,
            connections: 5,
            commands: 8,
            course: 2,
        };
        let names: Vec<Vec<u8>> = names.iter().map(|it| it.as_bytes().to_vec()).collect();
        text(&[server(10, 100, 600, 1), server(20, 200, 300, 2)], &names, &own)
    }

    #[test]
    fn sections_are_joined() {
        assert_eq!(sections(&["keyspace"]), "# Keyspace\r\ndb0:keys=30,expires=3,avg_ttl=400\r\n");
        let memory = sections(&["MEMORY"]);
        assert!(
            memory.contains("\r\nused_memory:300\r\n") && memory.contains("\r\nused_memory_rss:2\r\n"),
            "{memory}"
        );
        assert!(sections(&["cpu"]).contains("used_cpu_sys:0.500000\r\n"));
        assert!(sections(&["server"]).contains("uptime_in_days:1\r\n") && sections(&["none"]).is_empty());
        let all = sections(&[]);
        assert_eq!(all, sections(&["default"]));
        assert!(SECTIONS.iter().all(|it| all.contains(&format!("# {it}\r\n"))), "{all}");
    }

    #[test]
    fn texts_are_answers() {
        assert_eq!(verbatim("ab", false), b"$2\r\nab\r\n");
        assert_eq!(verbatim("ab", true), b"=6\r\ntxt:ab\r\n");
    }
}
