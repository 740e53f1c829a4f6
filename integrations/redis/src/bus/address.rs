//! What all addresses of servers have in common: `SCHEME://[USER@]HOST[:PORT][,HOST[:PORT]..][/NAME]`.

use crate::fault::{Done, Fault};

/// What an address says after its scheme.
pub struct Parts<'a> {
    pub user: Option<&'a str>,
    /// The servers, each as `HOST:PORT`.
    pub servers: Vec<String>,
    pub name: Option<&'a str>,
}

impl<'a> Parts<'a> {
    /// Reads what comes after the scheme. None if it has another form. A server without a port has that one.
    ///
    /// # Errors
    ///
    /// It has a password, which belongs into a file.
    pub fn read(rest: &'a str, port: &str) -> Done<Option<Parts<'a>>> {
        let rest = rest.trim_end_matches('/');
        let (rest, name) = rest.split_once('/').map_or((rest, None), |(rest, name)| (rest, Some(name)));
        let (user, hosts) = rest.rsplit_once('@').map_or((None, rest), |(user, hosts)| (Some(user), hosts));
        if user.is_some_and(|user| user.contains(':')) {
            return Err(Fault::new("a password belongs into --bus-password-file, and not into --bus"));
        }
        let servers = hosts.split(',').map(|host| with_port(host, port)).collect();
        Ok(hosts.split(',').all(is_host).then_some(Parts { user, servers, name }))
    }
}

fn is_host(host: &str) -> bool {
    !host.is_empty() && !host.starts_with(':') && !host.contains(char::is_whitespace)
}

/// A host with its port. An address of IPv6 is in brackets.
fn with_port(host: &str, port: &str) -> String {
    let name = host.rsplit_once(']').map_or(host, |(_, rest)| rest);
    if name.contains(':') {
        host.to_string()
    } else {
        format!("{host}:{port}")
    }
}
