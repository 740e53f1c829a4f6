//! Addresses of NATS servers, as `--bus` has them, with JetStream or without.

use super::address::Parts;
use crate::fault::{Done, Fault};

/// The port of a server that has none in its address.
const PORT: &str = "4222";
/// How an address begins, who keeps frames then, and whether nothing may go in the clear.
const SCHEMES: [(&str, Keeper, bool); 3] = [
    ("nats://", Keeper::Nobody, false),
    ("tls://", Keeper::Nobody, true),
    ("jetstream://", Keeper::Stream, false),
];
/// How many servers keep each frame, if the address names as many.
const COPIES: usize = 3;

/// Who keeps the frames of a bus.
#[derive(Clone, Copy, Debug, PartialEq)]
pub enum Keeper {
    Nobody,
    /// A stream of JetStream.
    Stream,
}

/// What an address says.
pub struct Address {
    /// The servers, each as `HOST:PORT`.
    pub servers: Vec<String>,
    /// With which the subjects begin.
    pub name: String,
    /// What says who this is, as members of a JSON object.
    pub login: String,
    /// Whether nothing may go in the clear, also if the server would take it.
    pub is_secure: bool,
    /// Who keeps frames.
    pub keeper: Keeper,
}

impl Address {
    /// Reads an address `nats://[USER@]HOST[:PORT][,HOST[:PORT]..][/NAME]`, or the same with `tls://` or `jetstream://`.
    /// None if it begins with none of them. A password without a user is a token.
    ///
    /// # Errors
    ///
    /// The address has another form.
    pub fn read(addr: &str, name: &str, password: Option<&str>) -> Done<Option<Address>> {
        let strip = |(scheme, keeper, is_secure)| {
            addr.strip_prefix(scheme).map(|rest| (scheme, rest, keeper, is_secure))
        };
        let Some((scheme, rest, keeper, is_secure)) = SCHEMES.into_iter().find_map(strip) else {
            return Ok(None);
        };
        let is_name =
            |name: &&str| !name.is_empty() && !name.contains(|it: char| it <= ' ' || "*>".contains(it));
        let parts = Parts::read(rest, PORT)?.filter(|parts| is_name(&parts.name.unwrap_or(name)));
        let parts = parts.ok_or_else(|| {
            Fault::new(format!("--bus {addr}: not of the form {scheme}[USER@]HOST[:PORT],..[/NAME]"))
        })?;
        Ok(Some(Address {
            servers: parts.servers,
            name: parts.name.unwrap_or(name).to_string(),
            login: login(parts.user, password)?,
            is_secure,
            keeper,
        }))
    }

    /// How many servers keep each frame.
    pub fn copies(&self) -> usize {
        if self.servers.len() < COPIES {
            1
        } else {
            COPIES
        }
    }
}

/// What says who this is.
fn login(user: Option<&str>, password: Option<&str>) -> Done<String> {
    match (user, password) {
        (Some(user), Some(password)) => Ok(format!(r#","user":{},"pass":{}"#, json(user), json(password))),
        (None, Some(token)) => Ok(format!(r#","auth_token":{}"#, json(token))),
        (Some(_), None) => Err(Fault::new("--bus names a user: --bus-password-file is missing")),
        (None, None) => Ok(String::new()),
    }
}

/// A text of JSON.
pub fn json(text: &str) -> String {
    let mut out = String::from("\"");
    for it in text.chars() {
        match it {
            '"' | '\\' => out.extend(['\\', it]),
            it if it < ' ' => out.push_str(&format!("\\u{:04x}", it as u32)),
            it => out.push(it),
        }
    }
    out + "\""
}

#[cfg(test)]
mod tests {
    use super::*;

    fn read(addr: &str, password: Option<&str>) -> Address {
        Address::read(addr, "squall", password).unwrap().unwrap()
    }

    #[test]
    fn addresses_are_read() {
        let address = read("nats://a,b:7/shop", None);
        assert_eq!(address.servers, ["a:4222", "b:7"]);
        assert_eq!((address.name.as_str(), address.login.as_str()), ("shop", ""));
        assert!(!address.is_secure);
        let address = read("tls://[::1],[::1]:7/", None);
        assert_eq!(address.servers, ["[::1]:4222", "[::1]:7"]);
        assert_eq!(address.name, "squall");
        assert!(address.is_secure);
        assert_eq!((address.keeper, address.copies()), (Keeper::Nobody, 1));
        let address = read("jetstream://me@a,b,c:7/shop.eu", Some("pw"));
        assert_eq!((address.keeper, address.copies(), address.is_secure), (Keeper::Stream, 3, false));
        assert_eq!((address.servers[2].as_str(), address.name.as_str()), ("c:7", "shop.eu"));
        assert!(Address::read("127.0.0.1:6379", "squall", None).unwrap().is_none());
    }

    #[test]
    fn logins_are_read() {
        assert_eq!(read("nats://me@a", Some("p\"w")).login, r#","user":"me","pass":"p\"w""#);
        assert_eq!(read("nats://a/", Some("t")).login, r#","auth_token":"t""#);
        assert_eq!(json("a\\\n"), "\"a\\\\\\u000a\"");
    }

    #[test]
    fn wrong_addresses_are_refused() {
        for wrong in [
            "nats://",
            "jetstream://",
            "tls://me@",
            "nats://a/b c",
            "nats://a/x>",
            "nats://a,,b",
            "nats://:4222",
        ] {
            let fault = Address::read(wrong, "squall", None).err().unwrap().to_string();
            assert!(fault.contains("not of the form"), "{wrong}: {fault}");
        }
        let fault = Address::read("nats://me:pw@a", "squall", None).err().unwrap().to_string();
        assert!(fault.contains("belongs into --bus-password-file") && !fault.contains("pw"), "{fault}");
        let fault = Address::read("nats://me@a", "squall", None).err().unwrap().to_string();
        assert!(fault.contains("--bus-password-file is missing"), "{fault}");
    }
}
