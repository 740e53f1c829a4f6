//! Words of the command line: `--name value`, and flags.

use crate::config;
use crate::conn::Server;
use crate::fault::{note, say, Done, Fault, Trying};
use crate::keep_alive::KeepAlive;
use crate::log;
use crate::secret;
use crate::tls::Peer;
use std::collections::BTreeMap;
use std::ffi::OsString;
use std::fs;
use std::net::{SocketAddr, ToSocketAddrs};
use std::process::ExitCode;

/// What a program is, for its help and its checks.
pub struct Usage {
    /// Its name.
    pub name: &'static str,
    /// The text of `--help`.
    pub help: &'static str,
    /// Names that have a value.
    pub options: &'static [&'static str],
    /// Names that have none.
    pub flags: &'static [&'static str],
}

/// The words of one run, and what its file of options adds to them.
#[derive(Clone)]
pub struct Args {
    pairs: Vec<(String, String)>,
    words: Vec<String>,
}

/// The option that names a file of options.
pub const CONFIG: &str = "config";

impl Args {
    /// The words, if each name is known and has a value exactly if it needs one.
    pub fn parse(words: &[String], usage: &Usage) -> Done<Args> {
        let mut pairs = Vec::new();
        let mut left = words.iter();
        while let Some(word) = left.next() {
            let Some(name) = word.strip_prefix("--") else {
                return Err(Fault::of_words(format!("{word} is no option")));
            };
            let value = if usage.flags.contains(&name) {
                String::new()
            } else if usage.options.contains(&name) {
                let value = left.next();
                value.ok_or_else(|| Fault::of_words(format!("--{name} needs a value")))?.clone()
            } else {
                return Err(Fault::of_words(format!("--{name} is not known")));
            };
            pairs.push((name.to_string(), value));
        }
        let mut args = Args { pairs, words: words.to_vec() };
        args.add_file(usage)?;
        Ok(args)
    }

    /// The same words, with what their file of options says now.
    ///
    /// # Errors
    ///
    /// The file can't be read, or has another form.
    pub fn again(&self, usage: &Usage) -> Done<Args> {
        Args::parse(&self.words, usage)
    }

    /// Adds the options of the file, but for those that the words have.
    fn add_file(&mut self, usage: &Usage) -> Done<()> {
        let Some(path) = self.get(CONFIG) else {
            return Ok(());
        };
        let text = fs::read_to_string(path).trying(|| format!("--config {path}"))?;
        let read = config::read(&text, usage);
        let mut all = read.map_err(|why| Fault::of_words(format!("--config {path}: {why}")))?;
        all.retain(|(name, _)| !self.has(name));
        self.pairs.append(&mut all);
        Ok(())
    }

    /// The value that was given last.
    pub fn get(&self, name: &str) -> Option<&str> {
        let given = self.pairs.iter().rev().find(|(other, _)| other == name);
        given.map(|(_, value)| value.as_str())
    }

    /// Each value that was given, in order.
    pub fn all<'a>(&'a self, name: &'a str) -> impl Iterator<Item = &'a str> {
        let given = self.pairs.iter().filter(move |(other, _)| other == name);
        given.map(|(_, value)| value.as_str())
    }

    /// Whether the name was given.
    pub fn has(&self, name: &str) -> bool {
        self.get(name).is_some()
    }

    /// The value, which has to be given.
    pub fn need(&self, name: &str) -> Done<&str> {
        self.get(name).ok_or_else(|| Fault::of_words(format!("--{name} is missing")))
    }

    /// A number in its bounds, or `otherwise` if none is given.
    pub fn number(&self, name: &str, otherwise: u64, least: u64, most: u64) -> Done<u64> {
        let Some(value) = self.get(name) else {
            return Ok(otherwise);
        };
        let number = value.parse().ok();
        number
            .filter(|number| (least..=most).contains(number))
            .ok_or_else(|| Fault::of_words(format!("--{name} {value}: not between {least} and {most}")))
    }

    /// The bytes of the file that an option names.
    pub fn file(&self, name: &str) -> Done<Vec<u8>> {
        let path = self.need(name)?;
        fs::read(path).trying(|| format!("--{name} {path}"))
    }

    /// A password: the first line of the file that an option names, if it is given.
    pub fn password(&self, name: &str) -> Done<Option<String>> {
        let Some(path) = self.get(name) else {
            return Ok(None);
        };
        let text = fs::read_to_string(path).trying(|| format!("--{name} {path}"))?;
        let line = text.lines().next().unwrap_or_default().to_string();
        if line.is_empty() || line.contains([' ', '\t']) {
            return Err(Fault::new(format!("--{name} {path}: the first line is no password, or has blanks")));
        }
        Ok(Some(line))
    }

    /// The secret that all programs of a deployment share: the first line of the file that `--secret-file` names.
    ///
    /// # Errors
    ///
    /// None is given, or it could be guessed.
    pub fn secret(&self) -> Done<String> {
        const MADE: &str = "all programs of a deployment share one, made by `openssl rand -hex 32 > FILE`";
        let secret = self.password("secret-file")?;
        let secret =
            secret.ok_or_else(|| Fault::of_words(format!("--secret-file FILE is missing; {MADE}")))?;
        if secret.len() < secret::LEAST {
            let least = secret::LEAST;
            let words = format!("--secret-file: the secret has less than {least} characters; {MADE}");
            return Err(Fault::of_words(words));
        }
        Ok(secret)
    }

    /// The partitions of `--part P=HOST:PORT`, without a password.
    pub fn parts(&self) -> Done<BTreeMap<u32, Server>> {
        let keep_alive = KeepAlive::of(self)?;
        let mut parts: BTreeMap<u32, Server> = BTreeMap::new();
        for value in self.all("part") {
            let wrong = || Fault::of_words(format!("--part {value}: not of the form P=HOST:PORT"));
            let (part, addr) = value.split_once('=').ok_or_else(wrong)?;
            let part: u32 = part.parse().map_err(|_| wrong())?;
            if part > 9999 {
                return Err(Fault::of_words(format!("--part {value}: a partition is at most 9999")));
            }
            let tls = Peer::of(self, "tls-partitions", addr)?;
            let server = Server { addr: resolve(addr)?, password: None, tls, keep_alive };
            if let Some((other, _)) = parts.iter().find(|(_, it)| it.addr == server.addr) {
                let text = format!("--part {value}: partition {other} has the same address");
                return Err(Fault::of_words(text));
            }
            if parts.insert(part, server).is_some() {
                return Err(Fault::of_words(format!("--part {part} is given twice")));
            }
        }
        if parts.is_empty() {
            return Err(Fault::of_words("--part P=HOST:PORT is missing"));
        }
        Ok(parts)
    }
}

/// The address of a name and a port: the first of IPv4, or else the first. `localhost` is often both `::1` and `127.0.0.1`,
/// and its servers may listen at the latter alone.
pub fn resolve(addr: &str) -> Done<SocketAddr> {
    let found: Vec<SocketAddr> = addr.to_socket_addrs().trying(|| addr.to_string())?.collect();
    preferred(&found).ok_or_else(|| Fault::new(format!("{addr}: no address")))
}

fn preferred(found: &[SocketAddr]) -> Option<SocketAddr> {
    found.iter().find(|it| it.is_ipv4()).or(found.first()).copied()
}

/// Runs a program: 0 if it is done, 1 if not, 2 if its words are wrong.
pub fn run(usage: &Usage, program: impl FnOnce(&Args) -> Done<()>) -> ExitCode {
    log::begin(usage.name);
    let words: Result<Vec<String>, OsString> =
        std::env::args_os().skip(1).map(OsString::into_string).collect();
    let has = |names: &[&str]| words.iter().flatten().any(|word| names.contains(&word.as_str()));
    let done = if has(&["--help", "-h"]) {
        say(usage.help.trim_end())
    } else if has(&["--version"]) {
        say(format!("{} {} (squall {})", usage.name, env!("CARGO_PKG_VERSION"), squall::version()))
    } else {
        let other = |word: OsString| Fault::of_words(format!("{} is not UTF-8", word.to_string_lossy()));
        words.map_err(other).and_then(|words| {
            let args = Args::parse(&words, usage)?;
            log::set_form(&args)?;
            program(&args)
        })
    };
    match done {
        Ok(()) => ExitCode::SUCCESS,
        Err(fault) if fault.is_of_words() => {
            note(format!("{}: {fault}; --help shows all options", usage.name));
            ExitCode::from(2)
        }
        Err(fault) => {
            log::fail(fault);
            ExitCode::FAILURE
        }
    }
}

#[cfg(test)]
mod tests {
    use super::*;

    const USAGE: Usage = Usage { name: "test", help: "", options: &["part", "chunk"], flags: &["init"] };

    fn parse(words: &str) -> Done<Args> {
        let words: Vec<String> = words.split_whitespace().map(String::from).collect();
        Args::parse(&words, &USAGE)
    }

    #[test]
    fn an_address_of_ipv4_comes_first() {
        let [old, other, new] = ["127.0.0.1:7", "127.0.0.2:7", "[::1]:7"].map(|it| it.parse().unwrap());
        assert_eq!(preferred(&[new, old, other]), Some(old));
        assert_eq!((preferred(&[new]), preferred(&[])), (Some(new), None));
    }

    #[test]
    fn words_are_read() {
        let args = parse("--part 1=127.0.0.1:7001 --init --part 2=127.0.0.1:7002 --chunk 5").unwrap();
        assert!(args.has("init"));
        assert_eq!(args.parts().unwrap().len(), 2);
        assert_eq!(args.number("chunk", 200, 1, 1000).unwrap(), 5);
    }

    #[test]
    fn wrong_words_are_refused() {
        for words in ["init", "--nothing 1", "--chunk"] {
            assert!(parse(words).is_err(), "{words}");
        }
        for words in [
            "--part 1",
            "--part x=127.0.0.1:1",
            "--part 10000=127.0.0.1:1",
            "",
            "--part 1=127.0.0.1:1 --part 2=127.0.0.1:1",
        ] {
            assert!(parse(words).unwrap().parts().is_err(), "{words}");
        }
        assert!(parse("--chunk 0").unwrap().number("chunk", 1, 1, 9).is_err());
    }
}
