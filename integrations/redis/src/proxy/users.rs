//! The users of clients: who may do what. They are read from a file in the form of Redis' ACL files.

use super::commands::{find, Keys};
use super::glob;
use super::rights::{category, full_name, is_script, known, rule_name};
use crate::args::Args;
use crate::fault::{Done, Fault, Trying};
use openssl::memcmp;
use openssl::sha::sha256;
use std::collections::{BTreeMap, BTreeSet};
use std::fs;
use std::sync::Arc;

/// The user of a client that has named none.
pub const DEFAULT: &str = "default";

/// How a refusal of keys or channels begins.
const NO_ACCESS: &str = "NOPERM this user has no permissions to access one of the";

/// The hash of a password.
pub type Hash = [u8; 32];

/// All users.
pub struct Users(BTreeMap<Vec<u8>, Arc<User>>);

/// A user.
#[derive(Default)]
pub struct User {
    /// The name.
    pub name: String,
    is_on: bool,
    needs_no_password: bool,
    hashes: Vec<Hash>,
    allowed: BTreeSet<&'static str>,
    /// Commands that were allowed by their own name.
    named: BTreeSet<&'static str>,
    /// Patterns of keys; none if all are allowed.
    keys: Option<Vec<Vec<u8>>>,
    /// The same of channels.
    channels: Option<Vec<Vec<u8>>>,
    /// Whether all is allowed.
    is_full: bool,
}

impl User {
    fn named(name: &str) -> User {
        let none = Some(Vec::new());
        User { name: name.into(), keys: none.clone(), channels: none, ..User::default() }
    }

    /// One who may do all with that password.
    fn full(name: &str, password: &str) -> Done<User> {
        let mut user = User::named(name);
        for rule in ["on", "+@all", "allkeys", "allchannels", &format!(">{password}")] {
            user.take(rule).map_err(Fault::new)?;
        }
        user.settle();
        Ok(user)
    }

    /// Takes a rule.
    ///
    /// # Errors
    ///
    /// It is not known. Nothing is said of what may be a password.
    fn take(&mut self, rule: &str) -> Result<(), String> {
        let unknown = || format!("`{rule}` is not known");
        match rule {
            "on" => self.is_on = true,
            "off" => self.is_on = false,
            "nopass" => {
                self.needs_no_password = true;
                self.hashes.clear();
            }
            "allkeys" => self.keys = None,
            "allchannels" => self.channels = None,
            _ => match (rule.as_bytes()[0], &rule[1..]) {
                (b'>', "") => return Err("`>` without a password".into()),
                (b'>', password) => self.add_hash(hash(password.as_bytes())),
                (b'#', digits) => {
                    self.add_hash(
                        hash_of(digits)
                            .ok_or("`#` is not followed by 64 hexadecimal digits in small letters")?,
                    );
                }
                (b'<' | b'!', _) => return Err(format!("`{}..` is not known", &rule[..1])),
                (b'~', pattern) if !pattern.is_empty() => add(&mut self.keys, pattern),
                (b'&', pattern) if !pattern.is_empty() => add(&mut self.channels, pattern),
                (b'+', names) => self.allow(names).ok_or_else(unknown)?,
                (b'-', names) => self.forbid(names).ok_or_else(unknown)?,
                _ => return Err(unknown()),
            },
        }
        Ok(())
    }

    fn add_hash(&mut self, hash: Hash) {
        self.needs_no_password = false;
        self.hashes.push(hash);
    }

    fn allow(&mut self, names: &str) -> Option<()> {
        if let Some(category) = names.strip_prefix('@') {
            self.allowed.extend(self::category(category)?);
        } else {
            let name = rule_name(names)?;
            self.allowed.insert(name);
            self.named.insert(name);
        }
        Some(())
    }

    fn forbid(&mut self, names: &str) -> Option<()> {
        let gone = match names.strip_prefix('@') {
            Some(category) => self::category(category)?,
            None => BTreeSet::from([rule_name(names)?]),
        };
        self.allowed.retain(|name| !gone.contains(name));
        self.named.retain(|name| !gone.contains(name));
        Some(())
    }

    /// After all rules: a script does what the partition lets it, and no rule of its user binds it. So only who may do
    /// all has scripts, or for whom they are named.
    fn settle(&mut self) {
        let all = category("all").unwrap_or_default();
        let is_whole =
            self.keys.is_none() && all.iter().all(|name| is_script(name) || self.allowed.contains(name));
        let named = std::mem::take(&mut self.named);
        self.allowed.retain(|name| is_whole || !is_script(name) || named.contains(name));
        let has_all = self.keys.is_none() && self.channels.is_none();
        self.is_full = has_all && self.allowed.len() == all.len();
    }

    /// Whether that is a password. All are compared, and each in the same time.
    fn has(&self, hash: &Hash) -> bool {
        let is_one = self.hashes.iter().fold(false, |is_one, own| memcmp::eq(own, hash) | is_one);
        is_one || self.needs_no_password
    }

    /// Whether it may do exactly what another one may.
    pub fn has_rights_of(&self, other: &User) -> bool {
        self.allowed == other.allowed && self.keys == other.keys && self.channels == other.channels
    }

    /// Why a command is refused: one whose name is not known is not.
    pub fn refuses<'a>(&self, count: usize, word: impl Fn(usize) -> &'a [u8] + Copy) -> Option<String> {
        if self.is_full {
            return None;
        }
        let name = known(word(0), (count > 1).then(|| word(1)))?;
        if !self.allowed.contains(name) {
            let name = full_name(name, (count > 1).then(|| word(1)));
            return Some(format!("NOPERM this user has no permissions to run the '{name}' command"));
        }
        if !self.has_channels(name, count, word) {
            return Some(format!("{NO_ACCESS} channels used as arguments"));
        }
        let patterns = self.keys.as_ref()?;
        let is_allowed = |at: usize| patterns.iter().any(|pattern| glob::matches(pattern, word(at)));
        let are_allowed = if name == "WATCH" {
            (1..count).all(is_allowed)
        } else {
            let keyed = find(word(0)).filter(|command| command.keys != Keys::Channel);
            let places = keyed.and_then(|command| command.places(count, word).ok());
            places.is_none_or(|mut places| places.all(is_allowed))
        };
        (!are_allowed).then(|| format!("{NO_ACCESS} keys used as arguments"))
    }

    /// Whether it may have the channels of a command. A pattern has to be one that is given.
    fn has_channels<'a>(&self, name: &str, count: usize, word: impl Fn(usize) -> &'a [u8]) -> bool {
        let Some(allowed) = &self.channels else {
            return true;
        };
        let is_allowed = |at: usize| allowed.iter().any(|pattern| glob::matches(pattern, word(at)));
        match name {
            "PUBLISH" | "SPUBLISH" => count < 2 || is_allowed(1),
            "SUBSCRIBE" | "SSUBSCRIBE" => (1..count).all(is_allowed),
            "PSUBSCRIBE" => (1..count).all(|at| allowed.iter().any(|pattern| pattern == word(at))),
            _ => true,
        }
    }
}

/// Allows what a pattern has. After `*` none takes anything away.
fn add(patterns: &mut Option<Vec<Vec<u8>>>, pattern: &str) {
    if pattern == "*" {
        *patterns = None;
    } else if let Some(patterns) = patterns {
        patterns.push(pattern.as_bytes().to_vec());
    }
}

/// The hash of a password.
pub fn hash(password: &[u8]) -> Hash {
    sha256(password)
}

/// The hash of 64 digits.
fn hash_of(digits: &str) -> Option<Hash> {
    let is_digit = |byte: u8| matches!(byte, b'0'..=b'9' | b'a'..=b'f');
    if digits.len() != 64 || !digits.bytes().all(is_digit) {
        return None;
    }
    let mut hash = [0; 32];
    for (at, byte) in hash.iter_mut().enumerate() {
        *byte = u8::from_str_radix(&digits[2 * at..2 * at + 2], 16).ok()?;
    }
    Some(hash)
}

impl Users {
    /// Those that the options name; none if clients need no password.
    pub fn of(args: &Args) -> Done<Option<Users>> {
        let password = args.password("client-password-file")?;
        let mut users = BTreeMap::new();
        if let Some(path) = args.get("client-users") {
            let text = fs::read_to_string(path).trying(|| format!("--client-users {path}"))?;
            users = read(&text).map_err(|why| Fault::new(format!("--client-users {path}: {why}")))?;
        } else if password.is_none() {
            return Ok(None);
        }
        if let Some(password) = password {
            let default = Arc::new(User::full(DEFAULT, &password)?);
            if users.insert(DEFAULT.into(), default).is_some() {
                let text =
                    "--client-users names the user `default`, so --client-password-file may not be given";
                return Err(Fault::of_words(text));
            }
        }
        Ok(Some(Users(users)))
    }

    /// The user of a client that has not logged in, if it needs no password.
    pub fn first(&self) -> Option<&Arc<User>> {
        self.0.get(DEFAULT.as_bytes()).filter(|user| user.is_on && user.needs_no_password)
    }

    /// The user of that name, and of a password with that hash.
    pub fn log_in(&self, name: &[u8], shown: &Hash) -> Option<&Arc<User>> {
        self.0.get(name).filter(|user| user.has(shown) && user.is_on)
    }
}

/// The users of a file: a line for each, and lines that begin with `#`.
fn read(text: &str) -> Result<BTreeMap<Vec<u8>, Arc<User>>, String> {
    let mut users = BTreeMap::new();
    for (at, line) in text.lines().enumerate() {
        let mut words = line.split_ascii_whitespace();
        let wrong = |why: String| format!("line {}: {why}", at + 1);
        match words.next() {
            None => continue,
            Some(word) if word.starts_with('#') => continue,
            Some("user") => {}
            Some(word) => return Err(wrong(format!("`{word}` is not known; it begins with `user NAME`"))),
        }
        let name = words.next().ok_or_else(|| wrong("the name is missing".into()))?;
        let mut user = User::named(name);
        words.try_for_each(|rule| user.take(rule)).map_err(wrong)?;
        user.settle();
        if users.insert(name.into(), Arc::new(user)).is_some() {
            return Err(wrong(format!("the user {name} is given twice")));
        }
    }
    Ok(users)
}

#[cfg(test)]
mod tests {
    use super::super::rights::{DANGEROUS, MORE_READS, OTHERS};
    use super::*;
    use crate::conn::{Conn, Server};
    use crate::resp::Value;

    fn user(rules: &str) -> User {
        let mut user = User::named("u");
        rules.split(' ').try_for_each(|rule| user.take(rule)).unwrap();
        user.settle();
        user
    }

    fn may(user: &User, line: &str) -> bool {
        let words: Vec<&[u8]> = line.split(' ').map(str::as_bytes).collect();
        user.refuses(words.len(), |at| words[at]).is_none()
    }

    #[test]
    fn names_are_known() {
        for name in OTHERS {
            assert!(find(name.as_bytes()).is_none() && rule_name(name).is_some(), "{name}");
        }
        assert!(DANGEROUS.iter().chain(&MORE_READS).all(|name| rule_name(name).is_some()));
        assert!(
            rule_name("nothing").is_none()
                && rule_name("client|kill").is_none()
                && rule_name("get|x").is_none()
        );
    }

    #[test]
    #[ignore = "needs a server"]
    fn categories_are_those_of_the_server() {
        let addr = std::env::var("SQUALL_REDIS").expect("SQUALL_REDIS");
        let mut conn = Conn::open(&Server::plain(addr.parse().unwrap())).unwrap();
        for name in ["read", "write", "dangerous"] {
            let said = conn.ask(&["ACL", "CAT", name]).unwrap().list().into_iter().map(Value::text);
            // The rights of subcommands are those of the first one here.
            let said = said.map(|it| it.to_ascii_uppercase()).map(|it| match &it[..] {
                "CLIENT|LIST" => it,
                _ => it.split('|').next().unwrap_or_default().to_string(),
            });
            let said: BTreeSet<String> =
                said.filter(|it| rule_name(it).is_some() && it != "CLIENT" && it != "ACL").collect();
            let own = category(name).unwrap().into_iter().map(String::from);
            let own: BTreeSet<String> = own.filter(|it| it != "SQUALL").collect();
            assert_eq!(own, said, "{name}");
        }
    }

    #[test]
    fn rules_bind() {
        let all = user("on nopass +@all ~* &*");
        assert!(all.is_full && may(&all, "EVAL x 0") && may(&all, "NOTHING"));
        let some = user("on >p +@all -@dangerous ~*");
        assert!(may(&some, "GET a") && !may(&some, "KEYS *") && !may(&some, "client LIST"));
        assert!(may(&some, "CLIENT ID") && !may(&some, "EVAL x 0") && !may(&some, "SCRIPT LOAD x"));
        assert!(may(&user("+@all -@dangerous +eval ~*"), "EVAL x 0"));
        assert!(!may(&user("+eval -@all +@all -sort ~*"), "EVAL x 0"));
        let heard = user("+@all ~* &news:* &all");
        assert!(may(&heard, "PUBLISH news:1 x") && !may(&heard, "PUBLISH new x") && !heard.is_full);
        assert!(may(&heard, "SUBSCRIBE news:1 all") && !may(&heard, "SUBSCRIBE all x"));
        assert!(
            may(&heard, "SSUBSCRIBE news:1 all")
                && !may(&heard, "SSUBSCRIBE all x")
                && !may(&heard, "SPUBLISH x y")
        );
        assert!(
            may(&heard, "PSUBSCRIBE news:*") && !may(&heard, "PSUBSCRIBE news:1") && may(&heard, "EVAL x 0")
        );
        assert!(!may(&user("+@write ~* &*"), "PUBLISH a x") && !may(&user("+@all"), "PSUBSCRIBE *"));
        let reader = user("+@read -get ~cart:* ~b");
        assert!(may(&reader, "MGET cart:1 b") && !may(&reader, "MGET cart:1 c") && !may(&reader, "GET b"));
        assert!(!may(&reader, "SET b x") && may(&reader, "SCAN 0") && may(&reader, "XREAD STREAMS b 0"));
        let writer = user("+@write +watch ~b");
        assert!(may(&writer, "SET b x") && !may(&writer, "XREAD STREAMS b 0") && !may(&writer, "EVAL x 0"));
        assert!(may(&writer, "WATCH b") && !may(&writer, "WATCH b c") && !may(&writer, "SORT b STORE c"));
        assert!(!may(&user("on nopass"), "PING") && !may(&user("+get"), "GET a"));
    }

    #[test]
    fn passwords_are_compared() {
        let digest = "9f86d081884c7d659a2feaa0c55ad015a3bf4f1b2b0b822cd15d6c15b0f00a08";
        let text = format!(
            "# users\nuser a on >test >other +@all ~*\n\nuser b on #{digest} +ping\nuser c off nopass\n"
        );
        let users = Users(read(&text).unwrap());
        let log_in =
            |name: &str, password: &str| users.log_in(name.as_bytes(), &hash(password.as_bytes())).is_some();
        assert!(log_in("a", "test") && log_in("a", "other") && log_in("b", "test"));
        assert!(!log_in("a", "tes") && !log_in("b", "other") && !log_in("c", "x") && !log_in("d", "x"));
        assert!(users.first().is_none());
        let open = Users(read("user default on nopass +@all ~*").unwrap());
        assert!(open.first().is_some() && open.log_in(b"default", &hash(b"any")).is_some());
    }

    #[test]
    fn other_lines_are_refused() {
        for (text, why) in [
            ("user a on\nuser b resetkeys", "line 2: `resetkeys` is not known"),
            ("user a +nothing", "line 1: `+nothing` is not known"),
            ("user a +@fast", "line 1: `+@fast` is not known"),
            ("user a %R~x", "line 1: `%R~x` is not known"),
            ("user a <secret", "line 1: `<..` is not known"),
            ("user a #secret", "line 1: `#` is not followed by 64"),
            ("user a on\nuser a on", "line 2: the user a is given twice"),
            ("on", "line 1: `on` is not known"),
            ("user", "line 1: the name is missing"),
            ("user a ~", "line 1: `~` is not known"),
        ] {
            let said = read(text).err().unwrap();
            assert!(said.starts_with(why) && !said.contains("secret"), "{said}");
        }
    }
}
