//! SCRAM-SHA-256 (RFC 5802, RFC 7677): a program and a server show each other that they know a password, which is not sent.

use crate::fault::{Done, Fault};
use crate::secret::{hmac, Code};
use openssl::base64::{decode_block, encode_block};
use openssl::rand::rand_bytes;
use openssl::{memcmp, sha};

/// Its name.
pub const NAME: &str = "SCRAM-SHA-256";
/// What comes before the first message: the connection is not bound to TLS. The second one repeats it.
const HEAD: &str = "n,,";
/// No server asks for more rounds, each of which takes a microsecond.
const MOST: u32 = 10_000_000;

/// One login.
pub struct Scram {
    password: String,
    nonce: String,
    /// The first message, without its head.
    bare: String,
    /// What a server shows in the end that knows the password.
    wanted: Option<Code>,
}

impl Scram {
    /// The login by a password. The server knows the user from elsewhere.
    ///
    /// # Errors
    ///
    /// The system has no numbers by chance.
    pub fn new(password: &str) -> Done<Scram> {
        let mut nonce = [0; 18];
        rand_bytes(&mut nonce).map_err(|error| Fault::new(error.to_string()))?;
        Ok(Scram::of("", password, encode_block(&nonce)))
    }

    fn of(user: &str, password: &str, nonce: String) -> Scram {
        Scram { password: password.into(), bare: format!("n={user},r={nonce}"), nonce, wanted: None }
    }

    /// The first message.
    pub fn first(&self) -> String {
        format!("{HEAD}{}", self.bare)
    }

    /// The answer to the server's first message.
    ///
    /// # Errors
    ///
    /// That one has another form, or answers another program.
    pub fn answer(&mut self, said: &str) -> Done<String> {
        let wrong = || Fault::new("the server's login has another form");
        let [nonce, salt, rounds] = ["r=", "s=", "i="].map(|name| field(said, name));
        let nonce = nonce.filter(|it| it.starts_with(&self.nonce)).ok_or_else(wrong)?;
        let salt = salt.and_then(|it| decode_block(it).ok()).ok_or_else(wrong)?;
        let rounds =
            rounds.and_then(|it| it.parse().ok()).filter(|it| (1..=MOST).contains(it)).ok_or_else(wrong)?;
        let bound = format!("c={},r={nonce}", encode_block(HEAD.as_bytes()));
        let all = format!("{},{said},{bound}", self.bare);
        let salted = stretched(self.password.as_bytes(), &salt, rounds);
        let key = hmac(&salted, &[b"Client Key"]);
        let mut proof = hmac(&sha::sha256(&key), &[all.as_bytes()]);
        mix(&mut proof, &key);
        self.wanted = Some(hmac(&hmac(&salted, &[b"Server Key"]), &[all.as_bytes()]));
        Ok(format!("{bound},p={}", encode_block(&proof)))
    }

    /// Looks at the server's last message.
    ///
    /// # Errors
    ///
    /// The server does not know the password, or has not come so far.
    pub fn check(&self, said: &str) -> Done<()> {
        let shown = field(said, "v=").and_then(|it| decode_block(it).ok()).unwrap_or_default();
        let is_right = |wanted: &Code| wanted.len() == shown.len() && memcmp::eq(wanted, &shown);
        if self.wanted.as_ref().is_some_and(is_right) {
            return Ok(());
        }
        Err(Fault::new("the server does not know the password"))
    }
}

/// The value of a field of a message.
fn field<'a>(said: &'a str, name: &str) -> Option<&'a str> {
    said.split(',').find_map(|it| it.strip_prefix(name))
}

/// What a password becomes with a salt after so many rounds (PBKDF2).
fn stretched(password: &[u8], salt: &[u8], rounds: u32) -> Code {
    let mut last = hmac(password, &[salt, &1_u32.to_be_bytes()]);
    let mut all = last;
    for _ in 1..rounds {
        last = hmac(password, &[&last]);
        mix(&mut all, &last);
    }
    all
}

fn mix(into: &mut Code, with: &Code) {
    into.iter_mut().zip(with).for_each(|(to, it)| *to ^= it);
}

#[cfg(test)]
mod tests {
    use super::*;

    const SAID: &str =
        "r=rOprNGfwEbeRWgbNEkqO%hvYDpWUa2RaTCAfuxFIlj)hNlF$k0,s=W22ZaJ0SNY7soEsUEjb6gQ==,i=4096";

    /// The login of RFC 7677.
    fn example() -> Scram {
        Scram::of("user", "pencil", "rOprNGfwEbeRWgbNEkqO".into())
    }

    #[test]
    fn the_example_of_the_standard_is_kept() {
        let mut login = example();
        assert_eq!(login.first(), "n,,n=user,r=rOprNGfwEbeRWgbNEkqO");
        assert!(login.check("v=6rriTRBi23WpRR/wtup+mMhUZUn/dB5nLTJRsjl95G4=").is_err());
        let answer = login.answer(SAID).unwrap();
        assert_eq!(
            answer,
            "c=biws,r=rOprNGfwEbeRWgbNEkqO%hvYDpWUa2RaTCAfuxFIlj)hNlF$k0,\
             p=dHzbZapWIk4jUhN+Ute9ytag9zjfMHgsqmmiz7AndVQ="
        );
        assert!(login.check("v=6rriTRBi23WpRR/wtup+mMhUZUn/dB5nLTJRsjl95G4=").is_ok());
        assert!(login.check("v=7rriTRBi23WpRR/wtup+mMhUZUn/dB5nLTJRsjl95G4=").is_err());
        assert!(login.check("e=other-error").is_err());
    }

    #[test]
    fn other_servers_are_refused() {
        for wrong in [
            "",
            "r=other,s=W22Z,i=4096",
            "r=rOprNGfwEbeRWgbNEkqO1,s=W22Z,i=0",
            "r=rOprNGfwEbeRWgbNEkqO1,s=.,i=1",
        ] {
            assert!(example().answer(wrong).is_err(), "{wrong}");
        }
        assert_ne!(Scram::new("pencil").unwrap().first(), Scram::new("pencil").unwrap().first());
    }
}
