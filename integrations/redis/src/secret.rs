//! What is derived from a deployment's secret.

use openssl::sha::Sha256;

/// No secret has fewer bytes. Whoever reads the bus could find a shorter one by trying all.
pub const LEAST: usize = 16;
/// How many bytes a code has.
pub const CODE: usize = 32;
/// The user who may read what a partition keeps of its course, and nothing else.
pub const READER: &str = "squall_reader";
/// How many bytes SHA-256 takes at once.
const BLOCK: usize = 64;

/// What only who has a key can make of a text, and a key made in this way.
pub type Code = [u8; CODE];

/// The code of pieces under a key, by HMAC-SHA-256. Each piece has its length before it, as 8 bytes from the highest
/// one on.
pub fn code(key: &[u8], pieces: &[&[u8]]) -> Code {
    let lengths: Vec<[u8; 8]> = pieces.iter().map(|piece| (piece.len() as u64).to_be_bytes()).collect();
    let all: Vec<&[u8]> =
        lengths.iter().zip(pieces).flat_map(|(length, piece)| [&length[..], piece]).collect();
    hmac(key, &all)
}

/// The HMAC-SHA-256 of pieces, one after the other, under a key.
///
/// It is made of SHA-256 itself, which needs nothing that OpenSSL takes down when a program ends: other threads may
/// still be at it then.
pub fn hmac(key: &[u8], pieces: &[&[u8]]) -> Code {
    let mut inner = begun(key, 0x36);
    pieces.iter().for_each(|piece| inner.update(piece));
    let mut outer = begun(key, 0x5c);
    outer.update(&inner.finish());
    outer.finish()
}

/// The hash of the key, each of whose bytes is turned by that one.
fn begun(key: &[u8], turn: u8) -> Sha256 {
    let mut block = [0; BLOCK];
    if key.len() > BLOCK {
        block[..CODE].copy_from_slice(&openssl::sha::sha256(key));
    } else {
        block[..key.len()].copy_from_slice(key);
    }
    let mut hash = Sha256::new();
    hash.update(&block.map(|byte| byte ^ turn));
    hash
}

/// The key of a secret for one use, which the label names. Who has it can't tell the secret, or a key for another use.
pub fn key(secret: &str, label: &str) -> Code {
    code(secret.as_bytes(), &[label.as_bytes()])
}

/// The password of the user who reads: 64 hexadecimal digits.
pub fn of_reader(secret: &str) -> String {
    digits(&code(&key(secret, READER), &[b"password"]))
}

/// Bytes as hexadecimal digits.
pub fn digits(bytes: &[u8]) -> String {
    bytes.iter().map(|byte| format!("{byte:02x}")).collect()
}

#[cfg(test)]
mod tests {
    use super::*;
    use openssl::hash::MessageDigest;
    use openssl::pkey::PKey;
    use openssl::sign::Signer;

    #[test]
    fn each_use_has_a_key_of_its_own() {
        let made = [("a", "x"), ("a", "y"), ("b", "x")].map(|(secret, label)| key(secret, label));
        assert!(made[0] != made[1] && made[0] != made[2]);
        assert_eq!(made[0], key("a", "x"));
        assert!(of_reader("a").len() == 2 * CODE && of_reader("a") != of_reader("b"));
    }

    #[test]
    fn pieces_are_kept_apart() {
        assert_ne!(code(b"a", &[b"ab", b"c"]), code(b"a", &[b"a", b"bc"]));
    }

    #[test]
    fn codes_are_those_of_openssl() {
        for len in [1, 31, 63, 64, 65, 200] {
            let key: Vec<u8> = (0..len).collect();
            let pkey = PKey::hmac(&key).unwrap();
            let mut signer = Signer::new(MessageDigest::sha256(), &pkey).unwrap();
            signer.update(&[&3_u64.to_be_bytes()[..], b"abc", &[0; 8]].concat()).unwrap();
            assert_eq!(code(&key, &[b"abc", b""])[..], signer.sign_to_vec().unwrap());
        }
    }
}
