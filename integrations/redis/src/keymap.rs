//! Which key of squall a Redis key belongs to. `integrations/PROTOCOL.md` has the rule, and
//! `integrations/keymap.txt` vectors of it.

use squall::Rank;

/// The rank of the key to which a Redis key belongs, as the library maps it.
///
/// `r:s` and `r:s:anything` belong to the key r:s. Every other one belongs to the key of its hash.
/// If it has a tag, as `cart{17}`, only the tag is hashed.
pub fn rank(key: &[u8]) -> Rank {
    squall::key_of(key)
}

/// Sixteen hexadecimal digits. Their order as texts is the order of the ranks.
pub fn hex(rank: Rank) -> String {
    format!("{:016x}", rank.0)
}

#[cfg(test)]
mod tests {
    use super::*;

    const VECTORS: &str = include_str!("../../keymap.txt");

    fn bytes(hex: &str) -> Vec<u8> {
        let digits = hex.trim_start_matches('-');
        let byte = |at| u8::from_str_radix(&digits[at..at + 2], 16).unwrap();
        (0..digits.len()).step_by(2).map(byte).collect()
    }

    #[test]
    fn vectors_agree() {
        let mut count = 0;
        for line in VECTORS.lines().filter(|line| !line.starts_with('#')) {
            let words: Vec<&str> = line.split_whitespace().collect();
            assert_eq!(rank(&bytes(words[0])).to_string(), words[1], "{line}");
            count += 1;
        }
        assert!(count >= 40, "{count}");
    }

    #[test]
    fn hashes_are_keys() {
        for seed in 0..10_000_u32 {
            assert!(rank(&seed.to_le_bytes()) < Rank::END);
        }
    }

    #[test]
    fn digits_order_as_ranks() {
        assert_eq!(hex(Rank::new(2, 7)), "0000000200000007");
        assert!(hex(Rank::new(9, 0)) < hex(Rank::new(10, 0)));
    }
}
