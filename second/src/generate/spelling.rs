//! How a tag is spelled: in small letters, in capitals, mixed; and nearly so.

use super::random::Random;
use crate::text::{eight_hex_digits, is_token};

/// A tag as it is written, in capitals, or each letter in either.
pub fn spelled(tag: u32, random: &mut Random) -> Vec<u8> {
    let mut text = eight_hex_digits(tag).to_vec();
    match random.below(4) {
        0 => text.make_ascii_uppercase(),
        1 => {
            for byte in text.iter_mut().filter(|_| random.one_in(2)) {
                byte.make_ascii_uppercase();
            }
        }
        _ => {}
    }
    text
}

/// That spelling but for one byte: it has become the one that would be its
/// other case by a careless rule. The text may be no token then.
pub fn nearly(spelling: &[u8], random: &mut Random) -> Vec<u8> {
    let mut text = spelling.to_vec();
    if let Some(byte) = text.get_mut(random.place(8)) {
        *byte = other_by_a_careless_rule(*byte, random);
    }
    text
}

/// 32 added or taken off, or 64, and never the true other case.
fn other_by_a_careless_rule(byte: u8, random: &mut Random) -> u8 {
    let other = match random.below(3) {
        0 => byte + 32,
        1 => byte - 32,
        _ => byte ^ 64,
    };
    match other.eq_ignore_ascii_case(&byte) {
        true => byte ^ 64,
        false => other,
    }
}

/// Nearly a tag, and a token: a digit with 32 added is one of P to Y. A tag
/// of b, c, d and f alone has nothing of the kind; g is no digit either.
pub fn nearly_as_token(tag: u32, random: &mut Random) -> Vec<u8> {
    let found = (0..32).map(|_| nearly(&spelled(tag, random), random));
    let mut found = found.filter(|text| is_token(text));
    found.next().unwrap_or_else(|| b"g".repeat(8))
}

#[cfg(test)]
mod tests {
    use super::*;
    use crate::tags::presents;

    #[test]
    fn what_is_spelled_is_the_tag_and_what_is_nearly_is_not() {
        let mut random = Random::new(1);
        for tag in [0, 0x9e37_79b9, 0xabcd_ef00, 0xffff_ffff, 0xbcdf_bcdf] {
            for _ in 0..200 {
                let right = spelled(tag, &mut random);
                assert!(presents(&right, tag));
                assert!(!presents(&nearly(&right, &mut random), tag));
                let token = nearly_as_token(tag, &mut random);
                assert!(is_token(&token) && !presents(&token, tag));
            }
        }
    }
}
