//! The tags of an address: each success number gives one, a fixed odd step
//! from the last, so that none comes twice.

pub const STEP: u32 = 2654435769;

/// The tag of success number n: start plus n times the step, kept to 32 bits.
pub fn tag_of(start: u32, n: u32) -> u32 {
    start.wrapping_add(n.wrapping_mul(STEP))
}

/// The success number whose tag this is. The step is odd, so that exactly one
/// 32-bit number fits; 0 is no success number.
pub fn number_of(start: u32, tag: u32) -> u32 {
    tag.wrapping_sub(start).wrapping_mul(inverse_of_step())
}

/// Newton's rule doubles the count of right low bits: 3, 6, 12, 24, 48.
fn inverse_of_step() -> u32 {
    let mut inverse = STEP;
    for _ in 0..4 {
        inverse = inverse.wrapping_mul(2u32.wrapping_sub(STEP.wrapping_mul(inverse)));
    }
    inverse
}

/// Whether a presented token is that tag: eight hex digits that make its
/// number, in either case, as tokens are compared (RFC 3261 section 7.3.1).
pub fn presents(presented: &[u8], tag: u32) -> bool {
    presented.len() == 8 && number_in_hex(presented) == Some(tag)
}

/// The number that at most eight hex digits make; none where one byte is none.
fn number_in_hex(digits: &[u8]) -> Option<u32> {
    digits.iter().try_fold(0, |number, &byte| {
        let digit = char::from(byte).to_digit(16)?;
        Some(number << 4 | digit)
    })
}

#[cfg(test)]
mod tests {
    use super::*;

    #[test]
    fn the_papers_tags() {
        assert_eq!(tag_of(0, 1), 0x9e37_79b9);
        assert_eq!(tag_of(0, 2), 0x3c6e_f372);
        assert_eq!(tag_of(0, 3), 0xdaa6_6d2b);
        assert_eq!(tag_of(1, 1), 0x9e37_79ba);
    }

    #[test]
    fn the_next_tag_is_the_last_plus_the_step() {
        for n in [1, 2, 1000, u32::MAX - 1] {
            assert_eq!(tag_of(7, n + 1), tag_of(7, n).wrapping_add(STEP));
        }
    }

    #[test]
    fn a_tag_gives_its_number_back() {
        assert_eq!(inverse_of_step().wrapping_mul(STEP), 1);
        for n in [0, 1, 2, 65536, 0x8000_0000, u32::MAX] {
            for start in [0, 1, 1640531527, u32::MAX] {
                assert_eq!(number_of(start, tag_of(start, n)), n);
            }
        }
    }

    #[test]
    fn presented_tags_are_compared_in_either_case() {
        for text in ["9e3779b9", "9E3779B9", "9E3779b9", "9e3779B9"] {
            assert!(presents(text.as_bytes(), 0x9e37_79b9), "{}", text);
        }
        assert!(presents(b"00000000", 0));
        assert!(presents(b"FfFfFfFf", u32::MAX));
        for text in ["9e3779b", "09e3779b9", "", "9e3779b90", "9F3779B9"] {
            assert!(!presents(text.as_bytes(), 0x9e37_79b9), "{}", text);
        }
    }

    #[test]
    fn only_letters_have_another_case() {
        let right = b"9E3779b9";
        for place in 0..8 {
            for byte in 0..=255 {
                let mut text = *right;
                text[place] = byte;
                let same = byte.eq_ignore_ascii_case(&right[place]);
                assert_eq!(presents(&text, 0x9e37_79b9), same, "{} {}", place, byte);
            }
        }
    }
}
