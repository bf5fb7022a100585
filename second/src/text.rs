//! Byte classes and the small readers that the other files share:
//! blanks, tokens, lines, numbers and comparison in either case.

pub const TOKEN: u8 = 1;
pub const DIGIT: u8 = 2;
pub const BLANK: u8 = 4;
pub const VALUE: u8 = 8;

/// The classes of all 256 byte values.
pub static CLASSES: [u8; 256] = class_table();

const fn class_table() -> [u8; 256] {
    let mut table = [0; 256];
    let mut byte = 0;
    while byte < 256 {
        table[byte] = classes_of(byte as u8);
        byte += 1;
    }
    table
}

const fn classes_of(byte: u8) -> u8 {
    let mut classes = 0;
    if is_token_byte(byte) {
        classes |= TOKEN;
    }
    if byte.is_ascii_digit() {
        classes |= DIGIT;
    }
    if byte == b' ' || byte == b'\t' {
        classes |= BLANK;
    }
    if matches!(byte, 9 | 32..=126 | 128..=255) {
        classes |= VALUE;
    }
    classes
}

const fn is_token_byte(byte: u8) -> bool {
    byte.is_ascii_alphanumeric()
        || matches!(
            byte,
            b'-' | b'.' | b'!' | b'%' | b'*' | b'_' | b'+' | b'`' | b'\'' | b'~'
        )
}

pub fn is(byte: u8, class: u8) -> bool {
    CLASSES[byte as usize] & class != 0
}

pub fn all_are(bytes: &[u8], class: u8) -> bool {
    bytes.iter().all(|&byte| is(byte, class))
}

/// How many bytes at the front are of that class.
pub fn front_of(bytes: &[u8], class: u8) -> usize {
    bytes
        .iter()
        .position(|&byte| !is(byte, class))
        .unwrap_or(bytes.len())
}

pub fn is_token(bytes: &[u8]) -> bool {
    !bytes.is_empty() && all_are(bytes, TOKEN)
}

/// Bytes 33 to 126: those of a Request-URI and of an address.
pub fn are_visible(bytes: &[u8]) -> bool {
    bytes.iter().all(|&byte| (33..=126).contains(&byte))
}

/// The bytes before the next CR LF, and those after it.
pub fn take_line(bytes: &[u8]) -> Option<(&[u8], &[u8])> {
    let end = bytes.windows(2).position(|pair| pair == b"\r\n")?;
    Some((&bytes[..end], &bytes[end + 2..]))
}

pub fn without_outer_blanks(bytes: &[u8]) -> &[u8] {
    let front = front_of(bytes, BLANK);
    let back = bytes
        .iter()
        .rposition(|&byte| !is(byte, BLANK))
        .map_or(front, |last| last + 1);
    &bytes[front..back]
}

/// The front of an Event or Content-Type value, up to a `;` or blank.
pub fn up_to_semicolon_or_blank(value: &[u8]) -> &[u8] {
    let end = value
        .iter()
        .position(|&byte| byte == b';' || is(byte, BLANK))
        .unwrap_or(value.len());
    &value[..end]
}

pub fn same_in_either_case(one: &[u8], other: &[u8]) -> bool {
    one.eq_ignore_ascii_case(other)
}

#[derive(Clone, Copy, Debug, PartialEq, Eq)]
pub enum Number {
    Value(u64),
    TooLarge,
    NotDigits,
}

/// Reads decimal digits. The value is bounded, not the count of digits.
/// The bound must be below the largest u64, at which the sum stops growing.
pub fn number(bytes: &[u8], at_most: u64) -> Number {
    if bytes.is_empty() || !all_are(bytes, DIGIT) {
        return Number::NotDigits;
    }
    let value = bytes.iter().fold(0u64, |value, &byte| {
        value
            .saturating_mul(10)
            .saturating_add(u64::from(byte - b'0'))
    });
    if value > at_most {
        Number::TooLarge
    } else {
        Number::Value(value)
    }
}

/// One hexadecimal digit, lowercase, of a number below 16.
pub fn hex_digit(number: u8) -> u8 {
    if number < 10 {
        b'0' + number
    } else {
        b'a' + (number - 10)
    }
}

/// Eight lowercase hexadecimal digits, high first.
pub fn eight_hex_digits(number: u32) -> [u8; 8] {
    let mut digits = [0; 8];
    for (place, digit) in digits.iter_mut().enumerate() {
        let nibble = (number >> (28 - 4 * place)) & 15;
        *digit = hex_digit(nibble as u8);
    }
    digits
}

/// Bytes as lowercase hexadecimal text.
pub fn hex(bytes: &[u8]) -> String {
    let mut text = String::with_capacity(2 * bytes.len());
    for &byte in bytes {
        text.push(char::from(hex_digit(byte >> 4)));
        text.push(char::from(hex_digit(byte & 15)));
    }
    text
}

/// Bytes as lowercase hexadecimal text, or - where there are none.
pub fn hex_or_dash(bytes: &[u8]) -> String {
    if bytes.is_empty() {
        "-".to_string()
    } else {
        hex(bytes)
    }
}

#[cfg(test)]
mod tests {
    use super::*;

    fn count(class: u8) -> usize {
        (0..=255).filter(|&byte| is(byte, class)).count()
    }

    #[test]
    fn classes_have_the_papers_sizes() {
        assert_eq!(count(TOKEN), 26 + 26 + 10 + 10);
        assert_eq!(count(DIGIT), 10);
        assert_eq!(count(BLANK), 2);
        assert_eq!(count(VALUE), 1 + 95 + 128);
    }

    #[test]
    fn classes_at_their_edges() {
        for byte in b"-.!%*_+`'~azAZ09" {
            assert!(is(*byte, TOKEN), "{}", byte);
        }
        for byte in b" \t:;,/@\"<>=()[]{}\\?#$&^|\x00\x7f\x80\xff" {
            assert!(!is(*byte, TOKEN), "{}", byte);
        }
        assert!(is(9, VALUE) && is(32, VALUE) && is(126, VALUE));
        assert!(is(128, VALUE) && is(255, VALUE));
        assert!(!is(127, VALUE) && !is(10, VALUE) && !is(13, VALUE) && !is(0, VALUE));
        assert!(!is(b'/', DIGIT) && !is(b':', DIGIT));
        assert!(!is(11, BLANK) && !is(13, BLANK));
    }

    #[test]
    fn tokens() {
        assert!(is_token(b"9e3779b9"));
        assert!(!is_token(b""));
        assert!(!is_token(b"a b"));
        assert!(!is_token(b"\"a\""));
    }

    #[test]
    fn outer_blanks() {
        assert_eq!(without_outer_blanks(b" \t a b\t "), b"a b");
        assert_eq!(without_outer_blanks(b" \t "), b"");
        assert_eq!(without_outer_blanks(b""), b"");
        assert_eq!(without_outer_blanks(b"a"), b"a");
    }

    #[test]
    fn front_parts() {
        assert_eq!(up_to_semicolon_or_blank(b"presence;id=1"), b"presence");
        assert_eq!(up_to_semicolon_or_blank(b"presence\t;x"), b"presence");
        assert_eq!(up_to_semicolon_or_blank(b"presence x"), b"presence");
        assert_eq!(up_to_semicolon_or_blank(b";x"), b"");
        assert_eq!(up_to_semicolon_or_blank(b"dialog"), b"dialog");
    }

    #[test]
    fn numbers_are_bounded_by_value() {
        assert_eq!(number(b"0", 9), Number::Value(0));
        assert_eq!(
            number(b"0000000000000000000000000000009", 9),
            Number::Value(9)
        );
        assert_eq!(number(b"10", 9), Number::TooLarge);
        assert_eq!(number(b"4294967295", 4294967295), Number::Value(4294967295));
        assert_eq!(number(b"4294967296", 4294967295), Number::TooLarge);
        assert_eq!(
            number(b"18446744073709551617", 4294967295),
            Number::TooLarge
        );
        assert_eq!(number(&[b'9'; 4000], 4294967295), Number::TooLarge);
    }

    #[test]
    fn numbers_are_digits_only() {
        for text in ["", "x", "1x", "-1", "+1", "1 1", "0x10", "1.0", " 1"] {
            assert_eq!(number(text.as_bytes(), 99), Number::NotDigits, "{}", text);
        }
    }

    #[test]
    fn hexadecimal() {
        assert_eq!(&eight_hex_digits(0), b"00000000");
        assert_eq!(&eight_hex_digits(0x9e37_79b9), b"9e3779b9");
        assert_eq!(&eight_hex_digits(u32::MAX), b"ffffffff");
        assert_eq!(hex(b"\x00\x0a\xf9"), "000af9");
        assert_eq!(hex_or_dash(b"\x00"), "00");
        assert_eq!(hex_or_dash(b""), "-");
    }
}
