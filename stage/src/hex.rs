//! Bytes as lowercase hexadecimal, and back.

pub fn hex(bytes: &[u8]) -> String {
    bytes.iter().map(|byte| format!("{:02x}", byte)).collect()
}

/// The bytes of lowercase digits, or none where the text is something else.
pub fn bytes_of_hex(text: &[u8]) -> Option<Vec<u8>> {
    if text.len() % 2 != 0 {
        return None;
    }
    text.chunks(2)
        .map(|pair| Some(digit(pair[0])? * 16 + digit(pair[1])?))
        .collect()
}

fn digit(byte: u8) -> Option<u8> {
    match byte {
        b'0'..=b'9' => Some(byte - b'0'),
        b'a'..=b'f' => Some(byte - b'a' + 10),
        _ => None,
    }
}

#[cfg(test)]
mod tests {
    use super::*;

    #[test]
    fn there_and_back() {
        let all: Vec<u8> = (0..=255).collect();
        assert_eq!(hex(&[0, 9, 10, 255]), "00090aff");
        assert_eq!(bytes_of_hex(hex(&all).as_bytes()), Some(all));
        assert_eq!(bytes_of_hex(b""), Some(vec![]));
    }

    #[test]
    fn no_hex() {
        for text in ["0", "0g", "-", "0A"] {
            assert_eq!(bytes_of_hex(text.as_bytes()), None, "{}", text);
        }
    }
}
