//! Bytes as text that can be read on any screen: printable ASCII stands for
//! itself, every other byte is written \xHH.

pub fn printable(bytes: &[u8]) -> String {
    bytes.iter().map(|&byte| shown(byte)).collect()
}

fn shown(byte: u8) -> String {
    match byte {
        b' '..=b'~' => char::from(byte).to_string(),
        _ => format!("\\x{:02x}", byte),
    }
}

/// The lines of a message. Each ends at CR LF; bytes behind the last CR LF are
/// a line of their own.
pub fn message_lines(message: &[u8]) -> Vec<String> {
    let mut lines = Vec::new();
    let mut rest = message;
    while let Some(end) = rest.windows(2).position(|pair| pair == b"\r\n") {
        lines.push(printable(&rest[..end]));
        rest = &rest[end + 2..];
    }
    if !rest.is_empty() {
        lines.push(printable(rest));
    }
    lines
}

#[cfg(test)]
mod tests {
    use super::*;

    #[test]
    fn bytes_that_cannot_be_read_are_escaped() {
        assert_eq!(printable(b"a \\~\t\x7f\xff\n"), "a \\~\\x09\\x7f\\xff\\x0a");
    }

    #[test]
    fn lines_end_at_cr_lf_alone() {
        assert_eq!(message_lines(b"a\r\nb\r\n\r\n"), ["a", "b", ""]);
        assert_eq!(message_lines(b"a\nb\r"), ["a\\x0ab\\x0d"]);
        assert!(message_lines(b"").is_empty());
    }
}
