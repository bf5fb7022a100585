//! The lines of a file, without their ends. A line ends at LF, and a CR before
//! it belongs to the end; a last line without LF is a line.

pub fn lines_of(file: &[u8]) -> Vec<&[u8]> {
    file.split_inclusive(|&byte| byte == b'\n')
        .map(without_end)
        .collect()
}

fn without_end(line: &[u8]) -> &[u8] {
    let text = line.strip_suffix(b"\r\n");
    text.or_else(|| line.strip_suffix(b"\n")).unwrap_or(line)
}

#[cfg(test)]
mod tests {
    use super::*;

    #[test]
    fn ends_of_lines() {
        assert!(lines_of(b"").is_empty());
        assert_eq!(lines_of(b"\n"), [b""]);
        assert_eq!(lines_of(b"a\r\n\nb"), [&b"a"[..], b"", b"b"]);
    }

    #[test]
    fn a_cr_elsewhere_is_a_byte_of_its_line() {
        assert_eq!(lines_of(b"a\rb\r\r\nc\r"), [&b"a\rb\r"[..], b"c\r"]);
    }
}
