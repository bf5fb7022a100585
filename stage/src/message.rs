//! The request that a message's lines stand for. The lines up to and with the
//! first empty one end with CR LF; the body is the lines behind it, CR LF
//! between them. Without an empty line there is no body.

use crate::words::blanks;

const END: &[u8] = b"\r\n";

/// The bytes of a request; its lines have their tags filled in.
pub fn request(lines: &[Vec<u8>]) -> Vec<u8> {
    let empty = lines.iter().position(|line| line.is_empty());
    let (front, behind) = lines.split_at(empty.map_or(lines.len(), |at| at + 1));
    let body = behind.join(END);
    let mut bytes = Vec::new();
    for line in front {
        bytes.extend(with_length(line, body.len()));
        bytes.extend_from_slice(END);
    }
    bytes.extend(body);
    bytes
}

/// The line, and where it says Content-Length: auto, the length in its place.
fn with_length(line: &[u8], length: usize) -> Vec<u8> {
    match auto_at(line) {
        None => line.to_vec(),
        Some(at) => [&line[..at], length.to_string().as_bytes(), &line[at + 4..]].concat(),
    }
}

/// Where 'auto' stands, if it is the value of a Content-Length.
fn auto_at(line: &[u8]) -> Option<usize> {
    let colon = line.iter().position(|&byte| byte == b':')?;
    let name = trimmed(&line[..colon]);
    let is_length = [&b"content-length"[..], b"l"]
        .iter()
        .any(|known| name.eq_ignore_ascii_case(known));
    let value = &line[colon + 1..];
    match is_length && trimmed(&value[blanks(value)..]) == b"auto" {
        true => Some(colon + 1 + blanks(value)),
        false => None,
    }
}

/// Without the blanks behind.
fn trimmed(text: &[u8]) -> &[u8] {
    let mut text = text;
    while let [front @ .., b' ' | b'\t'] = text {
        text = front;
    }
    text
}

/// The address that a request is for: the second word of its first line.
pub fn address_of(lines: &[Vec<u8>]) -> Vec<u8> {
    let first = lines.first().map_or(&[][..], |line| line);
    first
        .split(|&byte| byte == b' ' || byte == b'\t')
        .filter(|word| !word.is_empty())
        .nth(1)
        .map_or_else(Vec::new, <[u8]>::to_vec)
}

#[cfg(test)]
mod tests {
    use super::*;

    fn lines(text: &str) -> Vec<Vec<u8>> {
        text.split('\n')
            .map(|line| line.as_bytes().to_vec())
            .collect()
    }

    fn requested(text: &str) -> String {
        String::from_utf8(request(&lines(text))).unwrap()
    }

    #[test]
    fn line_ends_and_bodies() {
        assert_eq!(requested("a\nb"), "a\r\nb\r\n");
        assert_eq!(requested("a\n"), "a\r\n\r\n");
        assert_eq!(requested("a\n\nx"), "a\r\n\r\nx");
        assert_eq!(requested("a\n\n"), "a\r\n\r\n");
        assert_eq!(requested("a\n\nx\n\ny\n"), "a\r\n\r\nx\r\n\r\ny\r\n");
        assert_eq!(request(&[]), b"");
    }

    #[test]
    fn the_length_is_filled_in() {
        assert_eq!(
            requested("Content-Length: auto\n\nx\ny"),
            "Content-Length: 4\r\n\r\nx\r\ny"
        );
        assert_eq!(
            requested("cONTENT-lENGTH \t:auto \n"),
            "cONTENT-lENGTH \t:0 \r\n\r\n"
        );
        assert_eq!(requested("L: auto\nl:\tauto"), "L: 0\r\nl:\t0\r\n");
    }

    #[test]
    fn other_lines_stay() {
        for text in [
            "Content-Length: Auto",
            "l: autos",
            "l: a uto",
            " l: auto",
            "Length: auto",
            "l auto",
            "l:",
        ] {
            assert_eq!(requested(text), format!("{}\r\n", text));
        }
        assert_eq!(requested("l: auto\n\nl: auto"), "l: 7\r\n\r\nl: auto");
    }

    #[test]
    fn the_second_word() {
        assert_eq!(address_of(&lines("PUBLISH ann SIP/2.0\nx")), b"ann");
        assert_eq!(address_of(&lines("PUBLISH  ann")), b"ann");
        assert_eq!(address_of(&lines("PUBLISH ")), b"");
        assert_eq!(address_of(&[]), b"");
    }
}
