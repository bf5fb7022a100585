//! Reading a request: its first line, the header lines that must stand, and
//! which bytes are its body. Nothing is copied out of the request.

use crate::header_lines::{named, read_header_lines, HeaderLine};
use crate::names::Name;
use crate::text::{are_visible, is_token, same_in_either_case, take_line};
use crate::to_tag::has_tag;
use crate::unreadable::Unreadable;

pub const MOST_HEADER_LINES: usize = 64;

#[derive(Clone, Debug, PartialEq, Eq)]
pub struct Request<'a> {
    pub method: &'a [u8],
    pub uri: &'a [u8],
    pub lines: Vec<HeaderLine<'a>>,
    pub to_has_tag: bool,
    /// All that stands after the empty line.
    pub rest: &'a [u8],
}

impl<'a> Request<'a> {
    pub fn named(&self, name: Name) -> impl Iterator<Item = &HeaderLine<'a>> + '_ {
        named(&self.lines, name)
    }

    /// The value of the first line of that name.
    pub fn value(&self, name: Name) -> Option<&'a [u8]> {
        self.named(name).next().map(|line| line.value)
    }

    pub fn is_repeated(&self, name: Name) -> bool {
        self.named(name).count() > 1
    }

    /// What Content-Length says, later bytes dropped; without that field it
    /// runs to the end.
    pub fn body(&self, content_length: Option<usize>) -> &'a [u8] {
        &self.rest[..content_length.unwrap_or(self.rest.len())]
    }
}

/// Everything that leads to result 6 is found here.
pub fn read_request(bytes: &[u8]) -> Result<Request<'_>, Unreadable> {
    let request = read_any_request(bytes)?;
    if request.method == b"ACK" {
        return Err(Unreadable::Ack);
    }
    Ok(request)
}

/// The same, the method ACK aside.
pub fn read_any_request(bytes: &[u8]) -> Result<Request<'_>, Unreadable> {
    let (first, rest) = take_line(bytes).ok_or(Unreadable::FirstLine)?;
    let (method, uri) = read_first_line(first).ok_or(Unreadable::FirstLine)?;
    let (lines, rest) = read_header_lines(rest)?;
    if lines.len() > MOST_HEADER_LINES {
        return Err(Unreadable::TooManyLines);
    }
    required_lines_stand(&lines)?;
    let to_has_tag = match named(&lines, Name::To).next() {
        Some(to) => has_tag(to.value)?,
        None => false,
    };
    Ok(Request {
        method,
        uri,
        lines,
        to_has_tag,
        rest,
    })
}

/// Method, one space, Request-URI, one space, SIP/2.0.
fn read_first_line(line: &[u8]) -> Option<(&[u8], &[u8])> {
    let (method, rest) = split_at_space(line)?;
    let (uri, version) = split_at_space(rest)?;
    let readable = is_token(method)
        && !uri.is_empty()
        && are_visible(uri)
        && same_in_either_case(version, b"SIP/2.0");
    if readable {
        Some((method, uri))
    } else {
        None
    }
}

fn split_at_space(bytes: &[u8]) -> Option<(&[u8], &[u8])> {
    let space = bytes.iter().position(|&byte| byte == b' ')?;
    Some((&bytes[..space], &bytes[space + 1..]))
}

/// Via stands at least once, From, To, Call-ID and CSeq exactly once.
fn required_lines_stand(lines: &[HeaderLine]) -> Result<(), Unreadable> {
    for name in [Name::Via, Name::From, Name::To, Name::CallId, Name::Cseq] {
        match named(lines, name).count() {
            0 => return Err(Unreadable::Absent(name)),
            1 => {}
            _ if name == Name::Via => {}
            _ => return Err(Unreadable::Repeated(name)),
        }
    }
    Ok(())
}

#[cfg(test)]
mod tests {
    use super::*;

    const HEADERS: &str = "Via: a\r\nFrom: b\r\nTo: c\r\nCall-ID: d\r\nCSeq: e\r\n";

    fn with_first_line(first: &str) -> Result<(Vec<u8>, Vec<u8>), Unreadable> {
        let text = format!("{}{}\r\n", first, HEADERS);
        read_request(text.as_bytes()).map(|r| (r.method.to_vec(), r.uri.to_vec()))
    }

    fn with_lines(lines: &str) -> Result<usize, Unreadable> {
        let text = format!("PUBLISH ann SIP/2.0\r\n{}{}\r\n", HEADERS, lines);
        read_request(text.as_bytes()).map(|request| request.lines.len())
    }

    fn only_lines(lines: &str) -> Result<usize, Unreadable> {
        let text = format!("PUBLISH ann SIP/2.0\r\n{}\r\n", lines);
        read_request(text.as_bytes()).map(|request| request.lines.len())
    }

    #[test]
    fn first_lines_that_are_readable() {
        for first in [
            "PUBLISH ann SIP/2.0\r\n",
            "PUBLISH ann sIp/2.0\r\n",
            "x!%*_+`'~.-9 ~ sip/2.0\r\n",
        ] {
            assert!(with_first_line(first).is_ok(), "{}", first);
        }
        let read = with_first_line("publish sip:a@b;c SIP/2.0\r\n");
        assert_eq!(read, Ok((b"publish".to_vec(), b"sip:a@b;c".to_vec())));
    }

    #[test]
    fn first_lines_that_are_not() {
        for first in [
            "",
            "\r\nPUBLISH ann SIP/2.0\r\n",
            "PUBLISH ann SIP/2.0\n",
            "PUBLISH ann SIP/2.0 \r\n",
            " PUBLISH ann SIP/2.0\r\n",
            "PUBLISH  ann SIP/2.0\r\n",
            "PUBLISH ann  SIP/2.0\r\n",
            "PUBLISH  SIP/2.0\r\n",
            "PUBLISH\tann SIP/2.0\r\n",
            "PUBLISH ann SIP/2.1\r\n",
            "PUBLISH ann SIP/2.00\r\n",
            "PUBLISH ann\r\n",
            "PUBLISH\r\n",
            "PUB@LISH ann SIP/2.0\r\n",
            " ann SIP/2.0\r\n",
            "PUBLISH a\x7fn SIP/2.0\r\n",
            "PUBLISH \u{e9} SIP/2.0\r\n",
        ] {
            let read = with_first_line(first);
            assert_eq!(read, Err(Unreadable::FirstLine), "{:?}", first);
        }
    }

    #[test]
    fn header_lines_that_are_readable() {
        for line in ["a:", "a :b", "a \t : \t b", "a:\u{e9}", "a::", "!:\t"] {
            assert_eq!(with_lines(&format!("{}\r\n", line)), Ok(6), "{:?}", line);
        }
    }

    #[test]
    fn header_lines_that_are_not() {
        for line in [
            "a", ":b", " a:b", "\ta:b", "a b:c", "a@:b", "a:b\rc", "a:b\nc", "a:\x7f", "a:\0", "é:",
        ] {
            let read = with_lines(&format!("{}\r\n", line));
            assert_eq!(read, Err(Unreadable::HeaderLine), "{:?}", line);
        }
    }

    #[test]
    fn values_lose_their_outer_blanks_and_lines_keep_them() {
        let text = format!("A b SIP/2.0\r\n{}Event \t: \t a b \t\r\n\r\n", HEADERS);
        let request = read_request(text.as_bytes()).unwrap();
        assert_eq!(request.value(Name::Event), Some(&b"a b"[..]));
        assert_eq!(request.lines[5].line, b"Event \t: \t a b \t");
    }

    #[test]
    fn an_empty_line_must_end_the_headers() {
        for end in ["", "\r", "\n", "a", "a:\r", "a:\r\n"] {
            let text = format!("A b SIP/2.0\r\n{}{}", HEADERS, end);
            let read = read_request(text.as_bytes());
            assert_eq!(read, Err(Unreadable::NoEmptyLine), "{:?}", end);
        }
    }

    #[test]
    fn at_most_64_header_lines() {
        assert_eq!(with_lines(&"a:\r\n".repeat(59)), Ok(64));
        assert_eq!(
            with_lines(&"a:\r\n".repeat(60)),
            Err(Unreadable::TooManyLines)
        );
    }

    #[test]
    fn compact_names_and_either_case() {
        assert_eq!(only_lines("v:\r\nF:\r\nt:\r\nI:\r\ncseq:\r\n"), Ok(5));
        assert_eq!(
            only_lines("VIA:\r\nfrom:\r\ntO:\r\ncall-id:\r\nCSEQ:\r\n"),
            Ok(5)
        );
        let text = format!("A b SIP/2.0\r\n{}O:1\r\nL:2\r\nc:3\r\n\r\n", HEADERS);
        let request = read_request(text.as_bytes()).unwrap();
        assert_eq!(request.value(Name::Event), Some(&b"1"[..]));
        assert_eq!(request.value(Name::ContentLength), Some(&b"2"[..]));
        assert_eq!(request.value(Name::ContentType), Some(&b"3"[..]));
    }

    #[test]
    fn required_lines() {
        for name in [Name::Via, Name::From, Name::To, Name::CallId, Name::Cseq] {
            let start = HEADERS.find(&format!("{}:", name.full())).unwrap();
            let end = start + HEADERS[start..].find('\n').unwrap() + 1;
            let without = format!("{}{}", &HEADERS[..start], &HEADERS[end..]);
            assert_eq!(only_lines(&without), Err(Unreadable::Absent(name)));
            let short = name.compact().unwrap_or("cSeQ");
            let twice = with_lines(&format!("{}: z\r\n", short));
            if name == Name::Via {
                assert_eq!(twice, Ok(6));
            } else {
                assert_eq!(twice, Err(Unreadable::Repeated(name)));
            }
        }
    }

    #[test]
    fn repeated_counts_full_and_compact_together() {
        let text = format!("A b SIP/2.0\r\n{}o: 1\r\nEVENT:\r\n\r\n", HEADERS);
        let request = read_request(text.as_bytes()).unwrap();
        assert!(request.is_repeated(Name::Event));
        assert!(!request.is_repeated(Name::Expires));
    }

    #[test]
    fn the_method_ack_gets_no_answer() {
        assert_eq!(with_first_line("ACK ann SIP/2.0\r\n"), Err(Unreadable::Ack));
        assert!(with_first_line("Ack ann SIP/2.0\r\n").is_ok());
    }

    #[test]
    fn the_body_is_a_part_of_the_request() {
        let text = format!("A b SIP/2.0\r\n{}\r\nhello\r\n\r\n", HEADERS);
        let request = read_request(text.as_bytes()).unwrap();
        assert_eq!(request.body(None), b"hello\r\n\r\n");
        assert_eq!(request.body(Some(2)), b"he");
        assert_eq!(request.body(Some(0)), b"");
        let place = text.len() - 9;
        assert!(std::ptr::eq(
            &request.body(Some(2))[0],
            &text.as_bytes()[place]
        ));
    }

    #[test]
    fn empty_values_of_the_required_lines_are_readable() {
        assert_eq!(only_lines("v:\r\nf:\r\nt:\r\ni:\r\nCSeq:\r\n"), Ok(5));
    }
}
