//! The bench's input: lines of hexadecimal, one frame a line. A line of any
//! length is read without keeping more of it than a frame can have.

use std::io::{self, BufRead};

pub const MOST_DIGITS: usize = 8210;
/// The bytes before an address or a request.
pub const LEAST_BYTES: usize = 9;

#[derive(Clone, Debug, PartialEq, Eq)]
pub enum Frame {
    Add {
        start: u32,
        spent: u32,
        address: Vec<u8>,
    },
    Request {
        clock: u64,
        request: Vec<u8>,
    },
    Bad,
}

/// The next line without its LF, or none at the end of the input. Of a line
/// that is too long only enough is kept to see that it is.
pub fn next_line<R: BufRead>(input: &mut R) -> io::Result<Option<Vec<u8>>> {
    let mut line = Vec::new();
    let mut begun = false;
    loop {
        let there = match input.fill_buf() {
            Ok(there) => there,
            Err(error) if error.kind() == io::ErrorKind::Interrupted => continue,
            Err(error) => return Err(error),
        };
        if there.is_empty() {
            return Ok(if begun { Some(line) } else { None });
        }
        begun = true;
        let end = there.iter().position(|&byte| byte == b'\n');
        let piece = &there[..end.unwrap_or(there.len())];
        let room = MOST_DIGITS + 1 - line.len();
        line.extend_from_slice(&piece[..piece.len().min(room)]);
        let used = piece.len() + usize::from(end.is_some());
        input.consume(used);
        if end.is_some() {
            return Ok(Some(line));
        }
    }
}

pub fn read_frame(line: &[u8]) -> Frame {
    frame_bytes(line).map_or(Frame::Bad, |bytes| built_frame(&bytes))
}

/// The bytes of a line that can be a frame: not too many, and not too few for
/// what stands before the rest.
pub fn frame_bytes(line: &[u8]) -> Option<Vec<u8>> {
    bytes_of_digits(line, MOST_DIGITS).filter(|bytes| bytes.len() >= LEAST_BYTES)
}

/// The bytes of an even number of digits, where there are not too many.
pub fn bytes_of_digits(line: &[u8], at_most: usize) -> Option<Vec<u8>> {
    if line.len() > at_most || line.len() % 2 != 0 {
        return None;
    }
    line.chunks(2)
        .map(|pair| Some(digit(pair[0])? << 4 | digit(pair[1])?))
        .collect()
}

fn digit(byte: u8) -> Option<u8> {
    match byte {
        b'0'..=b'9' => Some(byte - b'0'),
        b'a'..=b'f' => Some(byte - b'a' + 10),
        b'A'..=b'F' => Some(byte - b'A' + 10),
        _ => None,
    }
}

/// 00, start (4 bytes, high first), spent (4), address; or 01, clock (8),
/// request.
fn built_frame(bytes: &[u8]) -> Frame {
    let rest = bytes[LEAST_BYTES..].to_vec();
    match bytes[0] {
        0 => Frame::Add {
            start: high_first(&bytes[1..5]) as u32,
            spent: high_first(&bytes[5..9]) as u32,
            address: rest,
        },
        1 => Frame::Request {
            clock: high_first(&bytes[1..9]),
            request: rest,
        },
        _ => Frame::Bad,
    }
}

pub fn high_first(bytes: &[u8]) -> u64 {
    bytes
        .iter()
        .fold(0, |number, &byte| number << 8 | u64::from(byte))
}

#[cfg(test)]
mod tests {
    use super::*;
    use std::io::BufReader;

    fn lines(input: &[u8]) -> Vec<Vec<u8>> {
        let mut reader = BufReader::with_capacity(3, input);
        let mut found = Vec::new();
        while let Some(line) = next_line(&mut reader).unwrap() {
            found.push(line);
        }
        found
    }

    #[test]
    fn lines_end_at_lf() {
        assert!(lines(b"").is_empty());
        assert_eq!(lines(b"\n"), [b""]);
        assert_eq!(lines(b"ab\n"), [b"ab"]);
        assert_eq!(lines(b"abcdef"), [b"abcdef"]);
        assert_eq!(lines(b"ab\r\n\ncdefg"), [&b"ab\r"[..], b"", b"cdefg"]);
    }

    #[test]
    fn a_line_of_any_length_keeps_one_digit_too_many() {
        let mut input = vec![b'0'; 100_000];
        input.extend_from_slice(b"\n1");
        let found = lines(&input);
        assert_eq!(found[0].len(), MOST_DIGITS + 1);
        assert_eq!(found[1], b"1");
        assert_eq!(read_frame(&found[0]), Frame::Bad);
    }

    #[test]
    fn adds_and_requests_in_either_case() {
        assert_eq!(
            read_frame(b"00deADBeef0000000A616E6e"),
            Frame::Add {
                start: 0xdead_beef,
                spent: 10,
                address: b"ann".to_vec()
            }
        );
        assert_eq!(
            read_frame(b"010102030405060708ff"),
            Frame::Request {
                clock: 0x0102_0304_0506_0708,
                request: vec![255]
            }
        );
    }

    #[test]
    fn nine_bytes_are_enough_and_eight_are_not() {
        assert_eq!(read_frame(b"0000000000000000"), Frame::Bad);
        assert_eq!(
            read_frame(b"000000000000000000"),
            Frame::Add {
                start: 0,
                spent: 0,
                address: vec![]
            }
        );
        assert_eq!(
            read_frame(b"010000000000000000"),
            Frame::Request {
                clock: 0,
                request: vec![]
            }
        );
    }

    #[test]
    fn bad_lines() {
        let odd = b"0100000000000000000";
        let other_first_byte = b"020000000000000000";
        let carriage_return = b"010000000000000000\r";
        let no_digit = b"0100000000000000g0";
        let space = b"01 0000000000000000";
        let signs = b"01000000000000+0-0";
        for line in [
            &b""[..],
            odd,
            other_first_byte,
            carriage_return,
            no_digit,
            space,
            signs,
        ] {
            assert_eq!(read_frame(line), Frame::Bad);
        }
    }

    #[test]
    fn exactly_8210_digits_are_not_too_many() {
        let mut line = b"01".to_vec();
        line.resize(MOST_DIGITS, b'0');
        match read_frame(&line) {
            Frame::Request { request, .. } => assert_eq!(request.len(), 4096),
            other => panic!("{:?}", other),
        }
        line.extend_from_slice(b"00");
        assert_eq!(read_frame(&line), Frame::Bad);
    }
}
