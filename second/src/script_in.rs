//! The lines of a script: a life begins, a publication, reading state. Which
//! lines are bad whatever the life is settled here.

use crate::frames_in::{bytes_of_digits, high_first, MOST_DIGITS};
use crate::packages;
use crate::record::{BODY_SIZE, CLOCK_LIMIT};

/// The bytes of a line that begins a life, and of one that reads state.
const BEGIN_BYTES: usize = 9;
const SHOW_BYTES: usize = 10;
/// The bytes of a publication before its token.
const FRONT_BYTES: usize = 15;

#[derive(Clone, Debug, PartialEq, Eq)]
pub enum ScriptLine {
    Begin { start: u32, spent: u32 },
    Publish(Publication),
    Show { clock: u64, event: u8 },
    Bad,
}

#[derive(Clone, Debug, PartialEq, Eq)]
pub struct Publication {
    pub clock: u64,
    pub package: usize,
    pub granted: u32,
    /// Empty where no tag is presented.
    pub token: Vec<u8>,
    /// Empty where no body is given.
    pub body: Vec<u8>,
}

impl Publication {
    pub fn presented(&self) -> Option<&[u8]> {
        Some(&self.token[..]).filter(|token| !token.is_empty())
    }
}

pub fn read_script_line(line: &[u8]) -> ScriptLine {
    let bytes = bytes_of_digits(line, MOST_DIGITS).unwrap_or_default();
    let read = match bytes.first() {
        Some(0) => read_begin(&bytes),
        Some(1) => read_publication(&bytes),
        Some(2) => read_show(&bytes),
        _ => None,
    };
    read.unwrap_or(ScriptLine::Bad)
}

/// 00, start (4 bytes, high first), spent (4).
fn read_begin(bytes: &[u8]) -> Option<ScriptLine> {
    if bytes.len() != BEGIN_BYTES {
        return None;
    }
    Some(ScriptLine::Begin {
        start: high_first(&bytes[1..5]) as u32,
        spent: high_first(&bytes[5..9]) as u32,
    })
}

/// 01, clock (8), event (1), granted (4), length (1), token, body.
fn read_publication(bytes: &[u8]) -> Option<ScriptLine> {
    if bytes.len() < FRONT_BYTES {
        return None;
    }
    let (front, rest) = bytes.split_at(FRONT_BYTES);
    let length = usize::from(front[14]);
    if rest.len() < length {
        return None;
    }
    let (token, body) = rest.split_at(length);
    let publication = Publication {
        clock: high_first(&front[1..9]),
        package: usize::from(front[9]),
        granted: high_first(&front[10..14]) as u32,
        token: token.to_vec(),
        body: body.to_vec(),
    };
    Some(publication)
        .filter(is_within_bounds)
        .map(ScriptLine::Publish)
}

/// A listed package, at most its most, the clock's limit and 512 bytes.
fn is_within_bounds(publication: &Publication) -> bool {
    publication.package < packages::COUNT
        && publication.granted <= packages::MOST[publication.package]
        && publication.clock <= CLOCK_LIMIT
        && publication.body.len() <= BODY_SIZE
}

/// 02, clock (8), event (1). Neither has a bound.
fn read_show(bytes: &[u8]) -> Option<ScriptLine> {
    if bytes.len() != SHOW_BYTES {
        return None;
    }
    Some(ScriptLine::Show {
        clock: high_first(&bytes[1..9]),
        event: bytes[9],
    })
}

#[cfg(test)]
mod tests {
    use super::*;

    fn read(line: &str) -> ScriptLine {
        read_script_line(line.replace(' ', "").as_bytes())
    }

    fn publication(line: &str) -> Option<Publication> {
        match read(line) {
            ScriptLine::Publish(publication) => Some(publication),
            _ => None,
        }
    }

    #[test]
    fn a_life_begins() {
        let (start, spent) = (0xdead_beef, 10);
        let begin = ScriptLine::Begin { start, spent };
        assert_eq!(read("00 deADBeef 0000000A"), begin);
        assert_eq!(read("00 deadbeef 000000"), ScriptLine::Bad);
        assert_eq!(read("00 deadbeef 0000000a 00"), ScriptLine::Bad);
    }

    #[test]
    fn a_publication_has_token_and_body() {
        let read = publication("01 0000000000000064 01 00001c20 02 6162 63").unwrap();
        assert_eq!((read.clock, read.package, read.granted), (100, 1, 7200));
        assert_eq!(
            (read.presented(), &read.body[..]),
            (Some(&b"ab"[..]), &b"c"[..])
        );
        let read = publication("01 0000000000000064 02 00000000 00").unwrap();
        assert_eq!((read.presented(), read.body.len()), (None, 0));
        let read = publication("01 0000000000000064 02 00000000 01 00").unwrap();
        assert_eq!(read.presented(), Some(&[0][..]));
    }

    #[test]
    fn a_publication_that_is_too_short() {
        assert_eq!(read("01 0000000000000064 01 00000e10"), ScriptLine::Bad);
        assert_eq!(read("01 0000000000000064 01 00000e10 01"), ScriptLine::Bad);
        let one_missing = format!("01 0000000000000064 01 00000e10 ff {}", "61".repeat(254));
        assert_eq!(read(&one_missing), ScriptLine::Bad);
        assert!(publication(&format!("{}61", one_missing)).is_some());
    }

    #[test]
    fn the_bounds_of_a_publication() {
        for (line, is_good) in [
            ("01 000000e8d4a51000 00 00000e10 00", true),
            ("01 000000e8d4a51001 00 00000e10 00", false),
            ("01 ffffffffffffffff 00 00000e10 00", false),
            ("01 0000000000000000 00 00000e11 00", false),
            ("01 0000000000000000 01 00001c20 00", true),
            ("01 0000000000000000 01 00001c21 00", false),
            ("01 0000000000000000 02 00000e10 00", true),
            ("01 0000000000000000 02 00000e11 00", false),
            ("01 0000000000000000 02 ffffffff 00", false),
            ("01 0000000000000000 03 00000000 00", false),
            ("01 0000000000000000 ff 00000000 00", false),
        ] {
            assert_eq!(publication(line).is_some(), is_good, "{}", line);
        }
        let front = "01 0000000000000000 00 00000000 01 61";
        assert!(publication(&format!("{}{}", front, "62".repeat(512))).is_some());
        assert!(publication(&format!("{}{}", front, "62".repeat(513))).is_none());
    }

    #[test]
    fn reading_state_has_any_clock_and_event() {
        let (clock, event) = (u64::MAX, 255);
        let show = ScriptLine::Show { clock, event };
        assert_eq!(read("02 ffffffffffffffff ff"), show);
        assert_eq!(read("02 ffffffffffffffff"), ScriptLine::Bad);
        assert_eq!(read("02 ffffffffffffffff ff 00"), ScriptLine::Bad);
    }

    #[test]
    fn other_bad_lines() {
        for line in ["", "0", "00", "0g", "03", "ff 00000000 00000000"] {
            assert_eq!(read(line), ScriptLine::Bad, "{}", line);
        }
        assert_eq!(read("00 00000000 00000000\r"), ScriptLine::Bad);
        assert_eq!(read(&"00".repeat(4106)), ScriptLine::Bad);
    }
}
