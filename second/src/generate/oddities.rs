//! Values put together from pieces that matter to a reader of that field, and
//! values as long as a request can hold.

use super::draft::Draft;
use super::random::Random;
use crate::names::Name;

const TO_PIECES: &[&str] = &[
    "\"", "\"", "\\", "<", ">", "<ann>", ";", ";", "=", "tag", "TAG", "tag=1", ";tag=", ";Tag =",
    "x", " ", "\t", "\\\"", "\\\\", "\u{e9}",
];

const CSEQ_PIECES: &[&str] = &[
    "0",
    "1",
    "2147483647",
    "2147483648",
    "4294967296",
    " ",
    " ",
    "\t",
    "PUBLISH",
    "PUBLISH",
    "publish",
    "ACK",
    "+",
];

const NUMBER_PIECES: &[&str] = &[
    "0",
    "00",
    "1",
    "9",
    "60",
    "42949672",
    "95",
    "96",
    "4294967295",
    "4294967296",
    " ",
    "\t",
    "-",
    "x",
];

const EVENT_PIECES: &[&str] = &[
    "presence",
    "dialog",
    "message-summary",
    "Presence",
    ";",
    ";",
    " ",
    "\t",
    "id=1",
    ",",
    "\u{e9}",
    "\"",
];

const TYPE_PIECES: &[&str] = &[
    "application/pidf+xml",
    "application",
    "/",
    "DIALOG-info+xml",
    ";",
    " ",
    "\t",
    "charset=x",
    "*",
    "\u{e9}",
];

const MATCH_PIECES: &[&str] = &[
    "9e3779b9",
    "9E3779B9",
    "-.!%*_+`'~",
    "a",
    "0",
    "z",
    " ",
    "\t",
    ";",
    ",",
    "\"",
    "\u{e9}",
    "@",
];

const OTHER_PIECES: &[&str] = &[
    "a", "<ann>", ";tag=1", "\"", "\\", ":", ",", " ", "\t", "\u{e9}",
];

/// Fields whose value decides what is read, the more so the more often.
const ODD: [Name; 12] = [
    Name::To,
    Name::To,
    Name::To,
    Name::Cseq,
    Name::Cseq,
    Name::ContentLength,
    Name::Expires,
    Name::Event,
    Name::ContentType,
    Name::SipIfMatch,
    Name::Via,
    Name::From,
];

const LENGTHS: [usize; 8] = [100, 255, 256, 257, 1000, 1024, 2000, 3000];

fn pieces_of(name: Name) -> &'static [&'static str] {
    match name {
        Name::To => TO_PIECES,
        Name::Cseq => CSEQ_PIECES,
        Name::ContentLength | Name::Expires => NUMBER_PIECES,
        Name::Event => EVENT_PIECES,
        Name::ContentType => TYPE_PIECES,
        Name::SipIfMatch => MATCH_PIECES,
        _ => OTHER_PIECES,
    }
}

/// Gives one field a value of any pieces, or Content-Length one that is near
/// what is there.
pub fn odd_value(draft: &mut Draft, random: &mut Random) {
    let name = *random.pick(&ODD);
    let value = match name {
        Name::ContentLength if random.one_in(2) => {
            let near = draft.rest.len() + random.place(3);
            near.saturating_sub(1).to_string()
        }
        _ => pieced(pieces_of(name), random),
    };
    draft.set(name, value.as_bytes(), random);
}

fn pieced(pieces: &[&str], random: &mut Random) -> String {
    let count = random.below(4) + random.below(6);
    (0..count).map(|_| *random.pick(pieces)).collect()
}

/// Makes the method, the Request-URI or a field long, in a way that it stays
/// readable and a number stays what it is.
pub fn long_value(draft: &mut Draft, random: &mut Random) {
    let length = *random.pick(&LENGTHS);
    let there = draft.rest.len();
    let (name, value) = match random.below(12) {
        0 => return draft.uri.resize(length, b'u'),
        1 => return draft.method.resize(length, b'M'),
        2 => (Name::Via, "v;".repeat(length / 2)),
        3 => (Name::From, "\u{e9}".repeat(length / 2)),
        4 => (
            Name::To,
            format!("\"{}\" <ann>;tag=1", "\\\";".repeat(length / 3)),
        ),
        5 => (
            Name::To,
            format!("<ann>{};x", ";y=\"<\"".repeat(length / 6)),
        ),
        6 => (Name::CallId, "i".repeat(length)),
        7 => (
            Name::Cseq,
            format!(
                "{}{}PUBLISH",
                "0".repeat(length / 2),
                " \t".repeat(length / 4)
            ),
        ),
        8 => (
            Name::ContentLength,
            format!("{}{}", "0".repeat(length), there),
        ),
        9 => (Name::Expires, format!("{}4294967295", "0".repeat(length))),
        10 => (Name::Event, format!("presence;{}", "p".repeat(length))),
        _ => (Name::SipIfMatch, "t~".repeat(length / 2)),
    };
    draft.set(name, value.as_bytes(), random);
}

#[cfg(test)]
mod tests {
    use super::*;
    use crate::request::read_any_request;

    fn draft() -> Draft {
        let mut draft = Draft::new(b"ann", false);
        for name in [Name::Via, Name::From, Name::To, Name::CallId, Name::Cseq] {
            draft.append(name, b"x", &mut Random::new(0));
        }
        draft
    }

    #[test]
    fn long_values_stay_readable_and_short_enough() {
        for seed in 0..300 {
            let mut draft = draft();
            long_value(&mut draft, &mut Random::new(seed));
            let bytes = draft.bytes();
            assert!(bytes.len() < 4096, "seed {}", seed);
            assert!(read_any_request(&bytes).is_ok(), "seed {}", seed);
        }
    }

    #[test]
    fn odd_values_are_unreadable_in_to_alone() {
        for seed in 0..300 {
            let mut draft = draft();
            odd_value(&mut draft, &mut Random::new(seed));
            let is_to = draft
                .lines
                .last()
                .map_or(false, |line| line.name == Some(Name::To));
            let is_readable = read_any_request(&draft.bytes()).is_ok();
            assert!(is_readable || is_to, "seed {}", seed);
        }
    }
}
