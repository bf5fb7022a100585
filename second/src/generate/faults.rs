//! The ways a request goes wrong, one for each row of the refusals or more.
//! Each is done to a request that would succeed, or to one with other faults.

use super::attempt::Attempt;
use super::dead_tags::dead_tag;
use super::draft::{dressed_line, plain_line};
use super::random::Random;
use super::values;
use super::world::World;
use crate::names::Name;
use crate::packages;
use crate::record::CLOCK_LIMIT;
use crate::request::MOST_HEADER_LINES;

#[derive(Clone, Copy, Debug, PartialEq, Eq)]
pub enum Fault {
    ClockAboveLimit,
    FirstLine,
    HeaderLine,
    NoEmptyLine,
    TooManyLines,
    Absent(Name),
    Repeated(Name),
    OpenQuote,
    OpenAngle,
    Ack,
    OtherMethod,
    Cseq,
    LengthNotDigits,
    LengthMoreThanThere,
    ExpiresNotDigits,
    ExpiresTooLarge,
    UnknownAddress,
    PackageNotListed,
    ClockBehind,
    MatchNotOneToken,
    NoLivePublication,
    TooBrief,
    BodyTooLarge,
    AnotherType,
    NeitherBodyNorMatch,
}

pub const ALL: [Fault; 39] = [
    Fault::ClockAboveLimit,
    Fault::FirstLine,
    Fault::HeaderLine,
    Fault::NoEmptyLine,
    Fault::TooManyLines,
    Fault::Absent(Name::Via),
    Fault::Absent(Name::From),
    Fault::Repeated(Name::From),
    Fault::Absent(Name::To),
    Fault::Repeated(Name::To),
    Fault::Absent(Name::CallId),
    Fault::Repeated(Name::CallId),
    Fault::Absent(Name::Cseq),
    Fault::Repeated(Name::Cseq),
    Fault::OpenQuote,
    Fault::OpenAngle,
    Fault::Ack,
    Fault::OtherMethod,
    Fault::Cseq,
    Fault::Repeated(Name::ContentLength),
    Fault::LengthNotDigits,
    Fault::LengthMoreThanThere,
    Fault::Repeated(Name::Expires),
    Fault::ExpiresNotDigits,
    Fault::ExpiresTooLarge,
    Fault::Repeated(Name::Event),
    Fault::Repeated(Name::ContentType),
    Fault::UnknownAddress,
    Fault::Absent(Name::Event),
    Fault::PackageNotListed,
    Fault::ClockBehind,
    Fault::Repeated(Name::SipIfMatch),
    Fault::MatchNotOneToken,
    Fault::NoLivePublication,
    Fault::TooBrief,
    Fault::BodyTooLarge,
    Fault::Absent(Name::ContentType),
    Fault::AnotherType,
    Fault::NeitherBodyNorMatch,
];

/// The place of the first fault that is answered with a message.
const FIRST_ANSWERED: usize = 17;

/// One request with one fault.
pub fn single(fault: Fault, world: &World, random: &mut Random) -> Attempt {
    let mut attempt = match fault {
        Fault::Absent(Name::ContentType) | Fault::AnotherType => {
            Attempt::any_with_body(world, random)
        }
        Fault::NoLivePublication => Attempt::matching(world, random, |wish, _| wish),
        _ => Attempt::any(world, random),
    };
    apply(fault, &mut attempt, world, random);
    attempt
}

/// One request with two faults of neighbouring rows, or two or three of any.
pub fn several(world: &World, random: &mut Random) -> Attempt {
    let mut attempt = Attempt::any(world, random);
    if random.one_in(2) {
        let place = FIRST_ANSWERED - 1 + random.place(ALL.len() - FIRST_ANSWERED);
        apply(ALL[place], &mut attempt, world, random);
        apply(ALL[place + 1], &mut attempt, world, random);
        return attempt;
    }
    for _ in 0..2 + random.below(2) {
        one_more(&mut attempt, world, random);
    }
    attempt
}

/// Any fault, mostly one that gets a message, so that the order of the rows
/// shows.
pub fn one_more(attempt: &mut Attempt, world: &World, random: &mut Random) {
    let from = match random.one_in(8) {
        true => &ALL[..],
        false => &ALL[FIRST_ANSWERED..],
    };
    let fault = *random.pick(from);
    apply(fault, attempt, world, random);
}

pub fn apply(fault: Fault, attempt: &mut Attempt, world: &World, random: &mut Random) {
    if let Some((name, values)) = wrong_values(fault) {
        return wrong_value(attempt, name, values, random);
    }
    match fault {
        Fault::ClockAboveLimit => clock_above_limit(attempt, random),
        Fault::FirstLine => first_line(attempt, random),
        Fault::HeaderLine => header_line(attempt, random),
        Fault::NoEmptyLine => no_empty_line(attempt, random),
        Fault::TooManyLines => pad_lines(attempt, MOST_HEADER_LINES + 1 + random.place(3), random),
        Fault::Absent(name) => attempt.draft.remove(name),
        Fault::Repeated(name) => repeated(attempt, name, random),
        Fault::Ack => method(attempt, "ACK", random),
        Fault::OtherMethod => {
            let other = random.pick(values::OTHER_METHODS);
            method(attempt, other, random)
        }
        Fault::LengthMoreThanThere => length_more_than_there(attempt, random),
        Fault::UnknownAddress => unknown_address(attempt, world, random),
        Fault::ClockBehind => clock_behind(attempt, world, random),
        Fault::NoLivePublication => no_live_publication(attempt, world, random),
        Fault::TooBrief => too_brief(attempt, random),
        Fault::BodyTooLarge => body_too_large(attempt, random),
        Fault::AnotherType => another_type(attempt, random),
        _ => neither_body_nor_match(attempt, random),
    }
}

/// The faults that are only a wrong value of one field.
fn wrong_values(fault: Fault) -> Option<(Name, &'static [&'static str])> {
    match fault {
        Fault::OpenQuote => Some((Name::To, values::TO_OPEN_QUOTE)),
        Fault::OpenAngle => Some((Name::To, values::TO_OPEN_ANGLE)),
        Fault::Cseq => Some((Name::Cseq, values::CSEQ_WRONG)),
        Fault::LengthNotDigits => Some((Name::ContentLength, values::NOT_DIGITS)),
        Fault::ExpiresNotDigits => Some((Name::Expires, values::NOT_DIGITS)),
        Fault::ExpiresTooLarge => Some((Name::Expires, values::EXPIRES_TOO_LARGE)),
        Fault::PackageNotListed => Some((Name::Event, values::EVENTS_NOT_LISTED)),
        Fault::MatchNotOneToken => Some((Name::SipIfMatch, values::NOT_ONE_TOKEN)),
        _ => None,
    }
}

fn wrong_value(attempt: &mut Attempt, name: Name, wrong: &[&str], random: &mut Random) {
    let value = random.pick(wrong).replace('@', "ann");
    attempt.draft.set(name, value.as_bytes(), random);
}

fn clock_above_limit(attempt: &mut Attempt, random: &mut Random) {
    attempt.clock = match random.below(4) {
        0 => CLOCK_LIMIT + 1,
        1 => u64::MAX,
        2 => attempt.clock | 1 << 63,
        _ => CLOCK_LIMIT + 1 + random.below(1 << 40),
    };
}

fn first_line(attempt: &mut Attempt, random: &mut Random) {
    match random.below(4) {
        0 => attempt.draft.method = random.pick(values::METHODS_WRONG).as_bytes().to_vec(),
        1 => attempt.draft.uri = Vec::new(),
        _ => attempt.draft.version = random.pick(values::FIRST_LINES_WRONG).as_bytes().to_vec(),
    }
}

fn header_line(attempt: &mut Attempt, random: &mut Random) {
    let text = random.pick(values::HEADER_LINES_WRONG).to_vec();
    attempt.draft.insert_text(None, text, random);
}

fn no_empty_line(attempt: &mut Attempt, random: &mut Random) {
    attempt.draft.rest.clear();
    attempt.draft.end = random
        .pick(&["", "\r", "\n", "\n\n", "x"])
        .as_bytes()
        .to_vec();
}

/// Brings the header lines to that count.
pub fn pad_lines(attempt: &mut Attempt, count: usize, random: &mut Random) {
    while attempt.draft.lines.len() < count {
        let text = random.pick(&["a:\r\n", "Via2: x\r\n", "b\t: y\r\n"]);
        let text = text.as_bytes().to_vec();
        attempt.draft.insert_text(None, text, random);
    }
}

/// One more line of that name, with the same value or another one.
fn repeated(attempt: &mut Attempt, name: Name, random: &mut Random) {
    let value: &[u8] = match name {
        Name::ContentLength => b"0",
        Name::Expires => b"3600",
        Name::Event => packages::NAMES[attempt.package].as_bytes(),
        Name::ContentType => packages::CONTENT_TYPES[attempt.package].as_bytes(),
        Name::SipIfMatch => b"9e3779b9",
        Name::Cseq => b"1 PUBLISH",
        _ => b"<ann>",
    };
    if !attempt.draft.has(name) {
        attempt.draft.append(name, value, random);
    }
    let value = if random.one_in(4) { b"" } else { value };
    let text = match random.one_in(2) {
        true => dressed_line(name, value, random),
        false => plain_line(name.full(), value),
    };
    attempt.draft.insert_text(Some(name), text, random);
}

fn method(attempt: &mut Attempt, method: &str, random: &mut Random) {
    attempt.draft.method = method.as_bytes().to_vec();
    if random.one_in(2) {
        let cseq = format!("1 {}", method);
        attempt.draft.set(Name::Cseq, cseq.as_bytes(), random);
    }
}

/// By one, by much, and by as much as narrow arithmetic would not notice.
fn length_more_than_there(attempt: &mut Attempt, random: &mut Random) {
    let there = attempt.draft.rest.len() as u128;
    let length = match random.below(5) {
        0 | 1 => there + 1,
        2 => there + (1 << 32),
        3 => there + (1 << 64),
        _ => there + 1 + u128::from(random.word()),
    };
    let text = length.to_string();
    attempt
        .draft
        .set(Name::ContentLength, text.as_bytes(), random);
}

fn unknown_address(attempt: &mut Attempt, world: &World, random: &mut Random) {
    let mut uri = attempt.draft.uri.clone();
    match random.below(6) {
        0 => uri.push(b'x'),
        1 => {
            uri.pop();
        }
        2 => uri.make_ascii_uppercase(),
        3 => uri.extend_from_slice(&[b'~'; 64]),
        4 => uri.insert(0, b'!'),
        _ => uri = b"sip:nobody@board.example".to_vec(),
    }
    let known = uri.is_empty() || world.find(&uri).is_some();
    attempt.draft.uri = if known { b"nobody".to_vec() } else { uri };
}

/// Also moves the attempt to an address with a success, if it has none.
fn clock_behind(attempt: &mut Attempt, world: &World, random: &mut Random) {
    let later = world.those(|record| record.latest > 0);
    let own = attempt.record.filter(|r| later.contains(r));
    if let Some(r) = own.or_else(|| random.pick_any(&later)) {
        let latest = world.record(r).latest;
        attempt.record = Some(r);
        attempt.draft.uri = world.record(r).address().to_vec();
        attempt.clock = match random.below(4) {
            0 => 0,
            1 => random.below(latest),
            _ => latest - 1,
        };
    }
}

/// Presents a tag that no live publication of that package has.
fn no_live_publication(attempt: &mut Attempt, world: &World, random: &mut Random) {
    let r = match attempt.record {
        Some(r) => r,
        None => return,
    };
    let mut tag = dead_tag(attempt, r, world, random);
    if tag.is_empty() || world.is_live(r, attempt.package, &tag, attempt.clock) {
        tag = random.pick(values::NEVER_A_TAG).as_bytes().to_vec();
    }
    attempt.draft.set(Name::SipIfMatch, &tag, random);
}

fn too_brief(attempt: &mut Attempt, random: &mut Random) {
    let expires = values::expires_too_brief(attempt.package, random);
    attempt.draft.set(Name::Expires, expires.as_bytes(), random);
}

fn body_too_large(attempt: &mut Attempt, random: &mut Random) {
    let length = *random.pick(&[513, 513, 514, 600, 1024, 2500]);
    attempt.draft.rest = random.bytes(length);
    attempt.draft.remove(Name::ContentLength);
    if random.one_in(2) {
        let text = length.to_string();
        attempt
            .draft
            .append(Name::ContentLength, text.as_bytes(), random);
    }
}

fn another_type(attempt: &mut Attempt, random: &mut Random) {
    let other = (attempt.package + 1 + random.place(2)) % packages::COUNT;
    let mut value = match random.one_in(3) {
        true => packages::CONTENT_TYPES[other],
        false => random.pick(values::OTHER_CONTENT_TYPES),
    };
    if value == packages::CONTENT_TYPES[attempt.package] {
        value = "text/plain";
    }
    attempt
        .draft
        .set(Name::ContentType, value.as_bytes(), random);
}

/// No body because there is none, or because Content-Length drops it.
fn neither_body_nor_match(attempt: &mut Attempt, random: &mut Random) {
    attempt.draft.remove(Name::SipIfMatch);
    attempt.draft.remove(Name::ContentLength);
    if random.one_in(2) {
        attempt.draft.append(Name::ContentLength, b"0", random);
    } else {
        attempt.draft.rest.clear();
    }
}
