//! How often a run of frames reached each row: of the results, the refusals,
//! the kinds of success, the results of adding and those of reading state; and
//! how often each kind of reading.

use std::io::{self, Write};

use crate::bench::Outcome;
use crate::generate::Generator;
use crate::handle::NoMessage;
use crate::message::Answer;
use crate::names::Name;
use crate::read_state::{NotShown, Shown};
use crate::reading_in::Lack;
use crate::reading_kinds::{Case, KINDS};
use crate::refusals::Refusal;
use crate::success::Kind;
use crate::turn::Turn;
use crate::unreadable::Unreadable;

/// The rows that a frame can reach, in the order of the paper. A frame is
/// counted in one of them; those of reading state are bad to the bench.
pub const REACHABLE: [&str; 61] = [
    "none-4-clock",
    "none-6-first-line",
    "none-6-header-line",
    "none-6-no-empty-line",
    "none-6-above-64-lines",
    "none-6-via-absent",
    "none-6-from-absent",
    "none-6-from-repeated",
    "none-6-to-absent",
    "none-6-to-repeated",
    "none-6-call-id-absent",
    "none-6-call-id-repeated",
    "none-6-cseq-absent",
    "none-6-cseq-repeated",
    "none-6-to-open-quote",
    "none-6-to-open-angle",
    "none-6-ack",
    "405",
    "400-cseq",
    "400-content-length-repeated",
    "400-content-length-not-digits",
    "400-content-length-more-than-there",
    "400-expires-repeated",
    "400-expires-not-digits",
    "400-expires-too-large",
    "400-event-repeated",
    "400-content-type-repeated",
    "404",
    "489-absent",
    "489-not-listed",
    "500-clock",
    "400-sip-if-match-repeated",
    "400-sip-if-match-not-one-token",
    "412",
    "423",
    "413",
    "415-absent",
    "415-another",
    "400-neither-body-nor-match",
    "500-spent",
    "503",
    "200-initial",
    "200-refresh",
    "200-modify",
    "200-remove",
    "200-initial-of-zero",
    "add-0",
    "add-7",
    "add-8",
    "add-9",
    "bad",
    "read-0-store",
    "read-0-default",
    "read-4",
    "read-10-address",
    "read-10-package",
    "read-11",
    "read-bad-no-lengths",
    "read-bad-address-past-end",
    "read-bad-one-length",
    "read-bad-package-past-end",
];

/// Rows that no frame reaches: the bench's sizes are fixed, and a table opened
/// afresh stays sound.
pub const UNREACHABLE: [&str; 8] = [
    "none-1", "none-2", "none-3", "none-5", "add-2", "add-5", "read-2", "read-5",
];

pub fn row(turn: &Turn) -> &'static str {
    match turn {
        Turn::Bench(outcome) => bench_row(outcome),
        Turn::Read(_, read) => read_row(read),
        Turn::Lacking(lack) => lacking_row(*lack),
    }
}

fn bench_row(outcome: &Outcome) -> &'static str {
    match outcome {
        Outcome::Bad => "bad",
        Outcome::Added(result) => added_row(*result),
        Outcome::None(why) => none_row(why),
        Outcome::Answered(written) => match &written.answer {
            Answer::Ok(success) => success_row(success.kind),
            Answer::Refused(refusal) => refusal_row(refusal),
        },
    }
}

fn added_row(result: u8) -> &'static str {
    match result {
        0 => "add-0",
        2 => "add-2",
        5 => "add-5",
        7 => "add-7",
        8 => "add-8",
        _ => "add-9",
    }
}

fn none_row(why: &NoMessage) -> &'static str {
    match why {
        NoMessage::BufferTooSmall => "none-1",
        NoMessage::WrongSizes => "none-2",
        NoMessage::RequestTooLong => "none-3",
        NoMessage::ClockAboveLimit => "none-4-clock",
        NoMessage::NotSound => "none-5",
        NoMessage::Unreadable(unreadable) => unreadable_row(unreadable),
    }
}

pub fn unreadable_row(unreadable: &Unreadable) -> &'static str {
    match unreadable {
        Unreadable::FirstLine => "none-6-first-line",
        Unreadable::HeaderLine => "none-6-header-line",
        Unreadable::NoEmptyLine => "none-6-no-empty-line",
        Unreadable::TooManyLines => "none-6-above-64-lines",
        Unreadable::Absent(Name::From) => "none-6-from-absent",
        Unreadable::Absent(Name::To) => "none-6-to-absent",
        Unreadable::Absent(Name::CallId) => "none-6-call-id-absent",
        Unreadable::Absent(Name::Cseq) => "none-6-cseq-absent",
        Unreadable::Absent(_) => "none-6-via-absent",
        Unreadable::Repeated(Name::From) => "none-6-from-repeated",
        Unreadable::Repeated(Name::To) => "none-6-to-repeated",
        Unreadable::Repeated(Name::CallId) => "none-6-call-id-repeated",
        Unreadable::Repeated(_) => "none-6-cseq-repeated",
        Unreadable::OpenQuote => "none-6-to-open-quote",
        Unreadable::OpenAngle => "none-6-to-open-angle",
        Unreadable::Ack => "none-6-ack",
    }
}

fn refusal_row(refusal: &Refusal) -> &'static str {
    match refusal {
        Refusal::MethodNotPublish => "405",
        Refusal::Cseq => "400-cseq",
        Refusal::LengthRepeated => "400-content-length-repeated",
        Refusal::LengthNotDigits => "400-content-length-not-digits",
        Refusal::LengthMoreThanThere => "400-content-length-more-than-there",
        Refusal::ExpiresRepeated => "400-expires-repeated",
        Refusal::ExpiresNotDigits => "400-expires-not-digits",
        Refusal::ExpiresTooLarge => "400-expires-too-large",
        Refusal::EventRepeated => "400-event-repeated",
        Refusal::ContentTypeRepeated => "400-content-type-repeated",
        Refusal::AddressNotInTable => "404",
        Refusal::EventAbsent => "489-absent",
        Refusal::PackageNotListed => "489-not-listed",
        Refusal::ClockBelowLatest => "500-clock",
        Refusal::MatchRepeated => "400-sip-if-match-repeated",
        Refusal::MatchNotOneToken => "400-sip-if-match-not-one-token",
        Refusal::NoLivePublication => "412",
        Refusal::IntervalTooBrief { .. } => "423",
        Refusal::BodyTooLarge => "413",
        Refusal::ContentTypeAbsent { .. } => "415-absent",
        Refusal::ContentTypeAnother { .. } => "415-another",
        Refusal::NeitherBodyNorMatch => "400-neither-body-nor-match",
        Refusal::AllTagsSpent => "500-spent",
        Refusal::EightLive { .. } => "503",
    }
}

fn success_row(kind: Kind) -> &'static str {
    match kind {
        Kind::Initial => "200-initial",
        Kind::Refresh => "200-refresh",
        Kind::Modify => "200-modify",
        Kind::Remove => "200-remove",
        Kind::InitialOfZero => "200-initial-of-zero",
    }
}

fn read_row(read: &Result<Shown, NotShown>) -> &'static str {
    match read {
        Ok(Shown::Store { .. }) => "read-0-store",
        Ok(Shown::Default) => "read-0-default",
        Err(NotShown::WrongSizes) => "read-2",
        Err(NotShown::ClockAboveLimit) => "read-4",
        Err(NotShown::NotSound) => "read-5",
        Err(NotShown::AddressNotKnown) => "read-10-address",
        Err(NotShown::PackageNotKnown) => "read-10-package",
        Err(NotShown::ClockBelowLatest) => "read-11",
    }
}

fn lacking_row(lack: Lack) -> &'static str {
    match lack {
        Lack::AddressLength => "read-bad-no-lengths",
        Lack::Address => "read-bad-address-past-end",
        Lack::PackageLength => "read-bad-one-length",
        Lack::Package => "read-bad-package-past-end",
    }
}

/// The rows that the generated lines reach, in the order of `REACHABLE`, then
/// the kinds of reading.
pub fn counts(seed: u64, lines: u64) -> Vec<(&'static str, u64)> {
    let mut rows: Vec<_> = REACHABLE.iter().map(|&name| (name, 0)).collect();
    let mut kinds: Vec<_> = KINDS.iter().map(|&(name, _)| (name, 0)).collect();
    let mut generator = Generator::new(seed);
    for _ in 0..lines {
        let (_, turn) = generator.next_line();
        let reached = row(&turn);
        for (name, count) in rows.iter_mut() {
            *count += u64::from(*name == reached);
        }
        if let Turn::Read(reading, read) = &turn {
            let records = generator.records();
            let case = Case {
                records,
                reading,
                read,
            };
            for ((_, test), (_, count)) in KINDS.iter().zip(kinds.iter_mut()) {
                *count += u64::from(test(&case));
            }
        }
    }
    rows.extend(kinds);
    rows
}

pub fn print_counts<W: Write>(seed: u64, lines: u64, output: &mut W) -> io::Result<()> {
    for (name, count) in counts(seed, lines) {
        writeln!(output, "{} {}", name, count)?;
    }
    for name in UNREACHABLE {
        writeln!(output, "{} unreachable", name)?;
    }
    Ok(())
}
