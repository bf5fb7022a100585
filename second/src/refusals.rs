//! The one list of refusals that have a message, each row a function, tried in
//! the paper's order. What passes it is accepted and cannot fail any more.

use crate::names::Name;
use crate::packages;
use crate::record::{Record, BODY_SIZE};
use crate::request::Request;
use crate::table::record_of;
use crate::tags::presents;
use crate::text::*;

#[derive(Clone, Copy, Debug, PartialEq, Eq)]
pub enum Refusal {
    MethodNotPublish,
    Cseq,
    LengthRepeated,
    LengthNotDigits,
    LengthMoreThanThere,
    ExpiresRepeated,
    ExpiresNotDigits,
    ExpiresTooLarge,
    EventRepeated,
    ContentTypeRepeated,
    AddressNotInTable,
    EventAbsent,
    PackageNotListed,
    ClockBelowLatest,
    MatchRepeated,
    MatchNotOneToken,
    NoLivePublication,
    IntervalTooBrief { least: u32 },
    BodyTooLarge,
    ContentTypeAbsent { package: usize },
    ContentTypeAnother { package: usize },
    NeitherBodyNorMatch,
    AllTagsSpent,
    EightLive { retry_after: u64 },
}

impl Refusal {
    pub fn status(&self) -> u16 {
        use Refusal::*;
        match self {
            MethodNotPublish => 405,
            Cseq | LengthRepeated | LengthNotDigits | LengthMoreThanThere => 400,
            ExpiresRepeated | ExpiresNotDigits | ExpiresTooLarge => 400,
            EventRepeated | ContentTypeRepeated => 400,
            AddressNotInTable => 404,
            EventAbsent | PackageNotListed => 489,
            ClockBelowLatest => 500,
            MatchRepeated | MatchNotOneToken => 400,
            NoLivePublication => 412,
            IntervalTooBrief { .. } => 423,
            BodyTooLarge => 413,
            ContentTypeAbsent { .. } | ContentTypeAnother { .. } => 415,
            NeitherBodyNorMatch => 400,
            AllTagsSpent => 500,
            EightLive { .. } => 503,
        }
    }
}

/// What a request that no row refuses asks for.
#[derive(Clone, Copy, Debug, PartialEq, Eq)]
pub struct Accepted<'a> {
    pub record: usize,
    pub package: usize,
    /// The slot that SIP-If-Match names, where it is given.
    pub matched: Option<usize>,
    pub granted: u32,
    pub body: &'a [u8],
}

pub fn try_all<'a>(
    request: &Request<'a>,
    records: &[Record],
    clock: u64,
) -> Result<Accepted<'a>, Refusal> {
    method_is_publish(request)?;
    let (body, expires) = fields_are_well_formed(request)?;
    let r = address_is_in_the_table(request, records)?;
    let record = &records[r];
    let package = package_is_listed(request)?;
    clock_is_not_behind(record, clock)?;
    let presented = match_is_one_token(request)?;
    let matched = matched_slot(record, package, presented, clock)?;
    let requested = packages::requested_time(package, expires);
    time_is_long_enough(package, requested)?;
    body_is_small_enough(body)?;
    content_type_is_right(request, package, body)?;
    something_is_given(body, matched)?;
    a_tag_is_left(record)?;
    let granted = packages::granted_time(package, requested);
    there_is_room(record, clock, matched, granted)?;
    Ok(Accepted {
        record: r,
        package,
        matched,
        granted,
        body,
    })
}

/// 405
fn method_is_publish(request: &Request) -> Result<(), Refusal> {
    accept_if(request.method == b"PUBLISH", Refusal::MethodNotPublish)
}

/// The first 400; gives the body and the Expires number.
fn fields_are_well_formed<'a>(request: &Request<'a>) -> Result<(&'a [u8], Option<u32>), Refusal> {
    cseq_is_well_formed(request)?;
    let content_length = content_length(request)?;
    let expires = expires(request)?;
    once_at_most(request, Name::Event, Refusal::EventRepeated)?;
    once_at_most(request, Name::ContentType, Refusal::ContentTypeRepeated)?;
    Ok((request.body(content_length), expires))
}

/// Digits, blanks, the method.
pub fn cseq_is_well_formed(request: &Request) -> Result<(), Refusal> {
    let value = request.value(Name::Cseq).unwrap_or(b"");
    let (digits, rest) = value.split_at(front_of(value, DIGIT));
    let (blanks, method) = rest.split_at(front_of(rest, BLANK));
    let in_range = matches!(number(digits, 2147483647), Number::Value(_));
    accept_if(
        in_range && !blanks.is_empty() && method == request.method,
        Refusal::Cseq,
    )
}

pub fn content_length(request: &Request) -> Result<Option<usize>, Refusal> {
    once_at_most(request, Name::ContentLength, Refusal::LengthRepeated)?;
    let there = request.rest.len() as u64;
    match request.value(Name::ContentLength) {
        None => Ok(None),
        Some(value) => match number(value, there) {
            Number::Value(length) => Ok(Some(length as usize)),
            Number::TooLarge => Err(Refusal::LengthMoreThanThere),
            Number::NotDigits => Err(Refusal::LengthNotDigits),
        },
    }
}

pub fn expires(request: &Request) -> Result<Option<u32>, Refusal> {
    once_at_most(request, Name::Expires, Refusal::ExpiresRepeated)?;
    match request.value(Name::Expires) {
        None => Ok(None),
        Some(value) => match number(value, u64::from(u32::MAX)) {
            Number::Value(seconds) => Ok(Some(seconds as u32)),
            Number::TooLarge => Err(Refusal::ExpiresTooLarge),
            Number::NotDigits => Err(Refusal::ExpiresNotDigits),
        },
    }
}

/// 404
fn address_is_in_the_table(request: &Request, records: &[Record]) -> Result<usize, Refusal> {
    record_of(records, request.uri).ok_or(Refusal::AddressNotInTable)
}

/// 489
fn package_is_listed(request: &Request) -> Result<usize, Refusal> {
    let value = request.value(Name::Event).ok_or(Refusal::EventAbsent)?;
    packages::package_named(up_to_semicolon_or_blank(value)).ok_or(Refusal::PackageNotListed)
}

/// The first 500
pub fn clock_is_not_behind(record: &Record, clock: u64) -> Result<(), Refusal> {
    accept_if(clock >= record.latest, Refusal::ClockBelowLatest)
}

/// The second 400; gives the tag presented, if one is.
pub fn match_is_one_token<'a>(request: &Request<'a>) -> Result<Option<&'a [u8]>, Refusal> {
    once_at_most(request, Name::SipIfMatch, Refusal::MatchRepeated)?;
    match request.value(Name::SipIfMatch) {
        Some(value) if !is_token(value) => Err(Refusal::MatchNotOneToken),
        presented => Ok(presented),
    }
}

/// 412
pub fn matched_slot(
    record: &Record,
    package: usize,
    presented: Option<&[u8]>,
    clock: u64,
) -> Result<Option<usize>, Refusal> {
    match presented {
        None => Ok(None),
        Some(tag) => record
            .live(clock)
            .find(|(_, slot)| slot.package == package && presents(tag, slot.tag))
            .map(|(k, _)| Some(k))
            .ok_or(Refusal::NoLivePublication),
    }
}

/// 423
fn time_is_long_enough(package: usize, requested: u32) -> Result<(), Refusal> {
    let least = packages::LEAST[package];
    accept_if(
        requested == 0 || requested >= least,
        Refusal::IntervalTooBrief { least },
    )
}

/// 413
fn body_is_small_enough(body: &[u8]) -> Result<(), Refusal> {
    accept_if(body.len() <= BODY_SIZE, Refusal::BodyTooLarge)
}

/// 415
fn content_type_is_right(request: &Request, package: usize, body: &[u8]) -> Result<(), Refusal> {
    if body.is_empty() {
        return Ok(());
    }
    let value = request
        .value(Name::ContentType)
        .ok_or(Refusal::ContentTypeAbsent { package })?;
    let right = packages::CONTENT_TYPES[package].as_bytes();
    accept_if(
        same_in_either_case(up_to_semicolon_or_blank(value), right),
        Refusal::ContentTypeAnother { package },
    )
}

/// The third 400
pub fn something_is_given(body: &[u8], matched: Option<usize>) -> Result<(), Refusal> {
    accept_if(
        !body.is_empty() || matched.is_some(),
        Refusal::NeitherBodyNorMatch,
    )
}

/// The second 500
pub fn a_tag_is_left(record: &Record) -> Result<(), Refusal> {
    accept_if(record.spent < u32::MAX, Refusal::AllTagsSpent)
}

/// 503
fn there_is_room(
    record: &Record,
    clock: u64,
    matched: Option<usize>,
    granted: u32,
) -> Result<(), Refusal> {
    let needs_room = matched.is_none() && granted > 0;
    match record.least_end_of_eight(clock) {
        Some(end) if needs_room => Err(Refusal::EightLive {
            retry_after: end - clock,
        }),
        _ => Ok(()),
    }
}

fn once_at_most(request: &Request, name: Name, refusal: Refusal) -> Result<(), Refusal> {
    accept_if(!request.is_repeated(name), refusal)
}

fn accept_if(condition: bool, refusal: Refusal) -> Result<(), Refusal> {
    if condition {
        Ok(())
    } else {
        Err(refusal)
    }
}
