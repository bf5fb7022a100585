//! The reads listing: for each line of hexadecimal, what the request in it
//! says.

use std::io::{BufRead, Write};

use crate::frames_in::{bytes_of_digits, next_line};
use crate::handle::LONGEST_REQUEST;
use crate::listing::Trouble;
use crate::names::Name;
use crate::refusals::{content_length, cseq_is_well_formed, expires, match_is_one_token, Refusal};
use crate::request::{read_any_request, Request};
use crate::text::{hex_or_dash, up_to_semicolon_or_blank};
use crate::unreadable::Unreadable;

/// Two digits for each byte of a request.
pub const MOST_DIGITS: usize = 2 * LONGEST_REQUEST;

/// The fields that are counted, in the order of the listing.
pub const COUNTED: [Name; 10] = [
    Name::Via,
    Name::From,
    Name::To,
    Name::CallId,
    Name::Cseq,
    Name::ContentType,
    Name::ContentLength,
    Name::Event,
    Name::Expires,
    Name::SipIfMatch,
];

/// What came of reading one line.
#[derive(Clone, Debug, PartialEq, Eq)]
pub enum Reading<'a> {
    Bad,
    Unreadable(Unreadable),
    Said(Said<'a>),
}

/// What a readable request says, or why a field of it says nothing.
#[derive(Clone, Debug, PartialEq, Eq)]
pub struct Said<'a> {
    pub request: Request<'a>,
    pub cseq: Result<(), Refusal>,
    pub body: Result<&'a [u8], Refusal>,
    pub expires: Result<Option<u32>, Refusal>,
    pub presented: Result<Option<&'a [u8]>, Refusal>,
}

pub fn print_reads<R: BufRead, W: Write>(input: &mut R, output: &mut W) -> Result<(), Trouble> {
    let mut line_number: u64 = 0;
    while let Some(line) = next_line(input).map_err(Trouble::Input)? {
        line_number += 1;
        let bytes = request_bytes(&line);
        let text = reading_text(&reading_of(bytes.as_deref()));
        writeln!(output, "{} {}", line_number, text).map_err(Trouble::Output)?;
    }
    Ok(())
}

/// The request in a line, or none where the line is bad.
pub fn request_bytes(line: &[u8]) -> Option<Vec<u8>> {
    bytes_of_digits(line, MOST_DIGITS)
}

pub fn reading_of(bytes: Option<&[u8]>) -> Reading<'_> {
    match bytes.map(read_any_request) {
        None => Reading::Bad,
        Some(Err(why)) => Reading::Unreadable(why),
        Some(Ok(request)) => Reading::Said(said(request)),
    }
}

fn said(request: Request) -> Said {
    Said {
        cseq: cseq_is_well_formed(&request),
        body: content_length(&request).map(|length| request.body(length)),
        expires: expires(&request),
        presented: match_is_one_token(&request),
        request,
    }
}

/// What the listing says of one line, after its number.
pub fn reading_text(reading: &Reading) -> String {
    match reading {
        Reading::Bad => "bad".to_string(),
        Reading::Unreadable(_) => "unreadable".to_string(),
        Reading::Said(said) => said_text(said),
    }
}

fn said_text(said: &Said) -> String {
    let request = &said.request;
    let texts = [
        hex_or_dash(request.method),
        hex_or_dash(request.uri),
        times_text(request),
        to_text(request),
        cseq_text(said),
        length_text(said),
        expires_text(said),
        front_text(request, Name::Event),
        front_text(request, Name::ContentType),
        match_text(said),
        hex_or_dash(said.body.unwrap_or(b"")),
    ];
    texts.join(" ")
}

/// How often each field stands: 0, 1, or 2 for more often.
fn times_text(request: &Request) -> String {
    COUNTED
        .iter()
        .map(|&name| match request.named(name).count() {
            0 => '0',
            1 => '1',
            _ => '2',
        })
        .collect()
}

fn to_text(request: &Request) -> String {
    match request.to_has_tag {
        true => "tagged".to_string(),
        false => "untagged".to_string(),
    }
}

fn cseq_text(said: &Said) -> String {
    u8::from(said.cseq.is_ok()).to_string()
}

fn length_text(said: &Said) -> String {
    match said.body {
        Ok(body) => body.len().to_string(),
        Err(_) => "-".to_string(),
    }
}

fn expires_text(said: &Said) -> String {
    match said.expires {
        Ok(None) => "absent".to_string(),
        Ok(Some(seconds)) => seconds.to_string(),
        Err(_) => "-".to_string(),
    }
}

/// The value of the first line of that name up to a `;` or blank. Where there
/// is no such line the text is empty.
fn front_text(request: &Request, name: Name) -> String {
    let value = request.value(name).unwrap_or(b"");
    hex_or_dash(up_to_semicolon_or_blank(value))
}

fn match_text(said: &Said) -> String {
    match said.presented {
        Ok(None) => "absent".to_string(),
        Ok(Some(token)) => hex_or_dash(token),
        Err(_) => "unfit".to_string(),
    }
}
