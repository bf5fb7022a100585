//! The header lines of a request: each a name and a value, up to the empty
//! line. Nothing is copied out of the request.

use crate::names::Name;
use crate::text::*;
use crate::unreadable::Unreadable;

#[derive(Clone, Copy, Debug, PartialEq, Eq)]
pub struct HeaderLine<'a> {
    pub name: &'a [u8],
    pub value: &'a [u8],
    /// As it came, without its CR LF.
    pub line: &'a [u8],
}

/// The header lines before the empty line, and the bytes after it.
pub fn read_header_lines(bytes: &[u8]) -> Result<(Vec<HeaderLine<'_>>, &[u8]), Unreadable> {
    let mut lines = Vec::new();
    let mut left = bytes;
    loop {
        let (line, rest) = take_line(left).ok_or(Unreadable::NoEmptyLine)?;
        left = rest;
        if line.is_empty() {
            return Ok((lines, left));
        }
        lines.push(read_header_line(line).ok_or(Unreadable::HeaderLine)?);
    }
}

/// A token, spaces or tabs or none, a colon, the value.
fn read_header_line(line: &[u8]) -> Option<HeaderLine<'_>> {
    let (name, rest) = line.split_at(front_of(line, TOKEN));
    let rest = &rest[front_of(rest, BLANK)..];
    match rest.split_first() {
        Some((b':', value)) if !name.is_empty() && all_are(value, VALUE) => Some(HeaderLine {
            name,
            value: without_outer_blanks(value),
            line,
        }),
        _ => None,
    }
}

/// The lines of that name, in their order.
pub fn named<'l, 'a>(
    lines: &'l [HeaderLine<'a>],
    name: Name,
) -> impl Iterator<Item = &'l HeaderLine<'a>> {
    lines.iter().filter(move |line| name.is_written(line.name))
}
