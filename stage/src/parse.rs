//! Reads a scene: from the lines of a file to its steps, or to its first fault.

use crate::fault::Fault;
use crate::lines::lines_of;
use crate::scene::{Order, Step};
use crate::tags::check_tags;
use crate::words::{blanks, Words};

const MOST_32: u64 = u32::MAX as u64;
/// The lengths of a frame that reads state are one byte each.
const MOST_READ: usize = 255;

pub fn parse(file: &[u8]) -> Result<Vec<Step>, Fault> {
    let lines = lines_of(file);
    let mut steps = Vec::new();
    let mut at = 0;
    while at < lines.len() {
        if !is_skipped(lines[at]) {
            let step = step_at(&lines, &mut at, steps.len() + 1)?;
            steps.push(step);
        }
        at += 1;
    }
    match steps.is_empty() {
        true => Err(Fault::new(
            lines.len() + 1,
            "a step: a line with add, at or read",
        )),
        false => Ok(steps),
    }
}

/// Empty, blank, or a comment.
fn is_skipped(line: &[u8]) -> bool {
    let text = &line[blanks(line)..];
    text.is_empty() || text[0] == b'#'
}

/// The step that begins at a line; `at` is left on its last line.
fn step_at(lines: &[&[u8]], at: &mut usize, number: usize) -> Result<Step, Fault> {
    let line = *at + 1;
    let mut words = Words::new(lines[*at], line);
    let order = match words.any("add, at or read")? {
        b"add" => add(words)?,
        b"read" => read(words, line)?,
        b"at" => {
            let clock = clock(&mut words)?;
            words.end("the clock")?;
            let text = text(lines, at, number)?;
            Order::At { clock, text }
        }
        _ => return Err(Words::new(lines[*at], line).unlike("add, at or read")),
    };
    Ok(Step { line, order })
}

fn add(mut words: Words) -> Result<Order, Fault> {
    let address = words.any("an address behind 'add'")?.to_vec();
    words.one("start", "the address")?;
    let start = words.number(MOST_32, "start")? as u32;
    words.one("spent", "the start")?;
    let spent = words.number(MOST_32, "spent")? as u32;
    words.end("the spent count")?;
    Ok(Order::Add {
        address,
        start,
        spent,
    })
}

fn clock(words: &mut Words) -> Result<u64, Fault> {
    words.number(u64::MAX, "at")
}

fn read(mut words: Words, line: usize) -> Result<Order, Fault> {
    let address = fitting(words.any("an address behind 'read'")?, "an address", line)?;
    let package = fitting(
        words.any("a package behind the address")?,
        "a package",
        line,
    )?;
    words.one("at", "the package")?;
    let clock = clock(&mut words)?;
    words.one("default", "the clock")?;
    Ok(Order::Read {
        address,
        package,
        clock,
        default: words.remainder().to_vec(),
    })
}

fn fitting(word: &[u8], what: &str, line: usize) -> Result<Vec<u8>, Fault> {
    match word.len() {
        0..=MOST_READ => Ok(word.to_vec()),
        length => Err(Fault::new(
            line,
            format!("{} of at most 255 bytes, not of {}", what, length),
        )),
    }
}

/// The lines of a message up to a line with a single dot, on which `at` is left.
fn text(lines: &[&[u8]], at: &mut usize, number: usize) -> Result<Vec<Vec<u8>>, Fault> {
    let begun = *at + 1;
    let mut text = Vec::new();
    loop {
        *at += 1;
        match lines.get(*at).copied() {
            Some(b".") => return Ok(text),
            Some(line) => {
                check_tags(line, *at + 1, number)?;
                text.push(line.to_vec());
            }
            None => {
                let expected = "a line with a single dot behind the message of line";
                return Err(Fault::new(*at + 1, format!("{} {}", expected, begun)));
            }
        }
    }
}

#[cfg(test)]
#[path = "parse_tests.rs"]
mod tests;
