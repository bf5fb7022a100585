//! The witness listing: after each line of the bench listing, or what was shown
//! of the state, the message, the buffer past it, and every record in use with
//! its slots and store.

use std::io::{BufRead, Write};

use crate::bench::Bench;
use crate::listing::{digits_of, listed, print_with, Trouble};
use crate::read_state::{NotShown, Shown};
use crate::reading_in::Reading;
use crate::record::{Record, Slot};
use crate::results::DONE;
use crate::table::part;
use crate::text::{hex, hex_or_dash};
use crate::turn::{take_turn, Turn};

pub fn print_witness<R: BufRead, W: Write>(input: &mut R, output: &mut W) -> Result<(), Trouble> {
    print_with(input, output, |bench, line| {
        let turn = take_turn(bench, line);
        turn_lines(&turn) + &witness_lines(bench, turn.message_length())
    })
}

/// What is said of one input line, after its number.
fn turn_lines(turn: &Turn) -> String {
    match turn {
        Turn::Bench(outcome) => format!("{}\n", listed(outcome)),
        Turn::Read(reading, read) => read_lines(reading, read),
        Turn::Lacking(_) => "bad\n".to_string(),
    }
}

/// The result, and what is shown.
fn read_lines(reading: &Reading, read: &Result<Shown, NotShown>) -> String {
    let (result, shown) = match read {
        Ok(Shown::Store { at, length }) => (DONE, format!("store {} {}", at, length)),
        Ok(Shown::Default) => (DONE, format!("default {}", reading.default.len())),
        Err(why) => (why.result(), "front".to_string()),
    };
    format!("read {}\n  shown {}\n", result, shown)
}

/// The message, the buffer past it, and the records in use.
fn witness_lines(bench: &Bench, message_length: usize) -> String {
    let (message, past) = bench.buffer.split_at(message_length);
    let mut text = format!("  answer {}\n", hex_or_dash(message));
    text.push_str(&format!("  past {}\n", checksum_text(past)));
    for (r, record) in bench.records.iter().enumerate() {
        if record.is_in_use() {
            text.push_str(&record_lines(r, record, part(&bench.store, r)));
        }
    }
    text
}

/// A record, its occupied slots and its part of the store.
pub fn record_lines(r: usize, record: &Record, part: &[u8]) -> String {
    let mut text = format!(
        "  record {} {} {} {} {} {}\n",
        r,
        hex(record.address()),
        digits_of(record.start),
        record.spent,
        record.latest,
        hex(&[record.map])
    );
    for (k, slot) in record.occupied() {
        text.push_str(&slot_line(r, k, slot));
    }
    text.push_str(&format!("  part {} {}\n", r, checksum_text(part)));
    text
}

fn slot_line(r: usize, k: usize, slot: &Slot) -> String {
    format!(
        "  slot {} {} {} {} {} {} {}\n",
        r,
        k,
        slot.package,
        digits_of(slot.tag),
        slot.end,
        slot.body_length,
        slot.body_number
    )
}

fn checksum_text(bytes: &[u8]) -> String {
    digits_of(checksum(bytes))
}

/// FNV-1a of 32 bits.
pub fn checksum(bytes: &[u8]) -> u32 {
    bytes.iter().fold(2166136261, |sum: u32, &byte| {
        (sum ^ u32::from(byte)).wrapping_mul(16777619)
    })
}

#[cfg(test)]
mod tests {
    use super::*;

    #[test]
    fn checksums_against_known_ones() {
        assert_eq!(checksum_text(b""), "811c9dc5");
        assert_eq!(checksum_text(b"a"), "e40c292c");
        assert_eq!(checksum_text(b"foobar"), "bf9cf968");
    }
}
