//! How often a run of generated requests reached each outcome of the reads
//! listing. A readable request reaches one outcome of each of five fields.

use std::io::{self, Write};

use crate::counts::{unreadable_row, REACHABLE};
use crate::generate::requests::Requests;
use crate::reads::{reading_of, request_bytes, Reading, Said};
use crate::unreadable::Unreadable;

/// The outcomes of a readable request.
pub const SAID: [&str; 12] = [
    "tagged",
    "untagged",
    "cseq-1",
    "cseq-0",
    "length-number",
    "length-dash",
    "expires-absent",
    "expires-number",
    "expires-dash",
    "match-absent",
    "match-token",
    "match-unfit",
];

/// All outcomes: a bad line, an unreadable request by its reason, and `SAID`.
pub fn outcomes() -> Vec<String> {
    let mut names = vec!["bad".to_string()];
    let reasons = REACHABLE.iter().filter(|row| row.starts_with("none-6-"));
    names.extend(
        reasons
            .filter(|&&row| row != unreadable_row(&Unreadable::Ack))
            .map(|row| unreadable_outcome(row)),
    );
    names.extend(SAID.iter().map(|name| name.to_string()));
    names
}

fn unreadable_outcome(row: &str) -> String {
    row.replacen("none-6", "unreadable", 1)
}

pub fn reached(reading: &Reading) -> Vec<String> {
    match reading {
        Reading::Bad => vec!["bad".to_string()],
        Reading::Unreadable(why) => vec![unreadable_outcome(unreadable_row(why))],
        Reading::Said(said) => said_outcomes(said).map(str::to_string).to_vec(),
    }
}

fn said_outcomes(said: &Said) -> [&'static str; 5] {
    [
        match said.request.to_has_tag {
            true => "tagged",
            false => "untagged",
        },
        match said.cseq {
            Ok(()) => "cseq-1",
            Err(_) => "cseq-0",
        },
        match said.body {
            Ok(_) => "length-number",
            Err(_) => "length-dash",
        },
        match said.expires {
            Ok(None) => "expires-absent",
            Ok(Some(_)) => "expires-number",
            Err(_) => "expires-dash",
        },
        match said.presented {
            Ok(None) => "match-absent",
            Ok(Some(_)) => "match-token",
            Err(_) => "match-unfit",
        },
    ]
}

/// The outcomes that the generated lines reach, in the order of `outcomes`.
pub fn read_counts(seed: u64, lines: u64) -> Vec<(String, u64)> {
    let mut counts: Vec<_> = outcomes().into_iter().map(|name| (name, 0)).collect();
    let mut requests = Requests::new(seed);
    for _ in 0..lines {
        let bytes = request_bytes(&requests.next_line());
        let names = reached(&reading_of(bytes.as_deref()));
        for (name, count) in counts.iter_mut() {
            *count += u64::from(names.contains(name));
        }
    }
    counts
}

pub fn print_read_counts<W: Write>(seed: u64, lines: u64, output: &mut W) -> io::Result<()> {
    for (name, count) in read_counts(seed, lines) {
        writeln!(output, "{} {}", name, count)?;
    }
    Ok(())
}
