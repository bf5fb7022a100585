//! Tags in capitals and in mixed case: the phone that sends them, and what the
//! generator makes of them.

use crate::table::*;
use second::bench::Bench;
use second::frames_in::{read_frame, Frame};
use second::generate::print_frames;
use second::names::Name;
use second::packages;
use second::record::Record;
use second::request::read_request;
use second::tags::{number_of, STEP};
use second::text::up_to_semicolon_or_blank;
use std::collections::HashMap;

#[test]
fn a_phone_that_sends_capitals_keeps_its_publication() {
    let mut table = Table::new();
    let mut tag = STEP;
    assert_eq!(table.initial(0, 3600), "200 9e3779b9 3600");
    for clock in (1..=60).map(|i| 3000 * i) {
        let lines = format!("EVENT: presence\nSIP-IF-MATCH: {:08X}\n", tag);
        tag = tag.wrapping_add(STEP);
        let expected = format!("200 {:08x} 3600", tag);
        assert_eq!(table.ann(clock, &lines, ""), expected);
        assert_eq!(table.record(0).live(clock).count(), 1);
    }
    let lines = format!("EVENT: presence\nSIP-IF-MATCH: {:08X}\nEXPIRES: 0\n", tag);
    let expected = format!("200 {:08x} 0", tag.wrapping_add(STEP));
    assert_eq!(table.ann(180_000, &lines, ""), expected);
    assert_eq!(table.record(0).live(180_000).count(), 0);
}

/// What a request presents: for which address and package, and at what clock.
struct Presented<'a> {
    record: &'a Record,
    package: &'a [u8],
    clock: u64,
    token: &'a [u8],
}

impl Presented<'_> {
    /// Whether a live publication has that tag, and of what package.
    fn live(&self, tag: u32) -> Option<bool> {
        let mut live = self.record.live(self.clock);
        let found = live.find(|(_, slot)| slot.tag == tag);
        found.map(|(_, slot)| packages::NAMES[slot.package].as_bytes() == self.package)
    }

    fn whose(&self, tag: u32, records: &[Record]) -> &'static str {
        let given = number_of(self.record.start, tag);
        let elsewhere = |record: &Record| record.occupied().any(|(_, slot)| slot.tag == tag);
        match self.live(tag) {
            Some(true) => "its own",
            Some(false) => "of another package",
            None if (1..=self.record.spent).contains(&given) => "stale",
            None if records.iter().any(elsewhere) => "of another address",
            None => "of nobody",
        }
    }

    /// Its own, but that 32 was added to one byte or taken off, and the byte is
    /// no letter in the other case.
    fn is_nearly_its_own(&self) -> bool {
        (0..self.token.len()).any(|place| {
            let mut text = self.token.to_vec();
            let wrong = text[place];
            !wrong.is_ascii_hexdigit()
                && [wrong.wrapping_sub(32), wrong.wrapping_add(32)]
                    .iter()
                    .any(|&right| {
                        text[place] = right;
                        let tag = number(&text);
                        tag.and_then(|tag| self.live(tag)) == Some(true)
                    })
        })
    }
}

fn number(token: &[u8]) -> Option<u32> {
    let digits = token.len() == 8 && token.iter().all(u8::is_ascii_hexdigit);
    let text = std::str::from_utf8(token).ok().filter(|_| digits)?;
    u32::from_str_radix(text, 16).ok()
}

fn spelling(token: &[u8]) -> &'static str {
    let capitals = token.iter().any(u8::is_ascii_uppercase);
    let small = token.iter().any(u8::is_ascii_lowercase);
    match (capitals, small) {
        (true, true) => "mixed",
        (true, false) => "capitals",
        _ => "small",
    }
}

type Kind = (&'static str, &'static str);

/// Counts how often each kind of tag is presented, in each spelling.
fn count_kinds(seed: u64, seen: &mut HashMap<Kind, u32>) {
    let mut printed = Vec::new();
    print_frames(seed, 2000, &mut printed).unwrap();
    let mut bench = Bench::new();
    for line in printed.split(|&byte| byte == b'\n') {
        let frame = read_frame(line);
        if let Some(kind) = kind(&frame, &bench.records) {
            *seen.entry(kind).or_insert(0) += 1;
        }
        bench.run(&frame);
    }
}

fn kind(frame: &Frame, records: &[Record]) -> Option<Kind> {
    let (clock, bytes) = match frame {
        Frame::Request { clock, request } => (*clock, request),
        _ => return None,
    };
    let request = read_request(bytes).ok()?;
    let token = request.value(Name::SipIfMatch)?;
    let presented = Presented {
        record: records.iter().find(|r| r.address() == request.uri)?,
        package: up_to_semicolon_or_blank(request.value(Name::Event)?),
        clock,
        token,
    };
    match number(token) {
        Some(tag) => Some((presented.whose(tag, records), spelling(token))),
        None if presented.is_nearly_its_own() => Some(("nearly its own", spelling(token))),
        None => None,
    }
}

#[test]
fn the_generator_spells_every_kind_of_tag_in_every_case() {
    let mut seen = HashMap::new();
    for seed in 1..=10 {
        count_kinds(seed, &mut seen);
    }
    for whose in [
        "its own",
        "of another package",
        "of another address",
        "stale",
    ] {
        for spelling in ["small", "capitals", "mixed"] {
            let count = seen.get(&(whose, spelling)).copied().unwrap_or(0);
            assert!(count >= 10, "{} {} {}", whose, spelling, count);
        }
    }
    let nearly = seen
        .iter()
        .filter(|((whose, _), _)| *whose == "nearly its own");
    assert!(nearly.map(|(_, count)| count).sum::<u32>() >= 10);
}
