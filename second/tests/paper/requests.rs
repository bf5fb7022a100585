//! The generated requests: settled by their seed, and reaching every outcome
//! of the reads listing.

use second::generate::requests::print_requests;
use second::names::Name;
use second::read_counts::{outcomes, print_read_counts, read_counts, SAID};
use second::reads::{print_reads, reading_of, request_bytes, Reading, Said};
use std::collections::HashSet;

fn requests(seed: u64, lines: u64) -> Vec<u8> {
    let mut printed = Vec::new();
    print_requests(seed, lines, &mut printed).unwrap();
    printed
}

/// The requests of the lines that are not bad.
fn good_lines(seed: u64, lines: u64) -> Vec<Vec<u8>> {
    requests(seed, lines)
        .split(|&byte| byte == b'\n')
        .filter_map(request_bytes)
        .collect()
}

#[test]
fn a_seed_settles_the_lines() {
    assert_eq!(requests(1, 400), requests(1, 400));
    assert_ne!(requests(1, 400), requests(2, 400));
    assert!(requests(1, 400).starts_with(&requests(1, 250)));
    assert!(requests(1, 0).is_empty());
    let newlines = requests(5, 1000);
    assert_eq!(newlines.iter().filter(|&&byte| byte == b'\n').count(), 1000);
}

#[test]
fn every_outcome_is_reached() {
    for seed in 1..=6 {
        for (name, count) in read_counts(seed, 2000) {
            assert!(count >= 8, "seed {}: {} {}", seed, name, count);
        }
    }
}

#[test]
fn about_half_are_good_and_few_are_bad() {
    for seed in 1..=6 {
        let counts = read_counts(seed, 1000);
        let count = |wanted: &str| counts.iter().find(|(name, _)| name == wanted).unwrap().1;
        assert!(count("bad") <= 20);
        assert!((500..800).contains(&count("length-number")));
        assert!((500..800).contains(&count("cseq-1")));
    }
}

#[test]
fn each_line_is_bad_or_unreadable_or_has_one_outcome_of_each_field() {
    let counts = read_counts(9, 1000);
    let sum = |names: &[&str]| -> u64 {
        let those = counts.iter().filter(|(name, _)| names.contains(&&name[..]));
        those.map(|(_, count)| count).sum()
    };
    let all: u64 = counts.iter().map(|(_, count)| count).sum();
    let readable = sum(&SAID[..2]);
    assert_eq!(all - sum(&SAID), 1000 - readable);
    for field in [&SAID[2..4], &SAID[4..6], &SAID[6..9], &SAID[9..]] {
        assert_eq!(sum(field), readable);
    }
}

#[test]
fn counts_are_a_name_and_a_number_a_line() {
    let mut printed = Vec::new();
    print_read_counts(1, 50, &mut printed).unwrap();
    let printed = String::from_utf8(printed).unwrap();
    let names: HashSet<&str> = printed
        .lines()
        .filter_map(|line| line.split(' ').next())
        .collect();
    assert_eq!(names.len(), outcomes().len());
    for line in printed.lines() {
        let words: Vec<&str> = line.split(' ').collect();
        assert!(
            words.len() == 2 && words[1].parse::<u64>().is_ok(),
            "{}",
            line
        );
    }
}

/// What is to be seen among the readable requests, and whether it is here.
fn sights(said: &Said) -> [(bool, &'static str); 13] {
    let request = &said.request;
    let value = |name| request.value(name).unwrap_or(b"");
    let named = |name: &[u8]| request.lines.iter().any(|line| line.name == name);
    let body = said.body.unwrap_or(request.rest);
    [
        (request.lines.len() == 64, "64 lines"),
        (named(b"v"), "compact"),
        (named(b"CSEQ"), "capitals"),
        (request.method == b"ACK", "ack"),
        (request.uri.len() > 1000, "long uri"),
        (value(Name::Event).starts_with(b"dialog"), "dialog"),
        (value(Name::Event).starts_with(b"message"), "summary"),
        (value(Name::To).starts_with(b"\""), "quoted to"),
        (value(Name::ContentLength).starts_with(b"00"), "zeros"),
        (body.len() == 512, "512 bytes"),
        (body.len() < request.rest.len(), "dropped bytes"),
        (request.is_repeated(Name::Event), "event twice"),
        (request.is_repeated(Name::SipIfMatch), "match twice"),
    ]
}

#[test]
fn the_requests_are_of_every_kind() {
    let mut seen = HashSet::new();
    for bytes in good_lines(1, 2000) {
        if bytes.len() == 4096 {
            seen.insert("longest");
        }
        if let Reading::Said(said) = reading_of(Some(&bytes)) {
            let here = sights(&said).into_iter().filter(|(is_here, _)| *is_here);
            seen.extend(here.map(|(_, name)| name));
        }
    }
    assert_eq!(seen.len(), 14, "{:?}", seen);
}

#[test]
fn the_counts_are_those_of_the_listing() {
    let mut printed = Vec::new();
    print_reads(&mut &requests(7, 600)[..], &mut printed).unwrap();
    let printed = String::from_utf8(printed).unwrap();
    assert_eq!(printed.lines().count(), 600);
    for (name, count) in read_counts(7, 600) {
        if ["bad", "tagged", "untagged"].contains(&&name[..]) {
            let said = printed
                .lines()
                .filter(|line| line.split(' ').any(|word| word == name));
            assert_eq!(said.count() as u64, count, "{}", name);
        }
    }
}
