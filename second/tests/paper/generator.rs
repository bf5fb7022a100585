//! The generated frames: settled by their seed, and reaching every row and
//! every kind of reading.

use second::bench::{Bench, Outcome};
use second::counts::{counts, print_counts, REACHABLE, UNREACHABLE};
use second::frames_in::{read_frame, MOST_DIGITS};
use second::generate::{print_frames, Generator};
use second::listing::{listed, print_listing};
use second::reading_kinds::KINDS;
use second::sound::all_sound;
use second::turn::Turn;
use std::collections::HashSet;

fn frames(seed: u64, lines: u64) -> Vec<u8> {
    let mut printed = Vec::new();
    print_frames(seed, lines, &mut printed).unwrap();
    printed
}

#[test]
fn a_seed_settles_the_lines() {
    assert_eq!(frames(1, 200), frames(1, 200));
    assert_ne!(frames(1, 200), frames(2, 200));
    assert!(frames(1, 200).starts_with(&frames(1, 100)));
    assert!(frames(1, 0).is_empty());
}

#[test]
fn every_line_is_one_line() {
    let lines = frames(4, 500);
    assert_eq!(lines.iter().filter(|&&byte| byte == b'\n').count(), 500);
}

#[test]
fn every_reachable_row_is_reached() {
    for seed in 1..=10 {
        for (name, count) in counts(seed, 2000) {
            assert!(count >= 10, "seed {}: {} {}", seed, name, count);
        }
    }
}

#[test]
fn about_a_seventh_of_the_lines_read_state() {
    for seed in 1..=3 {
        let lines = frames(seed, 2000);
        let lines: Vec<&[u8]> = lines.split(|&byte| byte == b'\n').collect();
        let readings = lines.iter().filter(|line| line.starts_with(b"02"));
        assert!((200..=320).contains(&readings.count()));
        let too_long = lines.iter().filter(|line| line.len() > MOST_DIGITS);
        assert!(too_long.count() < 40);
    }
}

#[test]
fn every_line_is_counted_in_one_row() {
    let counts = counts(9, 1000);
    let rows = counts.iter().filter(|(name, _)| REACHABLE.contains(name));
    let total: u64 = rows.map(|(_, count)| count).sum();
    assert_eq!(total, 1000);
}

fn names() -> Vec<&'static str> {
    let kinds = KINDS.iter().map(|(name, _)| name);
    let names = REACHABLE.iter().chain(kinds).chain(&UNREACHABLE);
    names.copied().collect()
}

#[test]
fn names_differ() {
    let different: HashSet<&str> = names().into_iter().collect();
    assert_eq!(different.len(), names().len());
}

#[test]
fn counts_are_a_name_and_a_number_a_line() {
    let mut printed = Vec::new();
    print_counts(1, 100, &mut printed).unwrap();
    let printed = String::from_utf8(printed).unwrap();
    for line in printed.lines() {
        let words: Vec<&str> = line.split(' ').collect();
        assert_eq!(words.len(), 2, "{}", line);
        let known = UNREACHABLE.contains(&words[0]) == (words[1] == "unreachable");
        assert!(known, "{}", line);
        assert!(words[1] == "unreachable" || words[1].parse::<u64>().is_ok());
    }
    let printed: Vec<&str> = printed.lines().collect();
    let first_words: Vec<&str> = printed
        .iter()
        .map(|line| line.split(' ').next().unwrap())
        .collect();
    assert_eq!(first_words, names());
}

#[test]
fn the_engine_alongside_says_what_the_listing_says() {
    let mut generator = Generator::new(11);
    let mut expected = "publish bench\n".to_string();
    for number in 1..=1000 {
        let (_, turn) = generator.next_line();
        let said = match turn {
            Turn::Bench(outcome) => listed(&outcome),
            _ => "bad".to_string(),
        };
        expected.push_str(&format!("{} {}\n", number, said));
    }
    let mut printed = Vec::new();
    print_listing(&mut &frames(11, 1000)[..], &mut printed).unwrap();
    assert_eq!(String::from_utf8(printed).unwrap(), expected);
}

/// The listing's words, taken from the message itself.
fn listed_from(message: &str) -> String {
    let field = |name: &str| {
        let own = message
            .lines()
            .rev()
            .take_while(|line| !line.starts_with("CSeq"));
        let mut values = own.filter_map(|line| line.strip_prefix(name));
        values.next().map(|value| value.to_string())
    };
    let time = field("Expires: ")
        .or_else(|| field("Min-Expires: "))
        .or_else(|| field("Retry-After: "));
    let tag = field("SIP-ETag: ");
    let none = || "-".to_string();
    let status = &message["SIP/2.0 ".len()..][..3];
    format!(
        "{} {} {}",
        status,
        tag.unwrap_or_else(none),
        time.unwrap_or_else(none)
    )
}

#[test]
fn the_messages_say_what_the_listing_says() {
    let mut bench = Bench::new();
    for line in frames(12, 1000).split(|&byte| byte == b'\n') {
        let outcome = bench.run(&read_frame(line));
        if let Outcome::Answered(written) = outcome {
            let bytes = &bench.buffer[..written.length];
            let message = String::from_utf8_lossy(bytes).replace("\r\n", "\n");
            assert!(message.ends_with("\nContent-Length: 0\n\n"));
            assert_eq!(listed_from(&message), listed(&outcome));
        }
    }
}

#[test]
fn the_table_stays_sound() {
    let mut bench = Bench::new();
    for line in frames(13, 1000).split(|&byte| byte == b'\n') {
        bench.run(&read_frame(line));
        assert!(all_sound(&bench.records));
    }
}
