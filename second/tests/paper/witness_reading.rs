//! The witness's own frame: what is printed where state is read, by hand from
//! the paper.

use crate::table::{request, COPIED, PIDF};
use second::listing::print_listing;
use second::witness::print_witness;

/// ann with start 0 in record 0, bo with start 1 in record 1.
const ADDED: [&str; 2] = ["000000000000000000616e6e", "000000000100000000626f"];

fn hex_of(bytes: &[u8]) -> String {
    bytes.iter().map(|byte| format!("{:02x}", byte)).collect()
}

fn publish(address: &str, clock: u64, lines: &str, body: &str) -> String {
    let head = format!("PUBLISH {} SIP/2.0\n{}{}\n", address, COPIED, lines);
    let request = request(&head, body.as_bytes());
    format!("01{:016x}{}", clock, hex_of(&request))
}

/// A presence publication that asks for that time, with that tag if any.
fn presence(address: &str, clock: u64, expires: u32, tag: &str, body: &str) -> String {
    let matched = match tag {
        "" => String::new(),
        tag => format!("SIP-If-Match: {}\n", tag),
    };
    let lines = format!("Event: presence\nExpires: {}\n{}{}", expires, matched, PIDF);
    publish(address, clock, &lines, body)
}

fn read(clock: u64, address: &str, package: &str, default: &str) -> String {
    let mut frame = vec![address.len() as u8];
    frame.extend_from_slice(address.as_bytes());
    frame.push(package.len() as u8);
    frame.extend_from_slice(package.as_bytes());
    frame.extend_from_slice(default.as_bytes());
    format!("02{:016x}{}", clock, hex_of(&frame))
}

fn input(lines: &[String]) -> String {
    let added = ADDED.iter().map(|line| line.to_string());
    let all: Vec<String> = added.chain(lines.iter().cloned()).collect();
    all.join("\n")
}

fn witness(lines: &[String]) -> String {
    let mut printed = Vec::new();
    print_witness(&mut input(lines).as_bytes(), &mut printed).unwrap();
    String::from_utf8(printed).unwrap()
}

/// What is said of each input line past its number, and what is shown.
fn said(lines: &[String]) -> Vec<String> {
    let mut said: Vec<String> = Vec::new();
    for line in witness(lines).lines().skip(1) {
        match (line.strip_prefix("  shown "), said.last_mut()) {
            (Some(shown), Some(last)) => *last = format!("{}, {}", last, shown),
            _ if line.starts_with("  ") => {}
            _ => said.push(line.split_once(' ').unwrap().1.to_string()),
        }
    }
    said.split_off(ADDED.len())
}

/// Input lines, each with what is said of it.
fn assert_said(pairs: &[(String, &str)]) {
    let lines: Vec<String> = pairs.iter().map(|(line, _)| line.clone()).collect();
    let expected: Vec<&str> = pairs.iter().map(|&(_, said)| said).collect();
    assert_eq!(said(&lines), expected);
}

#[test]
fn a_body_is_shown_by_place_and_length_and_the_usual_lines_follow() {
    let lines = [
        presence("ann", 100, 60, "", "first"),
        read(159, "ann", "presence", "none"),
    ];
    let printed = witness(&lines);
    let expected = "
4 read 0
  shown store 0 5
  answer -
  past 7c6fb608
  record 0 616e6e 00000000 1 100 01
  slot 0 0 0 9e3779b9 160 5 1
  part 0 a80aa3ab
  record 1 626f 00000001 0 0 00
  part 1 76efddc5
";
    assert!(printed.ends_with(expected), "{}", printed);
}

#[test]
fn a_reading_at_the_end_frees_nothing() {
    let lines = [
        presence("ann", 100, 60, "", "first"),
        read(160, "ann", "presence", "none"),
    ];
    let printed = witness(&lines);
    let expected = "
4 read 0
  shown default 4
  answer -
  past 7c6fb608
  record 0 616e6e 00000000 1 100 01
  slot 0 0 0 9e3779b9 160 5 1
  part 0 a80aa3ab
  record 1 626f 00000001 0 0 00
  part 1 76efddc5
";
    assert!(printed.ends_with(expected), "{}", printed);
}

#[test]
fn a_publication_is_shown_while_the_clock_is_below_its_end() {
    assert_said(&[
        (presence("ann", 100, 60, "", "first"), "200 9e3779b9 60"),
        (read(100, "ann", "presence", "none"), "read 0, store 0 5"),
        (read(159, "ann", "presence", "none"), "read 0, store 0 5"),
        (read(160, "ann", "presence", "none"), "read 0, default 4"),
        (read(161, "ann", "presence", "none"), "read 0, default 4"),
        (
            read(1_000_000_000_000, "ann", "presence", "none"),
            "read 0, default 4",
        ),
    ]);
}

#[test]
fn the_highest_body_number_is_shown() {
    assert_said(&[
        (presence("ann", 100, 900, "", "first"), "200 9e3779b9 900"),
        (presence("ann", 100, 60, "", "second"), "200 3c6ef372 60"),
        (read(100, "ann", "presence", ""), "read 0, store 512 6"),
        (read(159, "ann", "presence", ""), "read 0, store 512 6"),
        // The newest has run out.
        (read(160, "ann", "presence", ""), "read 0, store 0 5"),
        // Modified: the newest body is in the lower slot.
        (
            presence("ann", 101, 900, "9e3779b9", "the third"),
            "200 daa66d2b 900",
        ),
        (read(101, "ann", "presence", ""), "read 0, store 0 9"),
        // Refreshed without a body: its body is no newer.
        (
            presence("ann", 102, 900, "3c6ef372", ""),
            "200 78dde6e4 900",
        ),
        (read(102, "ann", "presence", ""), "read 0, store 0 9"),
    ]);
}

#[test]
fn the_place_counts_from_the_begin_of_the_store() {
    let dialog = "Event: dialog\nContent-Type: application/dialog-info+xml\n";
    let full = "b".repeat(512);
    assert_said(&[
        (presence("bo", 7, 900, "", &full), "200 9e3779ba 900"),
        (publish("bo", 7, dialog, "dd"), "200 3c6ef373 600"),
        (presence("bo", 7, 900, "", "x"), "200 daa66d2c 900"),
        (read(7, "bo", "dialog", "none"), "read 0, store 4608 2"),
        (read(7, "bo", "presence", "none"), "read 0, store 5120 1"),
        (presence("bo", 8, 0, "daa66d2c", ""), "200 78dde6e5 0"),
        (read(8, "bo", "presence", "none"), "read 0, store 4096 512"),
    ]);
}

#[test]
fn with_none_live_the_whole_default_body() {
    assert_said(&[
        (presence("ann", 100, 900, "", "first"), "200 9e3779b9 900"),
        (read(100, "ann", "dialog", "none"), "read 0, default 4"),
        (read(100, "ann", "message-summary", ""), "read 0, default 0"),
        (
            read(0, "bo", "presence", &"d".repeat(600)),
            "read 0, default 600",
        ),
    ]);
}

#[test]
fn a_refusal_shows_the_empty_front() {
    let over = 1_000_000_000_001;
    assert_said(&[
        (presence("ann", 100, 900, "", "first"), "200 9e3779b9 900"),
        (read(over, "ann", "presence", "none"), "read 4, front"),
        (read(u64::MAX, "ann", "presence", ""), "read 4, front"),
        (read(100, "cy", "presence", "none"), "read 10, front"),
        (read(100, "Ann", "presence", "none"), "read 10, front"),
        (read(100, "ann\0", "presence", "none"), "read 10, front"),
        (read(100, "", "presence", "none"), "read 10, front"),
        (read(100, "ann", "Presence", "none"), "read 10, front"),
        (read(100, "ann", "presence;id=1", "none"), "read 10, front"),
        (read(100, "ann", "presence ", "none"), "read 10, front"),
        (read(100, "ann", "", "none"), "read 10, front"),
        (read(99, "ann", "presence", "none"), "read 11, front"),
        (read(99, "ann", "dialog", ""), "read 11, front"),
        (read(99, "bo", "presence", "none"), "read 0, default 4"),
    ]);
}

#[test]
fn the_first_refusal_that_applies_is_given() {
    let over = 1_000_000_000_001;
    assert_said(&[
        (presence("ann", 100, 900, "", "first"), "200 9e3779b9 900"),
        (read(over, "cy", "Presence", "none"), "read 4, front"),
        (read(99, "cy", "presence", "none"), "read 10, front"),
        (read(99, "ann", "Presence", "none"), "read 10, front"),
    ]);
}

/// A frame with clock 0 and these bytes after it.
fn frame(rest: &str) -> String {
    format!("020000000000000000{}", rest)
}

#[test]
fn frames_that_are_not_whole_are_bad() {
    let bad = [
        "02".to_string(),
        "0200000000000000".to_string(),
        frame(""),
        frame("00"),
        frame("03616e"),
        frame("ff616e6e"),
        frame("03616e6e"),
        frame("03616e6e0264"),
        frame("03616e6eff6469616c6f67"),
    ];
    for line in bad {
        let printed = witness(&[line]);
        let expected = "
3 bad
  answer -
  past 7c6fb608
  record 0 616e6e 00000000 0 0 00
  part 0 76efddc5
  record 1 626f 00000001 0 0 00
  part 1 76efddc5
";
        assert!(printed.ends_with(expected), "{}", printed);
    }
}

#[test]
fn frames_that_are_just_whole() {
    assert_said(&[
        (frame("03616e6e066469616c6f67"), "read 0, default 0"),
        (frame("0000"), "read 10, front"),
    ]);
}

#[test]
fn above_8210_digits_is_bad_here_too() {
    // 9 bytes, then 1 + 3 for the address and 1 + 6 for the package.
    let most = 4105 - 9 - 4 - 7;
    let longest = read(0, "ann", "dialog", &"d".repeat(most));
    let longer = read(0, "ann", "dialog", &"d".repeat(most + 1));
    assert_said(&[(longest, "read 0, default 4085"), (longer, "bad")]);
}

#[test]
fn the_listing_says_bad_to_it() {
    let lines = [
        presence("ann", 100, 900, "", "first"),
        read(100, "ann", "presence", "none"),
        read(100, "cy", "presence", "none"),
        frame(""),
    ];
    let mut printed = Vec::new();
    print_listing(&mut input(&lines).as_bytes(), &mut printed).unwrap();
    let expected = "publish bench
1 add 0
2 add 0
3 200 9e3779b9 900
4 bad
5 bad
6 bad
";
    assert_eq!(String::from_utf8(printed).unwrap(), expected);
}
