//! The open places of the paper, each as it is read.

use crate::table::*;
use second::frames_in::{read_frame, Frame};
use second::listing::print_listing;
use second::sound::all_sound;
use second::to_tag::has_tag;

#[test]
fn an_address_ends_at_its_first_zero() {
    let mut table = Table::new();
    assert_eq!(table.record(0).address(), b"ann");
    table.bench.records[0].address[5] = b'x';
    assert!(!all_sound(&table.bench.records));
}

#[test]
fn only_the_map_says_which_slots_are_occupied() {
    let mut table = Table::new();
    table.initial(0, 3600);
    table.bench.records[0].map = 0;
    let lines = "Event: presence\nSIP-If-Match: 9e3779b9\n";
    assert_eq!(table.ann(0, lines, ""), "412 - -");
}

#[test]
fn an_end_need_not_lie_ahead_of_the_clock() {
    let mut table = Table::new();
    table.initial(100, 3600);
    table.bench.records[0].slots[0].end = 5;
    assert!(all_sound(&table.bench.records));
    assert_eq!(table.initial(100, 60), "200 3c6ef372 60");
    assert_eq!(table.record(0).map, 1);
}

#[test]
fn a_mark_that_is_neither_refuses_a_request() {
    for mark in [2, 3, 128, 255] {
        let mut table = Table::new();
        let unused = table.bench.records.len() - 1;
        table.bench.records[unused].mark = mark;
        assert_eq!(table.initial(100, 3600), "none 5");
        table.bench.records[unused].mark = 0;
        assert_eq!(table.initial(100, 3600), "200 9e3779b9 3600");
    }
}

#[test]
fn an_unsound_record_of_another_address_refuses_a_request() {
    let mut table = Table::new();
    table.bench.records[1].latest = u64::MAX;
    assert_eq!(table.initial(100, 3600), "none 5");
    assert_eq!(table.add("cy", 0, 0), "add 5");
}

#[test]
fn to_values() {
    for (value, tagged) in [
        ("<a>;x=<b", false),
        ("<a>;tag=", true),
        ("<a>;tag", false),
        ("<a>;tag;x=1", false),
        ("<a>;x=tag=1", false),
        ("\"<\" <a>;tag=1", true),
        ("\"a\\\";tag=1\" <a>", false),
    ] {
        assert_eq!(has_tag(value.as_bytes()), Ok(tagged), "{}", value);
    }
    assert!(has_tag(b"<a>;x=\"").is_err());
}

#[test]
fn leading_zeros_are_fine_and_cseq_needs_a_blank() {
    let lines = format!("Event: presence\nExpires: 00000000000000060\n{}", PIDF);
    assert_eq!(Table::new().ann(0, &lines, "x"), "200 9e3779b9 60");
    let head = format!("PUBLISH ann SIP/2.0\n{}Event: presence\n{}\n", COPIED, PIDF);
    let head = head.replace("1 PUBLISH", "1PUBLISH");
    assert_eq!(Table::new().whole(0, &head, b"x"), "400 - -");
}

#[test]
fn repeated_counts_full_and_compact_whatever_their_values() {
    let lines = format!("Event: presence\no:\n{}", PIDF);
    assert_eq!(Table::new().ann(0, &lines, "x"), "400 - -");
    let lines = format!("Event: presence\nc:\n{}", PIDF);
    assert_eq!(Table::new().ann(0, &lines, "x"), "400 - -");
    let lines = format!("Event: presence\nl: 1\nContent-Length: 1\n{}", PIDF);
    assert_eq!(Table::new().ann(0, &lines, "x"), "400 - -");
}

#[test]
fn an_empty_body_is_no_body() {
    let mut table = Table::new();
    table.initial(0, 3600);
    let lines = "Event: presence\nSIP-If-Match: 9e3779b9\nContent-Length: 0\nContent-Type: a\n";
    assert_eq!(table.ann(0, lines, "dropped"), "200 3c6ef372 3600");
    assert_eq!(table.record(0).slots[0].body_number, 1);
    let lines = "Event: presence\nSIP-If-Match: 3c6ef372\nc: a\nc: a\n";
    assert_eq!(table.ann(0, lines, ""), "400 - -");
}

#[test]
fn empty_values() {
    for (lines, expected) in [
        ("Event: presence\nSIP-If-Match: \t\n", "400 - -"),
        ("Event:\n", "489 - -"),
        ("Event: presence\nContent-Type:\n", "415 - -"),
        ("Event: presence\nContent-Length:\n", "400 - -"),
        ("Event: presence\nExpires:\n", "400 - -"),
    ] {
        assert_eq!(Table::new().ann(0, lines, "x"), expected, "{}", lines);
    }
    let head = "PUBLISH ann SIP/2.0\nVia:\nFrom:\nTo:\nCall-ID:\nCSeq:\n\n";
    assert_eq!(Table::new().whole(0, head, b""), "400 - -");
    let head = head.replace(
        "CSeq:",
        "CSeq: 1 PUBLISH\nEvent: presence\nc: application/pidf+xml",
    );
    assert_eq!(Table::new().whole(0, &head, b"x"), "200 9e3779b9 3600");
}

#[test]
fn empty_lines_before_the_first_line_are_unreadable() {
    let head = format!("\nPUBLISH ann SIP/2.0\n{}\n", COPIED);
    assert_eq!(Table::new().whole(0, &head, b""), "none 6");
}

#[test]
fn more_than_is_there_counts_the_bytes_after_the_empty_line() {
    for (length, expected) in [(3, "200 9e3779b9 3600"), (4, "400 - -")] {
        let lines = format!("Event: presence\nContent-Length: {}\n{}", length, PIDF);
        assert_eq!(Table::new().ann(0, &lines, "abc"), expected);
    }
}

#[test]
fn granted_0_tries_its_body_all_the_same() {
    let mut table = Table::new();
    table.initial(0, 3600);
    let lines = "Event: presence\nSIP-If-Match: 9e3779b9\nExpires: 0\n";
    assert_eq!(table.ann(0, lines, "x"), "415 - -");
    assert_eq!(table.ann(0, lines, &"x".repeat(513)), "413 - -");
    let lines = format!("{}{}", lines, PIDF);
    assert_eq!(table.ann(0, &lines, "x"), "200 3c6ef372 0");
    assert_eq!(table.record(0).map, 0);
}

#[test]
fn the_to_tag_stands_after_the_blanks() {
    let head = format!("OPTIONS ann SIP/2.0\n{}\n", COPIED);
    let head = head.replace("To: <ann>", "To: <ann> \t");
    let mut table = Table::new();
    table.whole(0, &head, b"");
    let text = String::from_utf8_lossy(&table.bench.buffer).into_owned();
    assert!(text.contains("To: <ann> \t;tag=00000001\r\n"));
}

#[test]
fn bench_lines() {
    let nine = "000000000000000000";
    let request = "010000000000000000";
    let input = format!(
        "{}\r\n\n{}\n{}\n{}\nxyz\n{}",
        nine,
        nine,
        request,
        &nine[2..],
        "0"
    );
    let mut printed = Vec::new();
    print_listing(&mut input.as_bytes(), &mut printed).unwrap();
    let expected = "publish bench
1 bad
2 bad
3 add 7
4 none 6
5 bad
6 bad
7 bad
";
    assert_eq!(String::from_utf8(printed).unwrap(), expected);
}

#[test]
fn an_empty_input_has_no_lines() {
    let mut printed = Vec::new();
    print_listing(&mut &b""[..], &mut printed).unwrap();
    assert_eq!(printed, b"publish bench\n");
    assert_eq!(read_frame(b""), Frame::Bad);
}
