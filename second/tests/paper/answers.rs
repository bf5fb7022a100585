//! The messages, byte by byte.

use crate::table::*;

/// The message to a PUBLISH for ann, with LF for CR LF.
fn message(table: &mut Table, clock: u64, head: &str, body: &str) -> String {
    table.whole(clock, head, body.as_bytes());
    let end = table
        .bench
        .buffer
        .windows(4)
        .position(|four| four == b"\r\n\r\n")
        .expect("an empty line");
    let text = String::from_utf8_lossy(&table.bench.buffer[..end + 4]).into_owned();
    text.replace("\r\n", "\n")
}

fn answer(lines: &str, body: &str) -> String {
    let head = format!("PUBLISH ann SIP/2.0\n{}{}\n", COPIED, lines);
    message(&mut Table::new(), 5, &head, body)
}

fn expected(status: &str, field: &str) -> String {
    let copied = COPIED.replace("To: <ann>", "To: <ann>;tag=00000001");
    format!(
        "SIP/2.0 {}\n{}{}Content-Length: 0\n\n",
        status, copied, field
    )
}

#[test]
fn success() {
    let lines = format!("Event: presence\n{}", PIDF);
    let fields = "SIP-ETag: 9e3779b9\nExpires: 3600\n";
    assert_eq!(answer(&lines, "x"), expected("200 OK", fields));
}

#[test]
fn refusals_with_a_field() {
    let events = "Allow-Events: presence, message-summary, dialog\n";
    assert_eq!(answer("", ""), expected("489 Bad Event", events));
    let brief = answer("Event: message-summary\nExpires: 1\n", "");
    assert_eq!(
        brief,
        expected("423 Interval Too Brief", "Min-Expires: 300\n")
    );
    let media = answer("Event: dialog\n", "x");
    let accept = "Accept: application/dialog-info+xml\n";
    assert_eq!(media, expected("415 Unsupported Media Type", accept));
}

#[test]
fn refusals_without_one() {
    assert_eq!(
        answer("Event: presence\n", ""),
        expected("400 Bad Request", "")
    );
    let failed = answer("Event: presence\nSIP-If-Match: x\n", "");
    assert_eq!(failed, expected("412 Conditional Request Failed", ""));
    let large = answer("Event: presence\n", &"x".repeat(513));
    assert_eq!(large, expected("413 Request Entity Too Large", ""));
    let head = format!("PUBLISH cy SIP/2.0\n{}\n", COPIED);
    let unknown = message(&mut Table::new(), 5, &head, "");
    assert_eq!(unknown, expected("404 Not Found", ""));
}

#[test]
fn another_method() {
    let head = format!("OPTIONS ann SIP/2.0\n{}\n", COPIED);
    let answer = message(&mut Table::new(), 5, &head, "");
    assert_eq!(
        answer,
        expected("405 Method Not Allowed", "Allow: PUBLISH\n")
    );
}

#[test]
fn a_clock_behind_and_a_full_address() {
    let mut table = Table::new();
    for _ in 0..8 {
        table.initial(100, 900);
    }
    let lines = format!("Event: presence\n{}", PIDF);
    let head = format!("PUBLISH ann SIP/2.0\n{}{}\n", COPIED, lines);
    let full = message(&mut table, 101, &head, "x");
    assert_eq!(
        full,
        expected("503 Service Unavailable", "Retry-After: 899\n")
    );
    let behind = message(&mut table, 99, &head, "x");
    assert_eq!(behind, expected("500 Server Internal Error", ""));
}

#[test]
fn lines_are_copied_as_they_came_and_in_the_papers_order() {
    let head = "OPTIONS ann sip/2.0
cseq\t:  1   x
T \t:\"a\" <b> \t
v:1
X: y
i: \t
VIA :
from:f \t
Via: 3

";
    let answer = message(&mut Table::new(), 5, head, "");
    let copied = "SIP/2.0 405 Method Not Allowed
v:1
VIA :
Via: 3
from:f \t
T \t:\"a\" <b> \t;tag=00000001
i: \t
cseq\t:  1   x
Allow: PUBLISH
Content-Length: 0

";
    assert_eq!(answer, copied);
}

#[test]
fn a_to_with_a_tag_is_left_alone() {
    let head = format!("OPTIONS ann SIP/2.0\n{}\n", COPIED);
    let head = head.replace("To: <ann>", "t: <ann>; TAG =");
    let answer = message(&mut Table::new(), 5, &head, "");
    assert!(answer.contains("\nt: <ann>; TAG =\n"), "{}", answer);
}

#[test]
fn the_longest_request_is_answered() {
    let head = format!("PUBLISH nobody SIP/2.0\n{}\n", COPIED);
    let room = 4096 - request(&head, b"").len();
    let via = format!("Via: {}SIP/2.0/UDP pua\n", "v".repeat(room));
    let head = head.replace("Via: SIP/2.0/UDP pua\n", &via);
    assert_eq!(request(&head, b"").len(), 4096);
    let answer = message(&mut Table::new(), 5, &head, "");
    assert!(answer.contains(&via));
}

#[test]
fn the_length_is_that_of_the_message() {
    let mut table = Table::new();
    let lines = format!("PUBLISH ann SIP/2.0\n{}\n", COPIED);
    let text = message(&mut table, 5, &lines, "");
    let length = text.replace('\n', "\r\n").len();
    assert_eq!(table.bench.buffer[length - 1], b'\n');
    assert_eq!(usize::from(table.bench.buffer[length]), length % 251);
}
