//! The eleven lines of the paper.

use second::frames_out::{add_frame, frame_line, request_frame};
use second::listing::print_listing;
use second::witness::print_witness;

const HEX: &str = include_str!("../../data/eleven.hex");
const LISTING: &str = include_str!("../../data/eleven.listing");

struct Ask {
    clock: u64,
    address: &'static str,
    event: &'static str,
    tag: Option<&'static str>,
    expires: Option<u32>,
    has_body: bool,
}

const ANN: Ask = Ask {
    clock: 0,
    address: "ann",
    event: "presence",
    tag: None,
    expires: None,
    has_body: false,
};

#[rustfmt::skip]
const REQUESTS_3_TO_11: [Ask; 9] = [
    Ask { clock: 100, expires: Some(3600), has_body: true, ..ANN },
    Ask { clock: 110, event: "message-summary", tag: Some("9e3779b9"), ..ANN },
    Ask { clock: 120, address: "bo", has_body: true, ..ANN },
    Ask { clock: 130, tag: Some("9e3779b9"), expires: Some(30), ..ANN },
    Ask { clock: 3699, tag: Some("9e3779b9"), expires: Some(60), ..ANN },
    Ask { clock: 3700, tag: Some("9e3779b9"), ..ANN },
    Ask { clock: 3759, tag: Some("3c6ef372"), ..ANN },
    Ask { clock: 3698, has_body: true, ..ANN },
    Ask { clock: 3759, expires: Some(0), has_body: true, ..ANN },
];

fn text_of(ask: &Ask) -> String {
    let mut lines = vec![
        format!("PUBLISH {} SIP/2.0", ask.address),
        "Via: SIP/2.0/UDP pua".to_string(),
        format!("From: <{}>;tag=1", ask.address),
        format!("To: <{}>", ask.address),
        "Call-ID: 1".to_string(),
        "CSeq: 1 PUBLISH".to_string(),
        format!("Event: {}", ask.event),
    ];
    lines.extend(ask.tag.map(|tag| format!("SIP-If-Match: {}", tag)));
    lines.extend(ask.expires.map(|time| format!("Expires: {}", time)));
    if ask.has_body {
        lines.push("Content-Type: application/pidf+xml".to_string());
        lines.push("Content-Length: 1".to_string());
    }
    let body = if ask.has_body { "x" } else { "" };
    format!("{}\r\n\r\n{}", lines.join("\r\n"), body)
}

fn frames() -> Vec<Vec<u8>> {
    let mut frames = vec![add_frame(0, 0, b"ann"), add_frame(1, 0, b"bo")];
    for ask in &REQUESTS_3_TO_11 {
        frames.push(request_frame(ask.clock, text_of(ask).as_bytes()));
    }
    frames
}

#[test]
fn the_file_has_the_frames_of_the_papers_input() {
    let mut built = Vec::new();
    for frame in frames() {
        built.extend(frame_line(&frame));
        built.push(b'\n');
    }
    assert_eq!(String::from_utf8(built).unwrap(), HEX);
}

#[test]
fn the_listing_is_the_papers() {
    let mut printed = Vec::new();
    print_listing(&mut HEX.as_bytes(), &mut printed).unwrap();
    assert_eq!(String::from_utf8(printed).unwrap(), LISTING);
}

#[test]
fn the_witness_has_the_listing_in_it() {
    let mut printed = Vec::new();
    print_witness(&mut HEX.as_bytes(), &mut printed).unwrap();
    let printed = String::from_utf8(printed).unwrap();
    let listing: String = printed
        .lines()
        .filter(|line| !line.starts_with("  "))
        .map(|line| format!("{}\n", line))
        .collect();
    assert_eq!(listing, LISTING);
}

#[test]
fn the_witness_of_the_first_three_lines() {
    let first_three: String = HEX
        .lines()
        .take(3)
        .map(|line| format!("{}\n", line))
        .collect();
    let mut printed = Vec::new();
    print_witness(&mut first_three.as_bytes(), &mut printed).unwrap();
    let printed = String::from_utf8(printed).unwrap();
    let lines: Vec<&str> = printed.lines().collect();
    assert_eq!(
        lines[0..4],
        ["publish bench", "1 add 0", "  answer -", "  past 7c6fb608"]
    );
    assert_eq!(lines[4], "  record 0 616e6e 00000000 0 0 00");
    assert_eq!(lines[13], "3 200 9e3779b9 3600");
    assert!(lines[14].starts_with("  answer 5349502f322e3020323030204f4b0d0a566961"));
    assert_eq!(lines[16], "  record 0 616e6e 00000000 1 100 01");
    assert_eq!(lines[17], "  slot 0 0 0 9e3779b9 3700 1 1");
    assert_eq!(lines[19], "  record 1 626f 00000001 0 0 00");
    assert_eq!(lines.len(), 21);
}
