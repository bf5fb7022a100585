//! The paper's eleven lines through the wrapper, on several tables at the same time.
use std::thread;
use windgusset::{Outcome, Record, Table, ANSWER_BYTES, STORE_BYTES};

// A request for an address: package, tag presented and time asked for, with a one-byte body where no tag is presented.
fn request(address: &str, package: &str, tag: &str, expires: Option<u32>) -> Vec<u8> {
    let mut lines = format!("Event: {package}\r\n");
    if let Some(seconds) = expires {
        lines += &format!("Expires: {seconds}\r\n");
    }
    lines += &match tag {
        "" => "Content-Type: application/pidf+xml\r\n\r\nx".to_string(),
        tag => format!("SIP-If-Match: {tag}\r\n\r\n"),
    };
    format!("PUBLISH {address} SIP/2.0\r\nVia: v\r\nFrom: f\r\nTo: t\r\nCall-ID: 1\r\nCSeq: 1 PUBLISH\r\n{lines}").into_bytes()
}

// A line of the listing: status, tag or -, and seconds or -.
fn listed(outcome: Outcome) -> String {
    match outcome {
        Outcome::Granted { tag, seconds } => format!("200 {tag:08x} {seconds}"),
        Outcome::Refused {
            status,
            seconds: Some(seconds),
        } => format!("{status} - {seconds}"),
        Outcome::Refused { status, seconds: None } => format!("{status} - -"),
    }
}

fn eleven() {
    let mut records = [Record::EMPTY; 16];
    let mut store = [0; 16 * STORE_BYTES];
    let mut table = Table::open(&mut records, &mut store).unwrap();
    table.add(b"ann", 0, 0).unwrap();
    table.add(b"bo", 1, 0).unwrap();
    let lines = [
        (100, request("ann", "presence", "", Some(3600)), "200 9e3779b9 3600"),
        (110, request("ann", "message-summary", "9e3779b9", None), "412 - -"),
        (120, request("bo", "presence", "", None), "200 9e3779ba 3600"),
        (130, request("ann", "presence", "9e3779b9", Some(30)), "423 - 60"),
        (3699, request("ann", "presence", "9e3779b9", Some(60)), "200 3c6ef372 60"),
        (3700, request("ann", "presence", "9e3779b9", None), "412 - -"),
        (3759, request("ann", "presence", "3c6ef372", None), "412 - -"),
        (3698, request("ann", "presence", "", None), "500 - -"),
        (3759, request("ann", "presence", "", Some(0)), "200 daa66d2b 0"),
    ];
    for (clock, bytes, expected) in lines {
        let mut buffer = [0; ANSWER_BYTES];
        assert_eq!(listed(table.handle(clock, 1, &bytes, &mut buffer).unwrap().outcome), expected);
    }
}

#[test]
fn the_papers_lines() {
    eleven();
}

#[test]
fn on_four_tables_at_the_same_time() {
    let four: Vec<_> = (0..4).map(|_| thread::spawn(|| (0..50).for_each(|_| eleven()))).collect();
    for one in four {
        one.join().unwrap();
    }
}
