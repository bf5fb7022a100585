//! Each row of the refusals by itself.

use crate::table::*;

fn each(clock: u64, cases: &[(&str, &str, &str)]) {
    for (lines, body, expected) in cases {
        let mut table = Table::new();
        assert_eq!(table.initial(100, 3600), "200 9e3779b9 3600");
        assert_eq!(table.ann(clock, lines, body), *expected, "{}", lines);
    }
}

fn with_cseq(method: &str, cseq: &str) -> String {
    let head = format!("{} ann SIP/2.0\n{}\n", method, COPIED);
    let head = head.replace("1 PUBLISH", cseq);
    let head = head.replace("\n\n", &format!("\nEvent: presence\n{}\n", PIDF));
    Table::new().whole(100, &head, b"x")
}

#[test]
fn row_405() {
    for method in ["OPTIONS", "publish", "Publish", "PUBLISHX", "ack"] {
        assert_eq!(with_cseq(method, "1 PUBLISH"), "405 - -", "{}", method);
    }
    assert_eq!(with_cseq("ACK", "1 ACK"), "none 6");
}

#[test]
fn row_400_cseq() {
    for cseq in [
        "1 PUBLISH",
        "1\t PUBLISH",
        "0 PUBLISH",
        "2147483647 PUBLISH",
        "00000000000000000001 PUBLISH",
    ] {
        assert_eq!(with_cseq("PUBLISH", cseq), "200 9e3779b9 3600", "{}", cseq);
    }
    for cseq in [
        "",
        "1",
        "PUBLISH",
        "1PUBLISH",
        "2147483648 PUBLISH",
        "-1 PUBLISH",
        "1 publish",
        "1 PUBLISH x",
        "1 OPTIONS",
        "99999999999999999999 PUBLISH",
    ] {
        assert_eq!(with_cseq("PUBLISH", cseq), "400 - -", "{}", cseq);
    }
}

#[test]
fn row_400_content_length() {
    let base = "Event: presence\nContent-Type: application/pidf+xml\n";
    for (value, body, expected) in [
        ("1", "x", "200 3c6ef372 3600"),
        ("0001", "x", "200 3c6ef372 3600"),
        ("1", "xyz", "200 3c6ef372 3600"),
        ("2", "x", "400 - -"),
        ("4294967297", "x", "400 - -"),
        ("18446744073709551617", "x", "400 - -"),
        ("", "x", "400 - -"),
        ("-1", "x", "400 - -"),
        ("1 1", "x", "400 - -"),
        ("1\nl: 1", "x", "400 - -"),
    ] {
        each(
            100,
            &[(
                &format!("{}Content-Length: {}\n", base, value),
                body,
                expected,
            )],
        );
    }
}

#[test]
fn row_400_expires() {
    for (value, expected) in [
        ("0", "200 3c6ef372 0"),
        ("4294967295", "200 3c6ef372 3600"),
        ("000000000000060", "200 3c6ef372 60"),
        ("4294967296", "400 - -"),
        ("", "400 - -"),
        ("60s", "400 - -"),
        ("60\nEXPIRES: 60", "400 - -"),
    ] {
        let lines = format!("Event: presence\nExpires: {}\n{}", value, PIDF);
        each(100, &[(&lines, "x", expected)]);
    }
}

#[test]
fn row_400_repeated_event_and_content_type() {
    each(
        100,
        &[
            (
                "Event: presence\no: presence\nSIP-If-Match: 9e3779b9\n",
                "",
                "400 - -",
            ),
            ("o: presence\no:\nSIP-If-Match: 9e3779b9\n", "", "400 - -"),
            (
                "o: presence\nc: a\nContent-type: a\nSIP-If-Match: 9e3779b9\n",
                "",
                "400 - -",
            ),
        ],
    );
}

#[test]
fn row_404() {
    let mut table = Table::new();
    for address in ["Ann", "an", "annx", "sip:ann", "~"] {
        let lines = format!("Event: presence\n{}", PIDF);
        assert_eq!(table.to(address, 100, &lines, "x"), "404 - -");
    }
}

#[test]
fn row_489() {
    each(
        100,
        &[
            ("SIP-If-Match: 9e3779b9\n", "", "489 - -"),
            ("Event:\nSIP-If-Match: 9e3779b9\n", "", "489 - -"),
            ("Event: Presence\nSIP-If-Match: 9e3779b9\n", "", "489 - -"),
            (
                "Event: presence.winfo\nSIP-If-Match: 9e3779b9\n",
                "",
                "489 - -",
            ),
            ("Event: ;presence\nSIP-If-Match: 9e3779b9\n", "", "489 - -"),
            (
                "Event: presence;id=1\nSIP-If-Match: 9e3779b9\n",
                "",
                "200 3c6ef372 3600",
            ),
            (
                "Event: presence x\nSIP-If-Match: 9e3779b9\n",
                "",
                "200 3c6ef372 3600",
            ),
        ],
    );
}

#[test]
fn row_500_clock() {
    each(
        99,
        &[("Event: presence\nSIP-If-Match: 9e3779b9\n", "", "500 - -")],
    );
    each(
        100,
        &[(
            "Event: presence\nSIP-If-Match: 9e3779b9\n",
            "",
            "200 3c6ef372 3600",
        )],
    );
}

#[test]
fn row_400_sip_if_match() {
    each(
        100,
        &[
            ("Event: presence\nSIP-If-Match:\n", "", "400 - -"),
            ("Event: presence\nSIP-If-Match: 9e3779b9 x\n", "", "400 - -"),
            (
                "Event: presence\nSIP-If-Match: \"9e3779b9\"\n",
                "",
                "400 - -",
            ),
            (
                "Event: presence\nSIP-If-Match: 9e3779b9\nsip-if-match: 9e3779b9\n",
                "",
                "400 - -",
            ),
        ],
    );
}

#[test]
fn row_412() {
    for (clock, tag, event, expected) in [
        (3699, "9e3779b9", "presence", "200 3c6ef372 3600"),
        (3700, "9e3779b9", "presence", "412 - -"),
        (3699, "9e3779b9", "dialog", "412 - -"),
        (3699, "9E3779B9", "presence", "200 3c6ef372 3600"),
        (3699, "9e3779B9", "presence", "200 3c6ef372 3600"),
        (3700, "9E3779B9", "presence", "412 - -"),
        (3699, "9E3779B9", "dialog", "412 - -"),
        (3699, "Ye3779b9", "presence", "412 - -"),
        (3699, "9e3779b`", "presence", "412 - -"),
        (3699, "9%3779b9", "presence", "412 - -"),
        (3699, "9e3779b@", "presence", "400 - -"),
        (3699, "[e3779b9", "presence", "400 - -"),
        (3699, "9e3779b", "presence", "412 - -"),
        (3699, "09e3779b9", "presence", "412 - -"),
        (3699, "3c6ef372", "presence", "412 - -"),
    ] {
        let lines = format!("Event: {}\nSIP-If-Match: {}\n", event, tag);
        each(clock, &[(&lines, "", expected)]);
    }
}

#[test]
fn row_412_for_a_tag_of_another_address() {
    let mut table = Table::new();
    table.initial(100, 3600);
    for tag in ["9e3779b9", "9E3779B9"] {
        let lines = format!("Event: presence\nSIP-If-Match: {}\n", tag);
        assert_eq!(table.to("bo", 100, &lines, ""), "412 - -");
    }
}

#[test]
fn row_423() {
    for (event, content_type, least) in [
        ("presence", "application/pidf+xml", 60),
        ("message-summary", "application/simple-message-summary", 300),
        ("dialog", "application/dialog-info+xml", 60),
    ] {
        let lines = |time: u32| {
            format!(
                "Event: {}\nExpires: {}\nContent-Type: {}\n",
                event, time, content_type
            )
        };
        let brief = format!("423 - {}", least);
        let enough = format!("200 3c6ef372 {}", least);
        each(100, &[(&lines(1), "x", &brief)]);
        each(100, &[(&lines(least - 1), "x", &brief)]);
        each(100, &[(&lines(least), "x", &enough)]);
        each(100, &[(&lines(0), "x", "200 3c6ef372 0")]);
    }
}

#[test]
fn row_413() {
    let lines = format!("Event: presence\n{}", PIDF);
    each(100, &[(&lines, &"x".repeat(512), "200 3c6ef372 3600")]);
    each(100, &[(&lines, &"x".repeat(513), "413 - -")]);
    let with_length = format!("{}Content-Length: 512\n", lines);
    each(
        100,
        &[(&with_length, &"x".repeat(513), "200 3c6ef372 3600")],
    );
}

#[test]
fn row_415() {
    for (content_type, expected) in [
        ("Content-Type: application/pidf+xml\n", "200 3c6ef372 3600"),
        (
            "c: APPLICATION/PIDF+XML;charset=UTF-8\n",
            "200 3c6ef372 3600",
        ),
        ("c: application/pidf+xml x\n", "200 3c6ef372 3600"),
        ("", "415 - -"),
        ("c:\n", "415 - -"),
        ("c: application/dialog-info+xml\n", "415 - -"),
        ("c: application/pidf+xmlx\n", "415 - -"),
        ("c: application /pidf+xml\n", "415 - -"),
    ] {
        each(
            100,
            &[(&format!("Event: presence\n{}", content_type), "x", expected)],
        );
    }
}

#[test]
fn row_400_neither_body_nor_match() {
    each(
        100,
        &[
            ("Event: presence\n", "", "400 - -"),
            ("Event: presence\nExpires: 0\n", "", "400 - -"),
            ("Event: presence\nContent-Length: 0\n", "x", "400 - -"),
        ],
    );
}

#[test]
fn row_500_spent() {
    let mut table = Table::new();
    assert_eq!(table.add("cy", 0, u32::MAX - 1), "add 0");
    let lines = format!("Event: presence\n{}", PIDF);
    let last = table.to("cy", 100, &lines, "x");
    assert_eq!(last, "200 61c88647 3600");
    assert_eq!(table.to("cy", 100, &lines, "x"), "500 - -");
    let refresh = "Event: presence\nSIP-If-Match: 61c88647\n";
    assert_eq!(table.to("cy", 100, refresh, ""), "500 - -");
    let remove = "Event: presence\nExpires: 0\nSIP-If-Match: 61c88647\n";
    assert_eq!(table.to("cy", 100, remove, ""), "500 - -");
}

/// Eight publications of all packages, with ends 1000, 1100 and so on.
fn full() -> Table {
    let mut table = Table::new();
    for k in 0..8 {
        let (event, content_type) = match k % 3 {
            0 => ("presence", "application/pidf+xml"),
            1 => ("message-summary", "application/simple-message-summary"),
            _ => ("dialog", "application/dialog-info+xml"),
        };
        let expires = 900 + 100 * k;
        let lines = format!(
            "Event: {}\nExpires: {}\nContent-Type: {}\n",
            event, expires, content_type
        );
        let answer = table.ann(100, &lines, "x");
        assert!(answer.starts_with("200"), "{}", answer);
    }
    table
}

#[test]
fn row_503() {
    let mut table = full();
    assert_eq!(table.initial(100, 3600), "503 - 900");
    assert_eq!(table.initial(999, 3600), "503 - 1");
    assert_eq!(
        table.to("bo", 100, &format!("Event: presence\n{}", PIDF), "x"),
        "200 9e3779ba 3600"
    );
}

#[test]
fn row_503_is_not_given_while_a_run_out_slot_stands() {
    let mut table = full();
    assert!(table.initial(1000, 3600).starts_with("200"));
    assert_eq!(table.record(0).map, 255);
    assert_eq!(table.record(0).slots[0].end, 4600);
    assert_eq!(table.initial(1000, 3600), "503 - 100");
}

#[test]
fn row_503_is_not_given_where_no_room_is_needed() {
    let mut table = full();
    assert!(table.initial(100, 0).starts_with("200"));
    let lines = "Event: presence\nSIP-If-Match: 9e3779b9\n";
    assert!(table.ann(100, lines, "").starts_with("200"));
}

#[test]
fn none_4_for_a_clock_above_its_limit() {
    let mut table = Table::new();
    assert_eq!(table.initial(1_000_000_000_001, 60), "none 4");
    assert_eq!(table.initial(u64::MAX, 60), "none 4");
    assert_eq!(table.initial(1_000_000_000_000, 60), "200 9e3779b9 60");
    assert_eq!(table.record(0).slots[0].end, 1_000_000_000_060);
}
