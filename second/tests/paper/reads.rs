//! The reads listing, with whole requests in readable text.

use crate::table::request;
use second::reads::print_reads;
use second::text::hex;

const COPIED: &str = "Via: v\nFrom: f\nTo: <ann>\nCall-ID: i\nCSeq: 1 PUBLISH\n";

fn listing(input: &[u8]) -> String {
    let mut printed = Vec::new();
    print_reads(&mut &input[..], &mut printed).unwrap();
    String::from_utf8(printed).unwrap()
}

/// What the listing says of one request, after its number.
fn read_whole(head: &str, body: &str) -> String {
    let line = format!("{}\n", hex(&request(head, body.as_bytes())));
    let printed = listing(line.as_bytes());
    printed.trim_end().strip_prefix("1 ").unwrap().to_string()
}

/// A readable request with these lines after the copied ones, as the words
/// that the listing has for it.
fn words(lines: &str, body: &str) -> Vec<String> {
    let head = format!("PUBLISH ann SIP/2.0\n{}{}\n", COPIED, lines);
    let said = read_whole(&head, body);
    let words: Vec<String> = said.split(' ').map(str::to_string).collect();
    assert_eq!(words.len(), 11, "{}", said);
    words
}

/// The same with another value of one copied line.
fn word_with(name: &str, value: &str, place: usize) -> String {
    let lines: String = COPIED
        .lines()
        .map(|line| match line.starts_with(&format!("{}:", name)) {
            true => format!("{}: {}\n", name, value),
            false => format!("{}\n", line),
        })
        .collect();
    let said = read_whole(&format!("PUBLISH ann SIP/2.0\n{}\n", lines), "");
    let word = said.split(' ').nth(place);
    word.unwrap_or("unreadable").to_string()
}

#[test]
fn a_request_with_everything() {
    let head = "PUBLISH ann SIP/2.0\nv: 1\nVia: 2\nf: x\nt: <ann>;tag=1\ni: 1\n\
        CSeq: 007 PUBLISH\no: presence;id=1\nc: Text/X ;y\nl: 2\n\
        Expires: 0060\nSIP-If-Match: \t ab~ \n\n";
    let expected = format!(
        "{} {} 2111111111 tagged 1 2 60 {} {} {} {}",
        hex(b"PUBLISH"),
        hex(b"ann"),
        hex(b"presence"),
        hex(b"Text/X"),
        hex(b"ab~"),
        hex(b"xy")
    );
    assert_eq!(read_whole(head, "xyz"), expected);
}

#[test]
fn a_request_with_nothing() {
    let head = "A b sip/2.0\nv:\nf:\nt:\ni:\nCSeq:\n\n";
    let expected = "41 62 1111100000 untagged 0 0 absent - - absent -";
    assert_eq!(read_whole(head, ""), expected);
}

#[test]
fn bad_lines() {
    assert_eq!(listing(b"0\n"), "1 bad\n");
    assert_eq!(listing(b"0g\n"), "1 bad\n");
    assert_eq!(listing(b"00\r\n"), "1 bad\n");
    assert_eq!(listing(b"00 00\n"), "1 bad\n");
    assert_eq!(listing("00".repeat(4096).as_bytes()), "1 unreadable\n");
    assert_eq!(listing("00".repeat(4097).as_bytes()), "1 bad\n");
    assert_eq!(listing("0".repeat(8193).as_bytes()), "1 bad\n");
    assert_eq!(listing("0".repeat(3_000_000).as_bytes()), "1 bad\n");
}

#[test]
fn lines_and_their_ends() {
    assert_eq!(listing(b""), "");
    assert_eq!(listing(b"\n"), "1 unreadable\n");
    assert_eq!(listing(b"00"), "1 unreadable\n");
    assert_eq!(
        listing(b"00\n\nx\nfF"),
        "1 unreadable\n2 unreadable\n3 bad\n4 unreadable\n"
    );
}

#[test]
fn digits_in_either_case() {
    let head = format!("PUBLISH jkl SIP/2.0\n{}\n", COPIED);
    let line = hex(&request(&head, b"\xab\xcd"));
    let small = listing(line.as_bytes());
    assert_eq!(listing(line.to_uppercase().as_bytes()), small);
    assert!(small.ends_with(" 2 absent - - absent abcd\n"));
}

#[test]
fn unreadable_requests() {
    for head in [
        "",
        "\n",
        "PUBLISH ann SIP/2.0\n",
        "PUBLISH ann SIP/2.0\n\n",
        "PUBLISH ann SIP/2.0\nv:\nf:\nt:\ni:\nCSeq: 1 PUBLISH\n",
        "PUBLISH ann SIP/2.0\nv:\nf:\nt:\ni:\nCSeq: 1 PUBLISH\nf:\n\n",
        "PUBLISH ann SIP/2.0\nv:\nf:\nt: <\ni:\nCSeq: 1 PUBLISH\n\n",
        "PUBLISH ann SIP/2.0\nv:\nf:\nt: \"\ni:\nCSeq: 1 PUBLISH\n\n",
        "PUBLISH  ann SIP/2.0\nv:\nf:\nt:\ni:\nCSeq: 1 PUBLISH\n\n",
        "PUBLISH ann SIP/2.0\n v:\nf:\nt:\ni:\nCSeq: 1 PUBLISH\n\n",
    ] {
        assert_eq!(read_whole(head, ""), "unreadable", "{:?}", head);
    }
}

#[test]
fn at_most_64_header_lines() {
    for (more, is_readable) in [(59, true), (60, false)] {
        let head = format!("A b SIP/2.0\n{}{}\n", COPIED, "x:\n".repeat(more));
        assert_eq!(read_whole(&head, "") != "unreadable", is_readable);
    }
}

#[test]
fn the_method_ack_is_read() {
    let head = format!("ACK ann SIP/2.0\n{}\n", COPIED);
    let said = read_whole(&head.replace("1 PUBLISH", "1 ACK"), "");
    let expected = "41434b 616e6e 1111100000 untagged 1 0 absent - - absent -";
    assert_eq!(said, expected);
    assert_eq!(read_whole("ACK ann SIP/2.0\n\n", ""), "unreadable");
}

#[test]
fn how_often_fields_stand() {
    assert_eq!(words("", "")[2], "1111100000");
    assert_eq!(words("v:\nvia:\n", "")[2], "2111100000");
    let all = "c:\nl: 0\no:\nExpires:\nSIP-If-Match:\n";
    assert_eq!(words(all, "")[2], "1111111111");
    let twice = all
        .replace("c:", "content-type:")
        .replace("l:", "CONTENT-LENGTH:");
    let twice = format!("{}{}", all, twice);
    assert_eq!(words(&twice, "")[2], "1111122222");
    assert_eq!(words(&format!("{}{}", twice, all), "")[2], "1111122222");
}

#[test]
fn to_values() {
    for (value, expected) in [
        ("<ann>", "untagged"),
        ("<ann>;tag=1", "tagged"),
        ("\"a;tag=1\" <ann>", "untagged"),
        ("<ann;tag=1>", "untagged"),
        ("<ann> ; TAG =", "tagged"),
        ("\"<ann>", "unreadable"),
        ("<ann", "unreadable"),
    ] {
        assert_eq!(word_with("To", value, 3), expected, "{}", value);
    }
}

#[test]
fn cseq_values() {
    for (value, expected) in [
        ("1 PUBLISH", "1"),
        ("2147483647 PUBLISH", "1"),
        ("2147483648 PUBLISH", "0"),
        ("00002147483647\t PUBLISH", "1"),
        ("1PUBLISH", "0"),
        ("1 publish", "0"),
        ("1 PUBLISH x", "0"),
        ("PUBLISH", "0"),
        ("", "0"),
    ] {
        assert_eq!(word_with("CSeq", value, 4), expected, "{}", value);
    }
}

#[test]
fn lengths_and_bodies() {
    for (lines, body, length, shown) in [
        ("", "", "0", "-"),
        ("", "ab", "2", "6162"),
        ("l: 1\n", "ab", "1", "61"),
        ("l: 0\n", "ab", "0", "-"),
        ("l: 0002\n", "ab", "2", "6162"),
        ("l: 3\n", "ab", "-", "-"),
        ("l: 18446744073709551617\n", "ab", "-", "-"),
        ("l:\n", "ab", "-", "-"),
        ("l: x\n", "ab", "-", "-"),
        ("l: 1\nContent-Length: 1\n", "ab", "-", "-"),
    ] {
        let words = words(lines, body);
        assert_eq!(
            (&words[5][..], &words[10][..]),
            (length, shown),
            "{}",
            lines
        );
    }
}

#[test]
fn expires_values() {
    for (lines, expected) in [
        ("", "absent"),
        ("Expires: 0\n", "0"),
        ("Expires: 0003600\n", "3600"),
        ("Expires: 4294967295\n", "4294967295"),
        ("Expires: 4294967296\n", "-"),
        ("Expires: 99999999999999999999\n", "-"),
        ("Expires:\n", "-"),
        ("Expires: 1 1\n", "-"),
        ("Expires: 1\nexpires: 1\n", "-"),
    ] {
        assert_eq!(words(lines, "")[6], expected, "{}", lines);
    }
}

#[test]
fn event_and_type_are_the_front_of_the_first() {
    for (value, expected) in [
        ("presence", "presence"),
        ("\tx y", "x"),
        ("x\ty", "x"),
        ("x;y", "x"),
        ("X/y+z ;", "X/y+z"),
        (";x", ""),
        ("", ""),
    ] {
        let expected = match expected {
            "" => "-".to_string(),
            text => hex(text.as_bytes()),
        };
        let lines = format!("o: {}\nEvent: 2\nc: {}\nContent-Type: 2\n", value, value);
        let words = words(&lines, "");
        assert_eq!((&words[7], &words[8]), (&expected, &expected), "{}", value);
    }
    let words = words("", "");
    assert_eq!((&words[7][..], &words[8][..]), ("-", "-"));
}

#[test]
fn match_values() {
    for (lines, expected) in [
        ("", "absent"),
        ("SIP-If-Match: Ab~\n", "41627e"),
        ("SIP-If-Match:\tx \n", "78"),
        ("SIP-If-Match:\n", "unfit"),
        ("SIP-If-Match: a b\n", "unfit"),
        ("SIP-If-Match: a;b\n", "unfit"),
        ("SIP-If-Match: a\nSIP-If-Match: a\n", "unfit"),
    ] {
        assert_eq!(words(lines, "")[9], expected, "{}", lines);
    }
}
