//! "Reading state".

use crate::table::*;
use second::read_state::read_state;

const DEFAULT: &[u8] = b"default";

fn read(table: &Table, address: &str, package: &str, clock: u64) -> (u8, String) {
    let (result, shown) = read_state(
        &table.bench.records,
        &table.bench.store,
        address.as_bytes(),
        package.as_bytes(),
        clock,
        DEFAULT,
    );
    (result, String::from_utf8_lossy(shown).into_owned())
}

fn shows(text: &str) -> (u8, String) {
    (0, text.to_string())
}

fn refused(result: u8) -> (u8, String) {
    (result, String::new())
}

fn publish(table: &mut Table, clock: u64, expires: u32, tag: &str, body: &str) {
    let matched = match tag {
        "" => String::new(),
        tag => format!("SIP-If-Match: {}\n", tag),
    };
    let lines = format!("Event: presence\nExpires: {}\n{}{}", expires, matched, PIDF);
    let answer = table.ann(clock, &lines, body);
    assert!(answer.starts_with("200"), "{}", answer);
}

#[test]
fn with_none_live_the_whole_default_body() {
    let mut table = Table::new();
    assert_eq!(read(&table, "ann", "presence", 0), shows("default"));
    publish(&mut table, 100, 60, "", "first");
    assert_eq!(read(&table, "ann", "dialog", 100), shows("default"));
    assert_eq!(read(&table, "bo", "presence", 100), shows("default"));
    assert_eq!(read(&table, "ann", "presence", 159), shows("first"));
    assert_eq!(read(&table, "ann", "presence", 160), shows("default"));
}

#[test]
fn the_highest_body_number_is_shown() {
    let mut table = Table::new();
    publish(&mut table, 100, 900, "", "first");
    publish(&mut table, 100, 60, "", "second");
    assert_eq!(read(&table, "ann", "presence", 100), shows("second"));
    assert_eq!(read(&table, "ann", "presence", 160), shows("first"));
    publish(&mut table, 100, 900, "9e3779b9", "third");
    assert_eq!(read(&table, "ann", "presence", 100), shows("third"));
}

#[test]
fn a_refresh_does_not_bring_a_body_to_the_front() {
    let mut table = Table::new();
    publish(&mut table, 100, 900, "", "first");
    publish(&mut table, 100, 900, "", "second");
    publish(&mut table, 100, 900, "9e3779b9", "");
    assert_eq!(read(&table, "ann", "presence", 100), shows("second"));
}

#[test]
fn what_is_shown_is_a_part_of_the_store_or_of_the_default() {
    let mut table = Table::new();
    publish(&mut table, 100, 900, "", "first");
    publish(&mut table, 100, 900, "", "second");
    let (records, store) = (&table.bench.records, &table.bench.store);
    let (_, shown) = read_state(records, store, b"ann", b"presence", 100, DEFAULT);
    assert_eq!(shown.as_ptr(), store[512..].as_ptr());
    let (_, shown) = read_state(records, store, b"bo", b"presence", 100, DEFAULT);
    assert_eq!(shown.as_ptr(), DEFAULT.as_ptr());
    let (result, shown) = read_state(records, store, b"cy", b"presence", 100, DEFAULT);
    assert_eq!((result, shown.as_ptr()), (10, DEFAULT.as_ptr()));
    assert!(shown.is_empty());
}

#[test]
fn refusals_in_their_order() {
    let mut table = Table::new();
    publish(&mut table, 100, 900, "", "first");
    assert_eq!(read(&table, "ann", "presence", 99), refused(11));
    assert_eq!(read(&table, "cy", "presence", 99), refused(10));
    assert_eq!(read(&table, "ann", "Presence", 99), refused(10));
    assert_eq!(read(&table, "ann", "presence;x", 99), refused(10));
    assert_eq!(read(&table, "", "", 99), refused(10));
    table.bench.records[1].latest = u64::MAX;
    assert_eq!(read(&table, "cy", "presence", 99), refused(5));
    assert_eq!(
        read(&table, "cy", "presence", 1_000_000_000_001),
        refused(4)
    );
    table.bench.store.pop();
    assert_eq!(
        read(&table, "cy", "presence", 1_000_000_000_001),
        refused(2)
    );
    table.bench.records.clear();
    table.bench.store.clear();
    assert_eq!(read(&table, "cy", "presence", 0), refused(2));
}

#[test]
fn an_empty_default_body() {
    let table = Table::new();
    let (records, store) = (&table.bench.records, &table.bench.store);
    let shown = read_state(records, store, b"ann", b"presence", 0, b"");
    assert_eq!(shown, (0, &b""[..]));
}
