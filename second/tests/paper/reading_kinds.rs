//! The kinds of reading that the counts name, each on a table made for it.

use crate::table::*;
use second::reading_in::Reading;
use second::reading_kinds::{Case, KINDS};

fn presence(table: &mut Table, clock: u64, expires: u32, tag: &str, body: &str) {
    let matched = match tag {
        "" => String::new(),
        tag => format!("SIP-If-Match: {}\n", tag),
    };
    let lines = format!("Event: presence\nExpires: {}\n{}{}", expires, matched, PIDF);
    let answer = table.ann(clock, &lines, body);
    assert!(answer.starts_with("200"), "{}", answer);
}

fn kinds(
    table: &mut Table,
    clock: u64,
    address: &str,
    package: &str,
    default: &str,
) -> Vec<String> {
    let reading = Reading {
        clock,
        address: address.as_bytes().to_vec(),
        package: package.as_bytes().to_vec(),
        default: default.as_bytes().to_vec(),
    };
    let read = table.bench.read(&reading);
    let case = Case {
        records: &table.bench.records,
        reading: &reading,
        read: &read,
    };
    let of = KINDS.iter().filter(|(_, test)| test(&case));
    of.map(|(name, _)| name.replacen("read-", "", 1)).collect()
}

/// ann has one presence publication, from 100 to 160.
fn one() -> Table {
    let mut table = Table::new();
    presence(&mut table, 100, 60, "", "first");
    table
}

#[test]
fn clocks_about_an_end() {
    let mut table = one();
    assert_eq!(
        kinds(&mut table, 100, "ann", "presence", "d"),
        ["at-latest"]
    );
    assert!(kinds(&mut table, 158, "ann", "presence", "d").is_empty());
    let at = |clock, table: &mut Table| kinds(table, clock, "ann", "presence", "d");
    assert_eq!(at(159, &mut table), ["at-end-minus-1"]);
    assert_eq!(at(160, &mut table), ["at-end", "default-not-empty"]);
    assert_eq!(at(161, &mut table), ["at-end-plus-1", "default-not-empty"]);
    assert_eq!(at(162, &mut table), ["default-not-empty"]);
}

#[test]
fn defaults_and_the_limit() {
    let mut table = one();
    let other = kinds(&mut table, 101, "ann", "dialog", "");
    assert_eq!(other, ["default-empty", "default-other-package-live"]);
    let at_limit = kinds(&mut table, 1_000_000_000_000, "bo", "dialog", "d");
    assert_eq!(at_limit, ["at-limit", "default-not-empty"]);
}

#[test]
fn two_live() {
    let mut table = one();
    presence(&mut table, 100, 300, "", "second");
    let at = |clock, table: &mut Table| kinds(table, clock, "ann", "presence", "d");
    assert_eq!(at(101, &mut table), ["two-live"]);
    assert_eq!(at(161, &mut table), ["at-end-plus-1"]);
    presence(&mut table, 100, 60, "9e3779b9", "third");
    let lower = "two-live-newest-in-lower-slot";
    assert_eq!(at(101, &mut table), ["two-live", lower]);
    assert_eq!(at(160, &mut table), ["at-end", "newest-run-out"]);
    presence(&mut table, 100, 300, "3c6ef372", "");
    let refreshed = "two-live-other-refreshed";
    assert_eq!(at(101, &mut table), ["two-live", lower, refreshed]);
}

#[test]
fn refusals() {
    let mut table = one();
    let over = 1_000_000_000_001;
    for (clock, address, package, expected) in [
        (over, "ann", "presence", &["4-limit-plus-1"][..]),
        (over, "cy", "presence", &["4-limit-plus-1", "4-not-known"]),
        (u64::MAX, "ann", "Presence", &["4-huge", "4-not-known"]),
        (100, "cy", "presence", &[]),
        (100, "aNN", "presence", &["10-address-other-case"]),
        (100, "ann\0", "presence", &["10-address-zero-behind"]),
        (100, "ann", "PRESENCE", &["10-package-other-case"]),
        (100, "ann", "dialog;x", &["10-package-more-behind"]),
        (100, "ann", "dialog\t", &["10-package-more-behind"]),
        (100, "ann", "dialogs", &[]),
        (98, "ann", "dialogs", &["10-clock-below-latest"]),
        (98, "ann", "presence", &[]),
        (99, "ann", "presence", &["11-latest-minus-1"]),
    ] {
        let found = kinds(&mut table, clock, address, package, "");
        assert_eq!(found, expected, "{} {} {}", clock, address, package);
    }
}
