//! What a success leaves in record and store.

use crate::table::*;
use second::table::Slot;

fn part(table: &Table, r: usize) -> &[u8] {
    second::table::part(&table.bench.store, r)
}

fn zeros(bytes: &[u8]) -> bool {
    bytes.iter().all(|&byte| byte == 0)
}

#[test]
fn an_initial_publication_takes_the_lowest_free_slot() {
    let mut table = Table::new();
    let lines = format!("Event: presence\nExpires: 100\n{}", PIDF);
    assert_eq!(table.ann(50, &lines, "hello"), "200 9e3779b9 100");
    let record = table.record(0);
    assert_eq!((record.spent, record.latest, record.map), (1, 50, 1));
    let slot = Slot {
        package: 0,
        tag: 0x9e37_79b9,
        end: 150,
        body_length: 5,
        body_number: 1,
    };
    assert_eq!(record.slots[0], slot);
    assert_eq!(&part(&table, 0)[..5], b"hello");
    assert!(zeros(&part(&table, 0)[5..]));
    assert!(zeros(part(&table, 1)));
}

#[test]
fn a_refresh_keeps_slot_and_body() {
    let mut table = Table::new();
    table.initial(50, 100);
    let lines = "Event: presence\nExpires: 70\nSIP-If-Match: 9e3779b9\n";
    assert_eq!(table.ann(149, lines, ""), "200 3c6ef372 70");
    let slot = table.record(0).slots[0];
    assert_eq!((slot.tag, slot.end), (0x3c6e_f372, 219));
    assert_eq!((slot.body_length, slot.body_number), (1, 1));
    assert_eq!(part(&table, 0)[0], b'x');
}

#[test]
fn a_modification_replaces_the_body_and_sets_its_number() {
    let mut table = Table::new();
    let lines = format!("Event: presence\n{}", PIDF);
    table.ann(50, &lines, "long body");
    let lines = format!("Event: presence\nSIP-If-Match: 9e3779b9\n{}", PIDF);
    assert_eq!(table.ann(60, &lines, "new"), "200 3c6ef372 3600");
    let slot = table.record(0).slots[0];
    assert_eq!((slot.body_length, slot.body_number), (3, 2));
    assert_eq!(&part(&table, 0)[..4], b"new\0");
    assert!(zeros(&part(&table, 0)[3..]));
}

#[test]
fn granted_0_ends_that_publication_alone() {
    let mut table = Table::new();
    table.initial(50, 100);
    table.initial(50, 100);
    let lines = "Event: presence\nExpires: 0\nSIP-If-Match: 9e3779b9\n";
    assert_eq!(table.ann(60, lines, ""), "200 daa66d2b 0");
    assert_eq!(table.record(0).map, 2);
    assert_eq!(table.record(0).slots[0], Slot::ZERO);
    assert_eq!(part(&table, 0)[0], 0);
    assert_eq!(part(&table, 0)[512], b'x');
}

#[test]
fn an_initial_publication_of_0_takes_no_slot_and_spends_a_tag() {
    let mut table = Table::new();
    assert_eq!(table.initial(50, 0), "200 9e3779b9 0");
    let record = table.record(0);
    assert_eq!((record.spent, record.latest, record.map), (1, 50, 0));
    assert!(zeros(part(&table, 0)));
}

#[test]
fn a_success_frees_slots_whose_end_has_come() {
    let mut table = Table::new();
    table.initial(0, 100);
    table.initial(0, 101);
    table.initial(0, 99);
    assert_eq!(table.initial(100, 0), "200 78dde6e4 0");
    assert_eq!(table.record(0).map, 2);
    assert_eq!(table.record(0).slots[0], Slot::ZERO);
    assert_eq!(table.record(0).slots[2], Slot::ZERO);
    let left: Vec<usize> = (0..4096).filter(|&i| part(&table, 0)[i] != 0).collect();
    assert_eq!(left, [512]);
}

#[test]
fn a_freed_slot_is_taken_again() {
    let mut table = Table::new();
    table.initial(0, 100);
    table.initial(0, 200);
    table.initial(150, 100);
    assert_eq!(table.record(0).map, 3);
    assert_eq!(table.record(0).slots[0].end, 250);
    assert_eq!(table.record(0).slots[0].body_number, 3);
}

#[test]
fn a_refusal_frees_nothing() {
    let mut table = Table::new();
    table.initial(0, 100);
    assert_eq!(table.initial(500, 1), "423 - 60");
    let lines = "Event: presence\nSIP-If-Match: 9e3779b9\n";
    assert_eq!(table.ann(99, lines, ""), "200 3c6ef372 3600");
}

#[test]
fn junk_in_that_part_of_the_store_goes_at_the_next_success() {
    let mut table = Table::new();
    table.initial(0, 100);
    table.bench.store.fill(7);
    table.initial(0, 0);
    assert_eq!(part(&table, 0)[0], 7);
    assert!(zeros(&part(&table, 0)[1..]));
    assert!(part(&table, 1).iter().all(|&byte| byte == 7));
}

#[test]
fn junk_in_an_unoccupied_slot_stays_until_it_is_taken() {
    let mut table = Table::new();
    let junk = Slot {
        package: 77,
        tag: 1,
        end: u64::MAX,
        body_length: 9999,
        body_number: 3,
    };
    table.bench.records[0].slots[0] = junk;
    assert_eq!(table.initial(0, 0), "200 9e3779b9 0");
    assert_eq!(table.record(0).slots[0], junk);
    assert_eq!(table.initial(0, 60), "200 3c6ef372 60");
    assert_eq!(table.record(0).slots[0].package, 0);
    assert_eq!(table.record(0).slots[0].body_length, 1);
}

#[test]
fn tags_differ_over_the_whole_address() {
    let mut table = Table::new();
    let dialog = "Event: dialog\nContent-Type: application/dialog-info+xml\n";
    assert_eq!(table.initial(0, 60), "200 9e3779b9 60");
    assert_eq!(table.ann(0, dialog, "x"), "200 3c6ef372 600");
}

#[test]
fn the_default_times() {
    for (event, content_type, default) in [
        ("presence", "application/pidf+xml", 3600),
        (
            "message-summary",
            "application/simple-message-summary",
            3600,
        ),
        ("dialog", "application/dialog-info+xml", 600),
    ] {
        let lines = format!("Event: {}\nContent-Type: {}\n", event, content_type);
        let answer = Table::new().ann(0, &lines, "x");
        assert_eq!(answer, format!("200 9e3779b9 {}", default));
    }
}
