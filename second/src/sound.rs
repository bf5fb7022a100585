//! When a record is sound: a list of clauses, each with a name of its own, so
//! that a test can say which of them a table fails, and can leave one out.
//! Nothing is asked of unused records but their mark, nothing of unoccupied
//! slots or of the store's bytes, nor that an end lies ahead of the clock.

use std::cell::Cell;

use crate::packages;
use crate::record::*;
use crate::tags::number_of;
use crate::text::are_visible;

#[derive(Clone, Copy, Debug, PartialEq, Eq)]
pub enum Clause {
    Mark,
    AddressLength,
    AddressBytes,
    PastTheAddress,
    AddressesDiffer,
    LatestClock,
    Package,
    BodyLength,
    End,
    BodyNumberLeast,
    BodyNumberMost,
    Tag,
    TagsDiffer,
    BodyNumbersDiffer,
}

pub const CLAUSES: [Clause; 14] = [
    Clause::Mark,
    Clause::AddressLength,
    Clause::AddressBytes,
    Clause::PastTheAddress,
    Clause::AddressesDiffer,
    Clause::LatestClock,
    Clause::Package,
    Clause::BodyLength,
    Clause::End,
    Clause::BodyNumberLeast,
    Clause::BodyNumberMost,
    Clause::Tag,
    Clause::TagsDiffer,
    Clause::BodyNumbersDiffer,
];

impl Clause {
    /// What it asks.
    pub fn words(self) -> &'static str {
        match self {
            Clause::Mark => "the mark is 0 or 1",
            Clause::AddressLength => "the address is 1 to 64 bytes",
            Clause::AddressBytes => "each of them 33 to 126",
            Clause::PastTheAddress => "zero past its end",
            Clause::AddressesDiffer => "differs from each other one in use",
            Clause::LatestClock => "latest clock at most its limit",
            Clause::Package => "listed package",
            Clause::BodyLength => "body of at most 512",
            Clause::End => "end at most latest clock plus the package's most",
            Clause::BodyNumberLeast => "body number at least 1",
            Clause::BodyNumberMost => "body number at most spent",
            Clause::Tag => "tag given by some n from 1 to spent",
            Clause::TagsDiffer => "tags differ",
            Clause::BodyNumbersDiffer => "body numbers differ",
        }
    }

    /// Whether record r has it.
    fn holds(self, records: &[Record], r: usize) -> bool {
        let record = &records[r];
        match self {
            Clause::Mark => [UNUSED, IN_USE].contains(&record.mark),
            _ if !record.is_in_use() => true,
            Clause::AddressLength => (1..=ADDRESS_SIZE).contains(&record.address().len()),
            Clause::AddressBytes => are_visible(record.address()),
            Clause::PastTheAddress => is_zero_past_its_address(record),
            Clause::AddressesDiffer => differs_from_the_others(records, r),
            Clause::LatestClock => record.latest <= CLOCK_LIMIT,
            Clause::TagsDiffer => slots_differ(record, |slot| slot.tag),
            Clause::BodyNumbersDiffer => slots_differ(record, |slot| slot.body_number),
            _ => record
                .occupied()
                .all(|(_, slot)| self.holds_of_slot(record, slot)),
        }
    }

    /// The clauses that are asked of each occupied slot by itself.
    fn holds_of_slot(self, record: &Record, slot: &Slot) -> bool {
        match self {
            Clause::Package => slot.package < packages::COUNT,
            Clause::BodyLength => slot.body_length <= BODY_SIZE,
            Clause::End => ends_in_time(record, slot),
            Clause::BodyNumberLeast => slot.body_number >= 1,
            Clause::BodyNumberMost => slot.body_number <= record.spent,
            Clause::Tag => (1..=record.spent).contains(&number_of(record.start, slot.tag)),
            _ => true,
        }
    }
}

pub fn all_sound(records: &[Record]) -> bool {
    let left_out = LEFT_OUT.with(Cell::get);
    let mut asked = CLAUSES.iter().filter(|&&clause| Some(clause) != left_out);
    asked.all(|&clause| holds_everywhere(clause, records))
}

/// The clauses that some record of this table fails.
pub fn failing(records: &[Record]) -> Vec<Clause> {
    let fails = |clause: &Clause| !holds_everywhere(*clause, records);
    CLAUSES.iter().copied().filter(fails).collect()
}

thread_local! {
    static LEFT_OUT: Cell<Option<Clause>> = Cell::new(None);
}

/// From now on this clause is not asked in this thread. A test that holds
/// another program against this one must then see the two part.
pub fn leave_out(clause: Option<Clause>) {
    LEFT_OUT.with(|left_out| left_out.set(clause));
}

fn holds_everywhere(clause: Clause, records: &[Record]) -> bool {
    (0..records.len()).all(|r| clause.holds(records, r))
}

fn is_zero_past_its_address(record: &Record) -> bool {
    let past_its_end = &record.address[record.address().len()..];
    past_its_end.iter().all(|&byte| byte == 0)
}

fn differs_from_the_others(records: &[Record], r: usize) -> bool {
    records.iter().enumerate().all(|(other, record)| {
        other == r || !record.is_in_use() || record.address() != records[r].address()
    })
}

/// A package that is not listed has no most, and another clause for it.
fn ends_in_time(record: &Record, slot: &Slot) -> bool {
    packages::MOST.get(slot.package).map_or(true, |&most| {
        slot.end <= record.latest.saturating_add(u64::from(most))
    })
}

fn slots_differ(record: &Record, what: fn(&Slot) -> u32) -> bool {
    record.occupied().all(|(k, slot)| {
        let mut others = record.occupied().filter(|&(other, _)| other != k);
        others.all(|(_, other)| what(slot) != what(other))
    })
}

#[cfg(test)]
mod tests {
    use super::*;
    use crate::tags::tag_of;

    /// Two addresses; the first has two publications, the second none.
    fn sound_table() -> Vec<Record> {
        let mut records = vec![
            Record::added(5, 10, b"ann"),
            Record::added(6, 0, b"bo"),
            Record::ZERO,
        ];
        records[0].latest = 1000;
        for (k, n) in [(2, 9), (5, 10)] {
            records[0].take_slot(
                k,
                Slot {
                    package: 0,
                    tag: tag_of(5, n),
                    end: 1000 + 3600,
                    body_length: 512,
                    body_number: n,
                },
            );
        }
        records
    }

    /// The clauses that fail after a change; the two ways to ask must agree.
    fn after(change: fn(&mut [Record])) -> Vec<Clause> {
        let mut records = sound_table();
        assert!(all_sound(&records));
        change(&mut records);
        let failing = failing(&records);
        assert_eq!(failing.is_empty(), all_sound(&records));
        failing
    }

    fn fails(clause: Clause, change: fn(&mut [Record])) {
        assert_eq!(after(change), [clause]);
    }

    fn is_sound(change: fn(&mut [Record])) {
        assert_eq!(after(change), []);
    }

    #[test]
    fn the_mark() {
        fails(Clause::Mark, |t| t[0].mark = 2);
        fails(Clause::Mark, |t| t[1].mark = 255);
        fails(Clause::Mark, |t| t[2].mark = 128);
        is_sound(|t| t[0].mark = UNUSED);
    }

    #[test]
    fn the_address() {
        fails(Clause::AddressLength, |t| t[0].address = [0; 64]);
        fails(Clause::AddressBytes, |t| t[0].address[1] = b' ');
        fails(Clause::AddressBytes, |t| t[0].address[1] = 127);
        fails(Clause::PastTheAddress, |t| t[0].address[63] = b'a');
        fails(Clause::AddressesDiffer, |t| t[0].address = t[1].address);
        is_sound(|t| t[0].address = [b'a'; 64]);
        is_sound(|t| t[0].address[..2].copy_from_slice(b"!~"));
        is_sound(|t| t[2].address = t[1].address);
    }

    #[test]
    fn the_latest_clock() {
        fails(Clause::LatestClock, |t| t[1].latest = CLOCK_LIMIT + 1);
        fails(Clause::LatestClock, |t| t[0].latest = u64::MAX);
        is_sound(|t| t[1].latest = CLOCK_LIMIT);
    }

    #[test]
    fn package_and_body_length() {
        fails(Clause::Package, |t| t[0].slots[2].package = 3);
        fails(Clause::BodyLength, |t| t[0].slots[2].body_length = 513);
        is_sound(|t| t[0].slots[2].body_length = 0);
    }

    #[test]
    fn the_end() {
        fails(Clause::End, |t| t[0].slots[2].end = 4601);
        is_sound(|t| t[0].slots[2].end = 0);
        is_sound(|t| {
            t[0].slots[2].end = 1000 + 7200;
            t[0].slots[2].package = 1;
        });
    }

    #[test]
    fn the_body_number() {
        fails(Clause::BodyNumberLeast, |t| t[0].slots[2].body_number = 0);
        fails(Clause::BodyNumberMost, |t| t[0].slots[2].body_number = 11);
        fails(Clause::BodyNumbersDiffer, |t| {
            t[0].slots[2].body_number = 10
        });
        is_sound(|t| t[0].slots[2].body_number = 1);
    }

    #[test]
    fn the_tag() {
        fails(Clause::Tag, |t| t[0].slots[2].tag = 5);
        fails(Clause::Tag, |t| t[0].slots[2].tag = tag_of(5, 11));
        fails(Clause::TagsDiffer, |t| t[0].slots[2].tag = tag_of(5, 10));
        is_sound(|t| t[0].slots[2].tag = tag_of(5, 1));
    }

    #[test]
    fn nothing_is_asked_of_unoccupied_slots_and_unused_records() {
        is_sound(|t| {
            t[0].slots[0].package = 99;
            t[0].slots[0].end = u64::MAX;
            t[2].latest = u64::MAX;
            t[2].map = 255;
        });
    }

    #[test]
    fn an_occupied_slot_of_zeros_is_not_sound() {
        let failing = after(|t| t[1].map = 1);
        assert_eq!(failing, [Clause::BodyNumberLeast, Clause::Tag]);
    }

    #[test]
    fn a_clause_left_out_is_not_asked() {
        let mut records = sound_table();
        records[1].mark = 2;
        leave_out(Some(Clause::Tag));
        assert!(!all_sound(&records));
        leave_out(Some(Clause::Mark));
        assert!(all_sound(&records));
        assert_eq!(failing(&records), [Clause::Mark]);
        records[0].latest = u64::MAX;
        assert!(!all_sound(&records));
        leave_out(None);
    }
}
