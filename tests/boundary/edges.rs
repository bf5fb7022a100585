//! Values at the bounds of soundness, on either side: each must come often, as the one thing that is wrong with a table or in a
//! table that is sound, so that a bound that is off by one shows. Also what soundness does not ask for.

use second::packages;
use second::sound::Clause;
use second::table::{Record, Slot, ADDRESS_SIZE, CLOCK_LIMIT};
use second::tags::number_of;

pub enum Has {
    Record(fn(&Record) -> bool),
    /// An occupied slot of a record in use.
    Slot(fn(&Record, &Slot) -> bool),
}

/// The clause that alone fails, or none where the table is sound; and what the table has.
pub type Edge = (&'static str, Option<Clause>, Has);

pub const EDGES: &[Edge] = &[
    ("mark 2", Some(Clause::Mark), Has::Record(|r| r.mark == 2)),
    ("mark 255", Some(Clause::Mark), Has::Record(|r| r.mark == 255)),
    ("address of 1 byte", None, Has::Record(|r| r.is_in_use() && r.address().len() == 1)),
    ("address of 64 bytes", None, Has::Record(|r| r.is_in_use() && r.address().len() == ADDRESS_SIZE)),
    ("address byte 32", Some(Clause::AddressBytes), Has::Record(|r| has_byte(r, 32))),
    ("address byte 33", None, Has::Record(|r| has_byte(r, 33))),
    ("address byte 126", None, Has::Record(|r| has_byte(r, 126))),
    ("address byte 127", Some(Clause::AddressBytes), Has::Record(|r| has_byte(r, 127))),
    ("last address byte not zero", Some(Clause::PastTheAddress), Has::Record(|r| r.is_in_use() && r.address[63] != 0)),
    ("clock at its limit", None, Has::Record(|r| r.is_in_use() && r.latest == CLOCK_LIMIT)),
    ("clock one above it", Some(Clause::LatestClock), Has::Record(|r| r.is_in_use() && r.latest == CLOCK_LIMIT + 1)),
    ("package 2", None, Has::Slot(|_, s| s.package == 2)),
    ("package 3", Some(Clause::Package), Has::Slot(|_, s| s.package == 3)),
    ("body of 512", None, Has::Slot(|_, s| s.body_length == 512)),
    ("body of 513", Some(Clause::BodyLength), Has::Slot(|_, s| s.body_length == 513)),
    ("presence, end at the most", None, Has::Slot(|r, s| ends_past(r, s, 0, 0))),
    ("presence, end one above it", Some(Clause::End), Has::Slot(|r, s| ends_past(r, s, 0, 1))),
    ("message-summary, end at the most", None, Has::Slot(|r, s| ends_past(r, s, 1, 0))),
    ("message-summary, end one above it", Some(Clause::End), Has::Slot(|r, s| ends_past(r, s, 1, 1))),
    ("dialog, end at the most", None, Has::Slot(|r, s| ends_past(r, s, 2, 0))),
    ("dialog, end one above it", Some(Clause::End), Has::Slot(|r, s| ends_past(r, s, 2, 1))),
    ("body number 0", Some(Clause::BodyNumberLeast), Has::Slot(|_, s| s.body_number == 0)),
    ("body number 1", None, Has::Slot(|_, s| s.body_number == 1)),
    ("body number spent", None, Has::Slot(|r, s| s.body_number == r.spent)),
    ("body number spent plus 1", Some(Clause::BodyNumberMost), Has::Slot(|r, s| is_next(r, s.body_number))),
    ("tag of 0", Some(Clause::Tag), Has::Slot(|r, s| number_of(r.start, s.tag) == 0)),
    ("tag of 1", None, Has::Slot(|r, s| number_of(r.start, s.tag) == 1)),
    ("tag of spent", None, Has::Slot(|r, s| number_of(r.start, s.tag) == r.spent)),
    ("tag of spent plus 1", Some(Clause::Tag), Has::Slot(|r, s| is_next(r, number_of(r.start, s.tag)))),
    ("all tags spent, and the last one kept", None, Has::Slot(|r, s| r.spent == u32::MAX && s.body_number == r.spent)),
    ("not asked: of unused records", None, Has::Record(|r| !r.is_in_use() && r.map != 0 && r.latest > CLOCK_LIMIT)),
    ("not asked: of unoccupied slots", None, Has::Record(has_junk_in_a_free_slot)),
    ("not asked: ends ahead of the clock", None, Has::Slot(|r, s| s.end <= r.latest)),
];

/// Whether some record of the table has it.
pub fn is_at(edge: &Edge, records: &[Record]) -> bool {
    records.iter().any(|record| match edge.2 {
        Has::Record(has) => has(record),
        Has::Slot(has) => record.is_in_use() && record.occupied().any(|(_, slot)| has(record, slot)),
    })
}

fn has_byte(record: &Record, byte: u8) -> bool {
    record.is_in_use() && record.address().contains(&byte)
}

/// So many seconds after the last end that this package may have.
fn ends_past(record: &Record, slot: &Slot, package: usize, seconds: u64) -> bool {
    slot.package == package && slot.end == record.latest + u64::from(packages::MOST[package]) + seconds
}

fn is_next(record: &Record, number: u32) -> bool {
    record.spent.checked_add(1) == Some(number)
}

fn has_junk_in_a_free_slot(record: &Record) -> bool {
    let mut slots = record.slots.iter().enumerate();
    record.is_in_use() && slots.any(|(k, slot)| !record.is_occupied(k) && slot.package >= packages::COUNT)
}
