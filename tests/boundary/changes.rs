//! Sound tables made unsound: so that one clause fails and no other, often by one; or by one field or one bit.

use crate::chance::one_of;
use crate::image::{any_field, bytes_of, number, put, records_of, RECORD_SIZE};
use crate::tables::{any_store, built_records, Table};
use second::generate::random::Random;
use second::packages;
use second::sound::{failing, Clause};
use second::table::{Record, Slot, ADDRESS_SIZE, BODY_SIZE, CLOCK_LIMIT};
use second::tags::tag_of;

/// A sound table, and the same with a value that this clause is to refuse and no other does. Whether the second program takes this
/// clause to fail is not asked: where it is wrong about that, the table is just the one that must be lent.
pub fn with_one_failing(clause: Clause, count: usize, random: &mut Random) -> (Table, Table) {
    loop {
        let sound = built_records(count.max(least_count(clause)), random);
        let mut records = sound.clone();
        let r = random.place(records.len());
        break_clause(clause, &mut records, r, random);
        if records != sound && failing(&records).iter().all(|&failed| failed == clause) {
            let store = any_store(records.len(), random);
            return (Table { records: sound, store: store.clone() }, Table { records, store });
        }
    }
}

fn least_count(clause: Clause) -> usize {
    match clause {
        Clause::AddressesDiffer => 2,
        _ => 1,
    }
}

/// Tries to make this clause fail at record r.
fn break_clause(clause: Clause, records: &mut [Record], r: usize, random: &mut Random) {
    let other = random.place(records.len());
    let others_address = records[other].address;
    let record = &mut records[r];
    match clause {
        Clause::Mark => record.mark = one_of([2, 2, 255, 2 + random.below(254) as u8], random),
        Clause::AddressLength => record.address = [0; ADDRESS_SIZE],
        Clause::AddressBytes => {
            let place = random.place(record.address().len().max(1));
            record.address[place] = one_of([32, 32, 127, 127, 1, 31, 128, 255], random);
        }
        Clause::PastTheAddress => {
            let place = one_of([ADDRESS_SIZE - 1, random.place(ADDRESS_SIZE)], random);
            record.address[place] = one_of([1, b'a', 255], random);
        }
        Clause::AddressesDiffer => record.address = others_address,
        Clause::LatestClock => {
            record.latest = one_of([CLOCK_LIMIT + 1, CLOCK_LIMIT + 1, u64::MAX, CLOCK_LIMIT | 1 << 63], random)
        }
        _ => break_slots(clause, record, random),
    }
}

/// The clauses of the occupied slots.
fn break_slots(clause: Clause, record: &mut Record, random: &mut Random) {
    let occupied: Vec<usize> = record.occupied().map(|(k, _)| k).collect();
    if occupied.is_empty() || !record.is_in_use() {
        return;
    }
    let other = record.slots[*random.pick(&occupied)];
    let k = *random.pick(&occupied);
    let before = *record;
    let slot = &mut record.slots[k];
    match clause {
        Clause::Package => slot.package = one_of([3, 3, 4, 255, 3 + random.place(253)], random),
        Clause::BodyLength => {
            let any = BODY_SIZE + 1 + random.place(65535 - BODY_SIZE);
            slot.body_length = one_of([513, 513, 514, 65535, any], random);
        }
        Clause::End => slot.end = too_late(&before, slot, random),
        Clause::BodyNumberLeast => slot.body_number = 0,
        Clause::BodyNumberMost => slot.body_number = above(before.spent, random),
        Clause::Tag => {
            let n = one_of([0, above(before.spent, random)], random);
            slot.tag = tag_of(before.start, n);
        }
        Clause::TagsDiffer => slot.tag = other.tag,
        _ => slot.body_number = other.body_number,
    }
}

fn too_late(record: &Record, slot: &Slot, random: &mut Random) -> u64 {
    let next = record.latest + u64::from(packages::MOST[slot.package]) + 1;
    one_of([next, next, next, next + random.below(4000), u64::MAX], random)
}

/// Above the spent count, often by one; the count itself where it is the last.
fn above(spent: u32, random: &mut Random) -> u32 {
    let any = u64::from(spent) + random.below(1 + u64::from(u32::MAX - spent));
    one_of([spent.saturating_add(1), spent.saturating_add(1), any as u32, u32::MAX], random)
}

/// One field set to a bound, to a neighbour or to anything; or one bit turned. The table may stay sound.
pub fn with_one_change(table: &Table, random: &mut Random) -> Table {
    let mut images = bytes_of(&table.records, random);
    if images.is_empty() {
        return table.clone();
    }
    if random.one_in(2) {
        let bit = random.place(images.len() * 8);
        images[bit / 8] ^= 1 << (bit % 8);
    } else {
        let (place, width) = any_field(random);
        let place = RECORD_SIZE * random.place(table.records.len()) + place;
        let old = number(&images, place, width);
        let near = [old.wrapping_add(1), old.wrapping_sub(1)];
        let new = one_of([near[0], near[1], 0, u64::MAX, random.word()], random);
        put(&mut images, place, width, new);
    }
    Table { records: records_of(&images), store: table.store.clone() }
}
