//! Tables that no history gave: sound ones built directly, with values at their bounds, and ones of any bytes.

use crate::chance::one_of;
use crate::image::{any_bytes, records_of, RECORD_SIZE};
use second::generate::random::Random;
use second::generate::{CROWD, FULL, LATE};
use second::packages;
use second::table::{Record, Slot, ADDRESS_SIZE, BODY_SIZE, CLOCK_LIMIT, IN_USE, PART_SIZE, SLOTS, UNUSED};
use second::tags::tag_of;

#[derive(Clone)]
pub struct Table {
    pub records: Vec<Record>,
    pub store: Vec<u8>,
}

/// How many records a table has that is lent as it should be.
pub fn any_count(random: &mut Random) -> usize {
    one_of([1, 1, 1, 1, 1, 1, 2, 2, 2, 2, 2, 2, 15, 16], random)
}

/// A sound table: its records in use have any state that soundness allows, and what soundness does not ask for is anything.
pub fn built(count: usize, random: &mut Random) -> Table {
    Table { records: built_records(count, random), store: any_store(count, random) }
}

pub fn built_records(count: usize, random: &mut Random) -> Vec<Record> {
    let addresses = addresses(count, random);
    let records = addresses.iter().map(|address| match random.below(6) {
        0 => unused(random),
        _ => in_use(address, random),
    });
    records.collect()
}

/// Any bytes; or such with marks that are marks; or a sound table with one record of any bytes.
pub fn of_any_bytes(count: usize, random: &mut Random) -> Table {
    let mut records = records_of(&any_bytes(RECORD_SIZE * count, random));
    match random.below(3) {
        0 => {}
        1 => {
            for record in &mut records {
                record.mark = random.below(2) as u8;
            }
        }
        _ => {
            let kept = random.place(count);
            let sound = built_records(count, random);
            for r in (0..count).filter(|&r| r != kept) {
                records[r] = sound[r];
            }
        }
    }
    Table { records, store: any_store(count, random) }
}

pub fn any_store(count: usize, random: &mut Random) -> Vec<u8> {
    match random.below(3) {
        0 => vec![0; PART_SIZE * count],
        1 => vec![random.byte(); PART_SIZE * count],
        _ => any_bytes(PART_SIZE * count, random),
    }
}

/// Zero, or anything: nothing is asked of it but its mark.
fn unused(random: &mut Random) -> Record {
    if random.one_in(2) {
        return Record::ZERO;
    }
    let mut record = records_of(&any_bytes(RECORD_SIZE, random))[0];
    record.mark = UNUSED;
    record
}

fn in_use(address: &[u8], random: &mut Random) -> Record {
    let mut record = Record::ZERO;
    record.mark = IN_USE;
    record.address[..address.len()].copy_from_slice(address);
    record.start = one_of([0, 1, u32::MAX, random.word() as u32, random.word() as u32], random);
    record.spent = one_of([0, 1, 2, 8, 20, random.word() as u32, u32::MAX - 1, u32::MAX], random);
    let any = random.below(CLOCK_LIMIT);
    record.latest = one_of([0, 1, 5000, any, CLOCK_LIMIT - 1, CLOCK_LIMIT], random);
    if random.one_in(2) {
        record.slots = records_of(&any_bytes(RECORD_SIZE, random))[0].slots;
    }
    let full = address == CROWD || address == FULL;
    if full {
        record.spent = record.spent.max(8);
    }
    let tags = some_numbers(record.spent, random);
    let body_numbers = some_numbers(record.spent, random);
    for (k, (&n, &body_number)) in tags.iter().zip(&body_numbers).enumerate() {
        if full || random.one_in(2) {
            record.take_slot(k, any_slot(&record, tag_of(record.start, n), body_number, full, random));
        }
    }
    record
}

/// Up to eight different success numbers, often the first and the last.
fn some_numbers(spent: u32, random: &mut Random) -> Vec<u32> {
    let mut numbers = Vec::new();
    while numbers.len() < SLOTS.min(spent as usize) {
        let any = 1 + random.below(u64::from(spent)) as u32;
        let number = one_of([1, spent, any, any], random);
        if !numbers.contains(&number) {
            numbers.push(number);
        }
    }
    numbers
}

fn any_slot(record: &Record, tag: u32, body_number: u32, live: bool, random: &mut Random) -> Slot {
    let package = random.place(packages::COUNT);
    let most = u64::from(packages::MOST[package]);
    let last = record.latest + most;
    let ahead = record.latest + 1 + random.below(most);
    let end = match live {
        true => one_of([record.latest + 1, ahead, ahead, ahead, last], random),
        false => one_of([0, record.latest, record.latest + 1, ahead, last - 1, last, last], random),
    };
    Slot {
        package,
        tag,
        end,
        body_length: one_of([0, 1, random.place(BODY_SIZE), BODY_SIZE - 1, BODY_SIZE], random),
        body_number,
    }
}

/// So many different addresses: those that the generator of requests has plans for, ones that are alike, short ones and long ones.
fn addresses(count: usize, random: &mut Random) -> Vec<Vec<u8>> {
    let mut addresses: Vec<Vec<u8>> = Vec::new();
    while addresses.len() < count {
        let address = any_address(random);
        if !addresses.contains(&address) {
            addresses.push(address);
        }
    }
    addresses
}

pub fn any_address(random: &mut Random) -> Vec<u8> {
    let known: [&[u8]; 9] = [
        FULL,
        LATE,
        b"ann",
        b"an",
        b"Ann",
        b"!",
        b"~",
        &[b'~'; ADDRESS_SIZE],
        &[b'~'; ADDRESS_SIZE - 1],
    ];
    match random.below(5) {
        0 => return CROWD.to_vec(),
        1 | 2 => return random.pick(&known).to_vec(),
        _ => {}
    }
    let length = one_of([1, 2, 8, 62, 63, 64], random);
    (0..length).map(|_| 33 + random.below(94) as u8).collect()
}
