//! A record as the 288 bytes that are lent for it. Every 288 bytes are some record; the bytes between the fields say nothing.

use crate::chance::one_of;
use second::generate::random::Random;
use second::table::{Record, Slot, ADDRESS_SIZE, SLOTS};

pub const RECORD_SIZE: usize = 288;

/// More than a part of the store, and no multiple of its slots.
const PERIOD: usize = 5003;

const MARK: usize = 0;
const ADDRESS: usize = 1;
const START: usize = 68;
const SPENT: usize = 72;
const LATEST: usize = 80;
const MAP: usize = 88;
const FIRST_SLOT: usize = 96;
const SLOT_SIZE: usize = 24;

// Within a slot.
const PACKAGE: usize = 0;
const TAG: usize = 4;
const END: usize = 8;
const BODY_LENGTH: usize = 16;
const BODY_NUMBER: usize = 20;

/// Place and width of one field of a record; of the address one byte, of the slots one field of one of them.
pub fn any_field(random: &mut Random) -> (usize, usize) {
    let slot = FIRST_SLOT + SLOT_SIZE * random.place(SLOTS);
    one_of([
        (MARK, 1),
        (ADDRESS + random.place(ADDRESS_SIZE), 1),
        (START, 4),
        (SPENT, 4),
        (LATEST, 8),
        (MAP, 1),
        (slot + PACKAGE, 1),
        (slot + TAG, 4),
        (slot + END, 8),
        (slot + BODY_LENGTH, 2),
        (slot + BODY_NUMBER, 4),
    ], random)
}

/// The bytes of these records, anything between the fields.
pub fn bytes_of(records: &[Record], random: &mut Random) -> Vec<u8> {
    let mut bytes = any_bytes(RECORD_SIZE * records.len(), random);
    for (image, record) in bytes.chunks_mut(RECORD_SIZE).zip(records) {
        write_fields(image, record);
    }
    bytes
}

pub fn records_of(bytes: &[u8]) -> Vec<Record> {
    bytes.chunks(RECORD_SIZE).map(record_of).collect()
}

fn write_fields(image: &mut [u8], record: &Record) {
    image[MARK] = record.mark;
    image[ADDRESS..ADDRESS + ADDRESS_SIZE].copy_from_slice(&record.address);
    put(image, START, 4, record.start.into());
    put(image, SPENT, 4, record.spent.into());
    put(image, LATEST, 8, record.latest);
    image[MAP] = record.map;
    for (k, slot) in record.slots.iter().enumerate() {
        let image = &mut image[FIRST_SLOT + SLOT_SIZE * k..];
        image[PACKAGE] = slot.package as u8;
        put(image, TAG, 4, slot.tag.into());
        put(image, END, 8, slot.end);
        put(image, BODY_LENGTH, 2, slot.body_length as u64);
        put(image, BODY_NUMBER, 4, slot.body_number.into());
    }
}

pub fn record_of(image: &[u8]) -> Record {
    let mut record = Record::ZERO;
    record.mark = image[MARK];
    record.address.copy_from_slice(&image[ADDRESS..ADDRESS + ADDRESS_SIZE]);
    record.start = number(image, START, 4) as u32;
    record.spent = number(image, SPENT, 4) as u32;
    record.latest = number(image, LATEST, 8);
    record.map = image[MAP];
    for (k, slot) in record.slots.iter_mut().enumerate() {
        let image = &image[FIRST_SLOT + SLOT_SIZE * k..];
        *slot = Slot {
            package: image[PACKAGE].into(),
            tag: number(image, TAG, 4) as u32,
            end: number(image, END, 8),
            body_length: number(image, BODY_LENGTH, 2) as usize,
            body_number: number(image, BODY_NUMBER, 4) as u32,
        };
    }
    record
}

/// The number in so many bytes, the low one first.
pub fn number(bytes: &[u8], place: usize, width: usize) -> u64 {
    bytes[place..place + width].iter().rev().fold(0, |value, &byte| value << 8 | u64::from(byte))
}

pub fn put(bytes: &mut [u8], place: usize, width: usize, value: u64) {
    bytes[place..place + width].copy_from_slice(&value.to_le_bytes()[..width]);
}

/// Bytes without an order; a great many repeat themselves, but not from one record's part of the store to the next.
pub fn any_bytes(count: usize, random: &mut Random) -> Vec<u8> {
    let mut bytes = Vec::with_capacity(count + PERIOD);
    while bytes.len() < count.min(PERIOD) {
        bytes.extend_from_slice(&random.word().to_le_bytes());
    }
    while bytes.len() < count {
        bytes.extend_from_within(..PERIOD);
    }
    bytes.truncate(count);
    bytes
}
