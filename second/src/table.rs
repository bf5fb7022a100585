//! The table: the records with their store, opening and adding, and where the
//! bodies stand.

pub use crate::record::{
    Record, Slot, ADDRESS_SIZE, BODY_SIZE, CLOCK_LIMIT, IN_USE, SLOTS, UNUSED,
};
use crate::results::*;
use crate::sound::all_sound;
use crate::text::are_visible;

pub const MOST_RECORDS: usize = 16;
/// The store bytes of one record.
pub const PART_SIZE: usize = SLOTS * BODY_SIZE;

/// Records 1 to 16, and exactly 4,096 store bytes for each.
pub fn sizes_are_right(records: &[Record], store: &[u8]) -> bool {
    (1..=MOST_RECORDS).contains(&records.len()) && store.len() == PART_SIZE * records.len()
}

/// The store bytes of record r.
pub fn part(store: &[u8], r: usize) -> &[u8] {
    &store[PART_SIZE * r..PART_SIZE * (r + 1)]
}

pub fn part_mut(store: &mut [u8], r: usize) -> &mut [u8] {
    &mut store[PART_SIZE * r..PART_SIZE * (r + 1)]
}

/// The place in the store where the body of slot k of record r begins.
pub fn body_place(r: usize, k: usize) -> usize {
    PART_SIZE * r + BODY_SIZE * k
}

pub fn is_well_formed(address: &[u8]) -> bool {
    (1..=ADDRESS_SIZE).contains(&address.len()) && are_visible(address)
}

/// The record that has this address, compared byte by byte.
pub fn record_of(records: &[Record], address: &[u8]) -> Option<usize> {
    records
        .iter()
        .position(|record| record.is_in_use() && record.address() == address)
}

/// Opening empties all records and zeroes the store.
pub fn open(records: &mut [Record], store: &mut [u8]) -> u8 {
    if !sizes_are_right(records, store) {
        return WRONG_SIZES;
    }
    records.fill(Record::ZERO);
    store.fill(0);
    DONE
}

/// Adding writes the address to the lowest unused record.
pub fn add(records: &mut [Record], store: &mut [u8], start: u32, spent: u32, address: &[u8]) -> u8 {
    if !sizes_are_right(records, store) {
        return WRONG_SIZES;
    }
    if !all_sound(records) {
        return NOT_SOUND;
    }
    if !is_well_formed(address) {
        return ADDRESS_MALFORMED;
    }
    if record_of(records, address).is_some() {
        return ADDRESS_THERE_ALREADY;
    }
    match records.iter().position(|record| record.mark == UNUSED) {
        None => NO_UNUSED_RECORD,
        Some(r) => {
            records[r] = Record::added(start, spent, address);
            part_mut(store, r).fill(0);
            DONE
        }
    }
}

#[cfg(test)]
mod tests {
    use super::*;

    fn opened(count: usize) -> (Vec<Record>, Vec<u8>) {
        (vec![Record::ZERO; count], vec![0; PART_SIZE * count])
    }

    #[test]
    fn opening_empties_everything() {
        let (mut records, mut store) = opened(2);
        records[1].spent = 7;
        records[1].mark = 200;
        records[1].latest = u64::MAX;
        store[8191] = 1;
        assert_eq!(open(&mut records, &mut store), DONE);
        assert_eq!((records, store), opened(2));
    }

    #[test]
    fn wrong_sizes_are_refused_and_left_alone() {
        for (count, size) in [(0, 0), (17, 17 * 4096), (1, 4095), (1, 4097), (2, 4096)] {
            let mut records = vec![Record::ZERO; count];
            let mut store = vec![5; size];
            assert_eq!(open(&mut records, &mut store), WRONG_SIZES);
            assert_eq!(add(&mut records, &mut store, 0, 0, b""), WRONG_SIZES);
            assert!(store.iter().all(|&byte| byte == 5));
        }
    }

    #[test]
    fn sizes_from_1_to_16_are_right() {
        for count in 1..=16 {
            let (mut records, mut store) = opened(count);
            assert_eq!(open(&mut records, &mut store), DONE);
        }
    }

    #[test]
    fn adding_writes_the_lowest_unused_record() {
        let (mut records, mut store) = opened(3);
        store.fill(9);
        records[0].map = 255;
        records[0].latest = 5;
        assert_eq!(add(&mut records, &mut store, 3, 4, b"ann"), DONE);
        let ann = Record {
            mark: IN_USE,
            start: 3,
            spent: 4,
            ..records[0]
        };
        assert_eq!(records[0], ann);
        assert_eq!(records[0].address(), b"ann");
        assert_eq!((records[0].map, records[0].latest), (0, 0));
        assert!(store[..4096].iter().all(|&byte| byte == 0));
        assert!(store[4096..].iter().all(|&byte| byte == 9));
        assert_eq!(add(&mut records, &mut store, 0, 0, b"bo"), DONE);
        assert_eq!(records[1].address(), b"bo");
    }

    #[test]
    fn adding_is_refused_in_the_papers_order() {
        let (mut records, mut store) = opened(1);
        assert_eq!(add(&mut records, &mut store, 0, 0, b"ann"), DONE);
        for address in [&b""[..], b"a b", b"a\x7f", b"\x80", &[b'a'; 65]] {
            let result = add(&mut records, &mut store, 0, 0, address);
            assert_eq!(result, ADDRESS_MALFORMED);
        }
        let again = add(&mut records, &mut store, 0, 0, b"ann");
        assert_eq!(again, ADDRESS_THERE_ALREADY);
        assert_eq!(
            add(&mut records, &mut store, 0, 0, b"Ann"),
            NO_UNUSED_RECORD
        );
        records[0].latest = CLOCK_LIMIT + 1;
        assert_eq!(add(&mut records, &mut store, 0, 0, b""), NOT_SOUND);
    }

    #[test]
    fn an_address_may_fill_its_64_bytes() {
        let (mut records, mut store) = opened(1);
        let address = [b'~'; 64];
        assert_eq!(add(&mut records, &mut store, 0, 0, &address), DONE);
        assert_eq!(records[0].address(), &address[..]);
        assert_eq!(record_of(&records, &address), Some(0));
        assert_eq!(record_of(&records, &address[..63]), None);
    }
}
