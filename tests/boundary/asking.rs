//! What is asked of a table: opening, adding, a request or a reading, each good or refused in any of its ways.

use crate::call::{Asked, Call};
use crate::chance::one_of;
use crate::image::{any_bytes, bytes_of};
use crate::tables::{any_address, Table};
use second::generate::for_table::request_for;
use second::generate::random::Random;
use second::packages::NAMES;
use second::table::{Record, ADDRESS_SIZE, CLOCK_LIMIT};

/// A call on the lent table. What it asks is made up for the sound table that the lent one was before it was changed.
pub fn any_call(sound: &Table, lent: &Table, random: &mut Random) -> Call {
    let asked = match random.below(20) {
        0 => Asked::Open,
        1..=3 => any_adding(&sound.records, random),
        4..=7 => any_reading(&sound.records, random),
        _ => any_request(&sound.records, random),
    };
    call_on(lent, asked, random)
}

pub fn call_on(lent: &Table, asked: Asked, random: &mut Random) -> Call {
    Call {
        records: lent.records.clone(),
        images: bytes_of(&lent.records, random),
        store: lent.store.clone(),
        shift: random.place(8),
        asked,
    }
}

pub fn any_adding(records: &[Record], random: &mut Random) -> Asked {
    let mut address = any_address(random);
    match random.below(8) {
        0 => address.clear(),
        1 => address.resize(one_of([ADDRESS_SIZE + 1, ADDRESS_SIZE + 1, 200], random), b'a'),
        2 => {
            let place = random.place(address.len());
            address[place] = one_of([0, 31, 32, 127, 128, 255], random);
        }
        3 => address = an_address_there(records, random),
        _ => {}
    }
    Asked::Add {
        address,
        start: one_of([0, 1, u32::MAX, random.word() as u32], random),
        spent: one_of([0, 0, 0, 1, 7, u32::MAX - 3, u32::MAX, random.word() as u32], random),
    }
}

fn any_request(records: &[Record], random: &mut Random) -> Asked {
    let (mut clock, mut request) = request_for(records, random);
    match random.below(16) {
        0 | 1 => clock = any_clock(records, random),
        2 => request.resize(one_of([4096, 4097, 4097, 5000], random), b'z'),
        3 => {
            clock = a_clock_above_the_limit(random);
            request.resize(one_of([4097, request.len()], random), b'z');
        }
        _ => {}
    }
    let size = match random.below(12) {
        0 => one_of([0, 1, 4607, 4607], random),
        1 => one_of([4609, 5000, 9000], random),
        _ => 4608,
    };
    Asked::Handle {
        clock,
        number: one_of([0, 1, 0x0a00_00ff, u32::MAX, random.word() as u32], random),
        request,
        answer: any_bytes(size, random),
    }
}

fn any_reading(records: &[Record], random: &mut Random) -> Asked {
    let mut address = an_address_there(records, random);
    match random.below(10) {
        0 => address.clear(),
        1 => address = any_address(random),
        2 => address.push(one_of([0, b'x', b' '], random)),
        _ => {}
    }
    let mut name = random.pick(&NAMES).as_bytes().to_vec();
    match random.below(10) {
        0 => name.push(*random.pick(b";s \0")),
        1 => name.truncate(random.place(name.len())),
        2 => name = any_bytes(one_of([0, 8, 300], random), random),
        _ => {}
    }
    Asked::Read { address, name, clock: any_clock(records, random) }
}

/// The address of a record, in use or not; where there is none, some address.
fn an_address_there(records: &[Record], random: &mut Random) -> Vec<u8> {
    match random.pick_any(records) {
        Some(record) => record.address().to_vec(),
        None => any_address(random),
    }
}

/// Mostly the latest clock or an end of some record, or one beside it.
fn any_clock(records: &[Record], random: &mut Random) -> u64 {
    let record = random.pick_any(records).unwrap_or(Record::ZERO);
    let ends: Vec<u64> = record.occupied().map(|(_, slot)| slot.end).collect();
    let end = random.pick_any(&ends).unwrap_or(record.latest);
    let latest = record.latest;
    match random.below(16) {
        0 => one_of([0, 1], random),
        1 => one_of([CLOCK_LIMIT - 1, CLOCK_LIMIT], random),
        2 => a_clock_above_the_limit(random),
        3 => latest.saturating_sub(1),
        4..=7 => latest,
        8 | 9 => end.saturating_sub(1),
        10 | 11 => end,
        12 => end.saturating_add(1),
        _ => latest.saturating_add(random.below(4000)),
    }
}

fn a_clock_above_the_limit(random: &mut Random) -> u64 {
    one_of([CLOCK_LIMIT + 1, CLOCK_LIMIT + 1, u64::MAX, CLOCK_LIMIT | 1 << 63], random)
}
