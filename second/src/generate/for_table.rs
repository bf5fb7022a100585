//! Requests for a table at hand, whatever its history: for its addresses, with
//! the tags of its publications, at clocks near their ends; some of them good,
//! some with faults, some with bytes or lines changed.

use super::attempt::{Attempt, Wish};
use super::faults::{self, pad_lines};
use super::lines::{lengthen, mutate};
use super::mutations::{mutate_lines, scrap};
use super::random::Random;
use super::special;
use super::world::World;
use crate::record::Record;
use crate::request::MOST_HEADER_LINES;

/// A clock and a request. The records must be sound.
pub fn request_for(records: &[Record], random: &mut Random) -> (u64, Vec<u8>) {
    let world = World::holding(records);
    let mut attempt = any_attempt(&world, random);
    match random.below(24) {
        0 => pad_lines(&mut attempt, MOST_HEADER_LINES, random),
        1 => lengthen(&mut attempt, random),
        2 => {
            lengthen(&mut attempt, random);
            attempt.draft.rest.push(b'z');
        }
        _ => {}
    }
    let bytes = attempt.draft.bytes();
    (attempt.clock, perhaps_mutated(bytes, random))
}

fn any_attempt(world: &World, random: &mut Random) -> Attempt {
    match random.below(16) {
        0..=4 => {
            let fault = *random.pick(&faults::ALL);
            faults::single(fault, world, random)
        }
        5 | 6 => faults::several(world, random),
        7 => Attempt::initial(world, random),
        8 => Attempt::matching(world, random, |wish, _| wish),
        9 => Attempt::matching(world, random, Wish::with_body),
        10 => special::remove(world, random),
        11 => special::initial_of_zero(world, random),
        12 | 13 => special::crowd(world, random),
        14 => special::spent(world, random),
        _ => special::late(world, random),
    }
}

fn perhaps_mutated(mut bytes: Vec<u8>, random: &mut Random) -> Vec<u8> {
    match random.below(40) {
        0..=3 => {
            for _ in 0..1 + random.below(3) {
                mutate(&mut bytes, random);
            }
            bytes
        }
        4 | 5 => mutate_lines(&bytes, random),
        6 => scrap(&bytes, random),
        _ => bytes,
    }
}

#[cfg(test)]
mod tests {
    use super::*;
    use crate::table::{add, PART_SIZE};

    #[test]
    fn a_table_without_addresses_has_requests_too() {
        let mut random = Random::new(1);
        for _ in 0..200 {
            request_for(&[], &mut random);
            request_for(&[Record::ZERO; 2], &mut random);
        }
    }

    #[test]
    fn most_requests_name_an_address_of_the_table() {
        let mut random = Random::new(2);
        let mut records = [Record::ZERO];
        let mut store = [0; PART_SIZE];
        add(&mut records, &mut store, 0, 0, b"sip:zoe@board.example");
        let named = (0..200)
            .map(|_| request_for(&records, &mut random).1)
            .filter(|bytes| bytes.starts_with(b"PUBLISH sip:zoe@board.example "));
        assert!((100..200).contains(&named.count()));
    }
}
