//! Addresses and packages that are not known, most of them nearly known ones.

use super::random::Random;
use super::values;
use super::world::World;
use crate::packages::{package_named, NAMES};

/// The longest name that a reading can have.
pub const LONGEST_NAME: usize = 255;

/// A known address in other letters, such that it is not known.
pub fn address_in_other_case(world: &World, random: &mut Random) -> Vec<u8> {
    let mut found: Vec<Vec<u8>> = Vec::new();
    for r in world.those(|_| true) {
        let address = world.record(r).address();
        found.push(address.to_ascii_uppercase());
        found.push(address.to_ascii_lowercase());
        found.push(other_first_letter(address));
    }
    found.retain(|address| world.find(address).is_none());
    match found.is_empty() {
        true => b"NOBODY".to_vec(),
        false => random.pick(&found).clone(),
    }
}

fn other_first_letter(name: &[u8]) -> Vec<u8> {
    let mut name = name.to_vec();
    if let Some(letter) = name.iter_mut().find(|byte| byte.is_ascii_alphabetic()) {
        *letter ^= 32;
    }
    name
}

/// A known address and zero bytes, as a record holds it, or one and more.
pub fn address_with_zero_behind(known: &[u8], random: &mut Random) -> Vec<u8> {
    let mut address = known.to_vec();
    address.push(0);
    match random.below(4) {
        0 => address.resize(64.max(address.len()), 0),
        1 => address.push(b'x'),
        _ => {}
    }
    address
}

/// Another address that is not known; while a record is unused, often the empty
/// one, which that record holds.
pub fn unknown_address(known: &[u8], world: &World, random: &mut Random) -> Vec<u8> {
    let unused = world.records().iter().any(|record| !record.is_in_use());
    if unused && random.one_in(2) {
        return Vec::new();
    }
    let mut address = known.to_vec();
    match random.below(8) {
        0 => address.clear(),
        1 => address.push(b'x'),
        2 => {
            address.pop();
        }
        3 => address.insert(0, b' '),
        4 => address.push(b';'),
        5 => address.resize(LONGEST_NAME, b'~'),
        6 => address.resize(128.max(address.len()), b'a'),
        _ => address = b"sip:nobody@board.example".to_vec(),
    }
    match world.find(&address) {
        Some(_) => b"nobody".to_vec(),
        None => address,
    }
}

pub fn package_in_other_case(package: usize, random: &mut Random) -> Vec<u8> {
    let mut name = NAMES[package].as_bytes().to_vec();
    match random.below(3) {
        0 => name.make_ascii_uppercase(),
        1 => name[0].make_ascii_uppercase(),
        _ => {
            let last = name.len() - 1;
            name[last].make_ascii_uppercase();
        }
    }
    name
}

/// What an Event value may have behind the package.
pub fn package_with_more_behind(package: usize, random: &mut Random) -> Vec<u8> {
    let more = [";", ";id=1", " ", "\t", " ;x", ";;", " dialog"];
    format!("{}{}", NAMES[package], random.pick(&more)).into_bytes()
}

/// Another package that is not known.
pub fn unknown_package(package: usize, random: &mut Random) -> Vec<u8> {
    let name = NAMES[package].as_bytes();
    let unknown = match random.below(6) {
        0 => [name, b"\0"].concat(),
        1 => [b" ", name].concat(),
        2 => name[..name.len() - 1].to_vec(),
        3 => name.iter().copied().cycle().take(LONGEST_NAME).collect(),
        _ => random.pick(values::EVENTS_NOT_LISTED).as_bytes().to_vec(),
    };
    debug_assert!(package_named(&unknown).is_none());
    unknown
}
