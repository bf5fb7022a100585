//! Frames that read state: about the ends of publications, where several are
//! live or none, for what is not known, at clocks that are refused, and frames
//! that are not whole.

use super::lines::mutate;
use super::random::Random;
use super::reading_aims::{aim, none_live};
use super::reading_names::*;
use super::reading_wants::Want;
use super::world::World;
use crate::frames_in::{LEAST_BYTES, MOST_DIGITS};
use crate::frames_out::reading_frame;
use crate::packages;
use crate::reading_in::{Lack, Reading};
use crate::record::CLOCK_LIMIT;

pub fn frame(want: Want, world: &World, random: &mut Random) -> Vec<u8> {
    match want {
        Want::Lacking(lack) => lacking(lack, world, random),
        Want::Odd => odd(world, random),
        _ => reading_frame(&reading(want, world, random)),
    }
}

fn reading(want: Want, world: &World, random: &mut Random) -> Reading {
    let aim = aim(want, world, random).or_else(|| none_live(world, random));
    let (address, package, clock) = match aim {
        Some((r, package, clock)) => (world.record(r).address().to_vec(), package, clock),
        None => (b"nobody".to_vec(), 0, random.below(1000)),
    };
    let mut reading = Reading {
        clock,
        address,
        package: packages::NAMES[package].as_bytes().to_vec(),
        default: default_body(random),
    };
    spoil(&mut reading, want, package, world, random);
    reading
}

/// Changes a reading of what is there to one that is refused.
fn spoil(reading: &mut Reading, want: Want, package: usize, world: &World, random: &mut Random) {
    match want {
        Want::JustAboveLimit => reading.clock = CLOCK_LIMIT + 1,
        Want::HugeClock => {
            reading.clock = *random.pick(&[u64::MAX, 1 << 63, reading.clock | 1 << 63])
        }
        Want::AddressInOtherCase => reading.address = address_in_other_case(world, random),
        Want::AddressWithZeroBehind => {
            reading.address = address_with_zero_behind(&reading.address, random)
        }
        Want::PackageInOtherCase => reading.package = package_in_other_case(package, random),
        Want::PackageWithMoreBehind => reading.package = package_with_more_behind(package, random),
        Want::NotKnown => not_known(reading, package, world, random),
        _ => return,
    }
    one_more_fault(reading, want, package, world, random);
}

fn not_known(reading: &mut Reading, package: usize, world: &World, random: &mut Random) {
    match random.below(3) {
        0 | 1 => reading.address = unknown_address(&reading.address, world, random),
        _ => reading.package = unknown_package(package, random),
    }
}

/// Often a second reason to refuse, so that the order of the results shows.
fn one_more_fault(
    reading: &mut Reading,
    want: Want,
    package: usize,
    world: &World,
    random: &mut Random,
) {
    if random.one_in(4) {
        return;
    }
    match (want, world.find(&reading.address)) {
        (Want::JustAboveLimit | Want::HugeClock, _) => not_known(reading, package, world, random),
        (_, Some(r)) if world.record(r).latest > 0 => reading.clock = world.record(r).latest - 1,
        _ => {}
    }
}

/// Empty, short, as long as a body may be, or longer.
fn default_body(random: &mut Random) -> Vec<u8> {
    let length = match random.below(10) {
        0..=3 => 0,
        4 => 512,
        5 => 513 + random.place(200),
        _ => 1 + random.place(40),
    };
    random.bytes(length)
}

/// A frame that ends too early, or whose lengths say too much.
fn lacking(lack: Lack, world: &World, random: &mut Random) -> Vec<u8> {
    let reading = reading(Want::Live, world, random);
    let mut frame = reading_frame(&reading);
    let address_at = LEAST_BYTES + 1;
    let package_at = address_at + reading.address.len() + 1;
    match lack {
        Lack::AddressLength => frame.truncate(LEAST_BYTES),
        Lack::Address => cut(&mut frame, address_at, reading.address.len(), random),
        Lack::PackageLength => frame.truncate(package_at - 1),
        Lack::Package => cut(&mut frame, package_at, reading.package.len(), random),
    }
    frame
}

/// Makes the length before that place say more than is there: by one, by as
/// much as can be, or by whatever the frame ends too early.
fn cut(frame: &mut Vec<u8>, at: usize, length: usize, random: &mut Random) {
    let there = frame.len() - at;
    match random.below(3) {
        0 if there < LONGEST_NAME => frame[at - 1] = there as u8 + 1,
        1 if there < LONGEST_NAME => frame[at - 1] = LONGEST_NAME as u8,
        _ => frame.truncate(at + random.place(length)),
    }
}

/// As long as a frame may be, longer, or with some bytes changed.
fn odd(world: &World, random: &mut Random) -> Vec<u8> {
    let mut frame = reading_frame(&reading(Want::Live, world, random));
    match random.below(6) {
        0 => frame.resize(MOST_DIGITS / 2, b'd'),
        1 => frame.resize(MOST_DIGITS / 2 + 1, b'd'),
        _ => {
            let mut rest = frame.split_off(LEAST_BYTES);
            for _ in 0..1 + random.below(3) {
                mutate(&mut rest, random);
            }
            frame.extend_from_slice(&rest);
        }
    }
    frame
}
