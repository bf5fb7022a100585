//! Requests that need something special: to end a publication, or an address
//! that is full, without a tag left or near the clock's limit.

use super::attempt::{Attempt, Wish};
use super::faults;
use super::random::Random;
use super::world::{World, CROWD, FULL, LATE};
use crate::packages;
use crate::record::{CLOCK_LIMIT, SLOTS};

/// Removal, with a body now and then.
pub fn remove(world: &World, random: &mut Random) -> Attempt {
    Attempt::matching(world, random, |wish, random| {
        let wish = match random.one_in(3) {
            true => wish.with_body(random),
            false => wish,
        };
        wish.of_zero(random)
    })
}

pub fn initial_of_zero(world: &World, random: &mut Random) -> Attempt {
    match world.with_room(random) {
        Some((r, clock)) => {
            let wish = Wish::initial(random).of_zero(random);
            Attempt::new(world, r, clock, &wish, random)
        }
        None => Attempt::initial(world, random),
    }
}

/// Fills one address, then tries a ninth: with all eight live, with one of
/// them just run out, and in ways that need no room.
pub fn crowd(world: &World, random: &mut Random) -> Attempt {
    let r = match world.find(CROWD) {
        Some(r) => r,
        None => return Attempt::initial(world, random),
    };
    let record = world.record(r);
    let live: Vec<_> = record.live(record.latest).collect();
    let mut wish = Wish::initial(random);
    let most = u64::from(packages::MOST[wish.package]);
    wish.expires = Some((600 + random.below(most - 599)).to_string());
    let soon = record.latest + random.below(4);
    let least_end = match live.iter().map(|(_, slot)| slot.end).min() {
        Some(end) if live.len() == SLOTS => end,
        _ => return Attempt::new(world, r, soon, &wish, random),
    };
    let clock = match random.below(10) {
        0 => least_end,
        1 => least_end + 1,
        2 | 3 => least_end - 1,
        4 | 5 => {
            let (k, _) = *random.pick(&live);
            wish = Wish::refresh(world, r, k, random);
            if random.one_in(3) {
                wish = wish.with_body(random);
            }
            record.latest
        }
        6 => {
            wish = wish.of_zero(random);
            record.latest
        }
        _ => soon.min(least_end - 1),
    };
    let mut attempt = Attempt::new(world, r, clock, &wish, random);
    if random.one_in(8) {
        faults::one_more(&mut attempt, world, random);
    }
    attempt
}

/// An address without a tag left: a fresh publication, or one it has still,
/// now and then with a fault besides.
pub fn spent(world: &World, random: &mut Random) -> Attempt {
    let none_left = world.those(|record| record.spent == u32::MAX);
    let full = world.find(FULL).filter(|_| random.one_in(2));
    let r = match full.or_else(|| random.pick_any(&none_left)) {
        Some(r) => r,
        None => return Attempt::initial(world, random),
    };
    let record = world.record(r);
    let live: Vec<usize> = record.live(record.latest).map(|(k, _)| k).collect();
    let wish = match random.pick_any(&live) {
        Some(k) if full.is_none() && random.one_in(2) => Wish::refresh(world, r, k, random),
        _ => Wish::initial(random),
    };
    let mut attempt = Attempt::new(world, r, record.latest, &wish, random);
    if record.spent == u32::MAX && random.one_in(4) {
        faults::one_more(&mut attempt, world, random);
    }
    attempt
}

/// The address whose clock is at the limit, or soon will be.
pub fn late(world: &World, random: &mut Random) -> Attempt {
    let r = match world.find(LATE) {
        Some(r) => r,
        None => return Attempt::initial(world, random),
    };
    let record = world.record(r);
    let clock = CLOCK_LIMIT - random.pick(&[0, 0, 0, 1, 60, 3600]);
    let live: Vec<usize> = record.live(clock).map(|(k, _)| k).collect();
    let wish = match random.pick_any(&live) {
        Some(k) if random.one_in(2) => Wish::refresh(world, r, k, random),
        _ => Wish::initial(random),
    };
    let wish = match random.one_in(3) {
        true => wish.of_zero(random),
        false => wish,
    };
    Attempt::new(world, r, clock, &wish, random)
}
