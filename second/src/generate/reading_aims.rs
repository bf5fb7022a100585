//! What a reading is aimed at: record, package and clock, such that it shows
//! what is wanted or is refused for its clock.

use super::random::Random;
use super::reading_wants::Want;
use super::world::{World, LATE};
use crate::packages;
use crate::read_state::shown_slot;
use crate::record::{Record, Slot, CLOCK_LIMIT};
use crate::tags::number_of;

/// Record, package and clock.
pub type Aim = (usize, usize, u64);

/// Whether there are no two publications of that kind just now.
pub fn must_wait(want: Want, world: &World) -> bool {
    match want {
        Want::NewestInLowerSlot => pairs(world, Pair::newest_is_in_lower_slot).is_empty(),
        Want::OtherRefreshed => pairs(world, Pair::other_has_newer_tag).is_empty(),
        Want::NewestRunOut => pairs(world, Pair::newest_ends_first).is_empty(),
        _ => false,
    }
}

/// None where the table has nothing of that kind.
pub fn aim(want: Want, world: &World, random: &mut Random) -> Option<Aim> {
    match want {
        Want::BeforeEnd => about_end(0, world, random),
        Want::AtEnd => about_end(1, world, random),
        Want::PastEnd => about_end(2, world, random),
        Want::NewestInLowerSlot => {
            both_live(&pairs(world, Pair::newest_is_in_lower_slot), world, random)
        }
        Want::OtherRefreshed => both_live(&pairs(world, Pair::other_has_newer_tag), world, random),
        Want::NewestRunOut => newest_run_out(world, random),
        Want::NoneLive => none_live(world, random),
        Want::OtherPackageLive => other_package_live(world, random),
        Want::AtLimit => at_limit(world, random),
        Want::BelowLatest => below_latest(world, random),
        _ => live(world, random),
    }
}

/// One of those found, each record as often as another.
fn pick_by_record<T: Copy>(found: &[(usize, T)], random: &mut Random) -> Option<(usize, T)> {
    let mut records: Vec<usize> = found.iter().map(|&(r, _)| r).collect();
    records.dedup();
    let picked = random.pick_any(&records)?;
    let of_record = found.iter().filter(|&&(r, _)| r == picked);
    random.pick_any(&of_record.copied().collect::<Vec<_>>())
}

/// Publications that are live at their address's latest clock.
fn live_slots(world: &World) -> Vec<(usize, usize)> {
    let mut found = Vec::new();
    for r in world.those(|_| true) {
        let record = world.record(r);
        found.extend(record.live(record.latest).map(|(k, _)| (r, k)));
    }
    found
}

fn live(world: &World, random: &mut Random) -> Option<Aim> {
    let (r, k) = pick_by_record(&live_slots(world), random)?;
    let clock = world.live_clock(r, k, random);
    Some((r, world.record(r).slots[k].package, clock))
}

/// One second before the end of a publication, and that many later.
fn about_end(later: u64, world: &World, random: &mut Random) -> Option<Aim> {
    let mut slots = live_slots(world);
    slots.retain(|&(r, k)| world.record(r).slots[k].end < CLOCK_LIMIT);
    let (r, k) = pick_by_record(&slots, random)?;
    let slot = &world.record(r).slots[k];
    Some((r, slot.package, slot.end - 1 + later))
}

/// Two live publications of one package: the one with the highest body number,
/// and another.
#[derive(Clone, Copy)]
struct Pair<'a> {
    record: &'a Record,
    newest: usize,
    other: usize,
}

impl Pair<'_> {
    fn newest(&self) -> &Slot {
        &self.record.slots[self.newest]
    }

    fn other(&self) -> &Slot {
        &self.record.slots[self.other]
    }

    fn newest_is_in_lower_slot(&self) -> bool {
        self.newest < self.other
    }

    fn newest_ends_first(&self) -> bool {
        self.newest().end < self.other().end && self.newest().end <= CLOCK_LIMIT
    }

    fn other_has_newer_tag(&self) -> bool {
        let number = |slot: &Slot| number_of(self.record.start, slot.tag);
        number(self.newest()) < number(self.other())
    }
}

/// Each with the place of its record.
fn pairs<'a>(world: &'a World, test: fn(&Pair<'a>) -> bool) -> Vec<(usize, Pair<'a>)> {
    let mut found = Vec::new();
    for r in world.those(|_| true) {
        let record = world.record(r);
        for (other, slot) in record.live(record.latest) {
            if let Some(newest) = shown_slot(record, slot.package, record.latest) {
                let pair = Pair {
                    record,
                    newest,
                    other,
                };
                found.push((r, pair));
            }
        }
    }
    found.retain(|(_, pair)| pair.newest != pair.other && test(pair));
    found
}

/// A clock at which both are live.
fn both_live(found: &[(usize, Pair)], world: &World, random: &mut Random) -> Option<Aim> {
    let (r, pair) = pick_by_record(found, random)?;
    let first_to_end = match pair.newest().end < pair.other().end {
        true => pair.newest,
        false => pair.other,
    };
    let clock = world.live_clock(r, first_to_end, random);
    Some((r, pair.newest().package, clock))
}

/// A clock at which the newest body has run out and another has not.
fn newest_run_out(world: &World, random: &mut Random) -> Option<Aim> {
    let (r, pair) = pick_by_record(&pairs(world, Pair::newest_ends_first), random)?;
    let last = (pair.other().end - 1).min(CLOCK_LIMIT);
    let clock = *random.pick(&[pair.newest().end, pair.newest().end, last]);
    Some((r, pair.newest().package, clock))
}

/// A package that never was there, or all of whose publications have run out.
pub fn none_live(world: &World, random: &mut Random) -> Option<Aim> {
    let r = random.pick_any(&world.those(|_| true))?;
    let record = world.record(r);
    let package = random.place(packages::COUNT);
    let occupied = record.occupied().map(|(_, slot)| slot);
    let of_package = occupied.filter(|slot| slot.package == package);
    let last_end = of_package.map(|slot| slot.end).max();
    let from = last_end.unwrap_or(record.latest);
    let clock = from + random.pick(&[0, 0, 1, 4000]);
    Some((r, package, clock.min(CLOCK_LIMIT)))
}

/// None live of that package, but one of another.
fn other_package_live(world: &World, random: &mut Random) -> Option<Aim> {
    let mut found = Vec::new();
    for (r, k) in live_slots(world) {
        let record = world.record(r);
        for package in 0..packages::COUNT {
            if shown_slot(record, package, record.latest).is_none() {
                found.push((r, (k, package)));
            }
        }
    }
    let (r, (k, package)) = pick_by_record(&found, random)?;
    Some((r, package, world.live_clock(r, k, random)))
}

fn at_limit(world: &World, random: &mut Random) -> Option<Aim> {
    let late = world.find(LATE).filter(|_| random.one_in(2));
    let r = late.or_else(|| random.pick_any(&world.those(|_| true)))?;
    Some((r, random.place(packages::COUNT), CLOCK_LIMIT))
}

fn below_latest(world: &World, random: &mut Random) -> Option<Aim> {
    let r = random.pick_any(&world.those(|record| record.latest > 0))?;
    let latest = world.record(r).latest;
    let clock = match random.below(8) {
        0 => 0,
        1 => random.below(latest),
        _ => latest - 1,
    };
    Some((r, random.place(packages::COUNT), clock))
}
