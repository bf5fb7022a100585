//! Tags to present that match nothing, most of them nearly right.

use super::attempt::Attempt;
use super::random::Random;
use super::spelling::{nearly_as_token, spelled};
use super::world::World;
use crate::record::CLOCK_LIMIT;
use crate::tags::tag_of;

/// A tag of the past, of elsewhere, of the future, run out or misspelled.
/// Empty where there is none of that kind.
pub fn dead_tag(attempt: &mut Attempt, r: usize, world: &World, random: &mut Random) -> Vec<u8> {
    let record = world.record(r);
    let package = attempt.package;
    let occupied: Vec<_> = record.occupied().map(|(_, slot)| *slot).collect();
    let found = match random.below(9) {
        0 => random.pick_any(&given_tags(world, |by| by == r)),
        1 => random.pick_any(&given_tags(world, |by| by != r)),
        2 => random.pick_any(&tags_elsewhere(world, r)),
        3 => Some(tag_of(record.start, record.spent.wrapping_add(1))),
        4 => occupied
            .iter()
            .find(|slot| slot.package != package)
            .map(|slot| slot.tag),
        5 => random.pick_any(&occupied).map(|slot| {
            attempt.clock = (slot.end + random.below(2)).clamp(record.latest, CLOCK_LIMIT);
            slot.tag
        }),
        _ => return misspelled_tag(attempt, r, world, random),
    };
    found.map_or(Vec::new(), |tag| spelled(tag, random))
}

/// A tag that would be the right one, but for its spelling.
fn misspelled_tag(attempt: &Attempt, r: usize, world: &World, random: &mut Random) -> Vec<u8> {
    let live = world.record(r).live(attempt.clock);
    let right: Vec<u32> = live
        .filter(|(_, slot)| slot.package == attempt.package)
        .map(|(_, slot)| slot.tag)
        .collect();
    let tag = random.pick_any(&right);
    tag.map_or(Vec::new(), |tag| misspelled(tag, random))
}

fn given_tags(world: &World, by: impl Fn(usize) -> bool) -> Vec<u32> {
    let given = world.given.iter().filter(|(r, _)| by(*r));
    given.map(|&(_, tag)| tag).collect()
}

/// The tags that other addresses have now.
fn tags_elsewhere(world: &World, r: usize) -> Vec<u32> {
    let others = world
        .records()
        .iter()
        .enumerate()
        .filter(|&(by, _)| by != r);
    let slots = others.flat_map(|(_, record)| record.occupied());
    slots.map(|(_, slot)| slot.tag).collect()
}

fn misspelled(tag: u32, random: &mut Random) -> Vec<u8> {
    let mut text = spelled(tag, random);
    match random.below(6) {
        0 | 1 => text = nearly_as_token(tag, random),
        2 => {
            text.pop();
        }
        3 => {
            text.remove(0);
        }
        4 => text.insert(0, b'0'),
        _ => text.push(b'0'),
    }
    text
}
