//! The steps of a life, each made into the bytes of a line. A step for which
//! the life has nothing becomes a fresh publication.

use super::random::Random;
use super::scene::Scene;
use super::spelling::{nearly, spelled};
use super::values;
use super::world::{clock_for, live_clock};
use crate::packages;
use crate::record::{Slot, CLOCK_LIMIT};
use crate::script_in::Publication;
use crate::script_out::{publication_bytes, show_bytes};
use crate::tags::tag_of;

#[derive(Clone, Copy, Debug, PartialEq, Eq)]
pub enum Step {
    /// No tag and a body.
    Initial,
    /// The same, and live for long.
    Fresh,
    InitialOfZero,
    /// Fresh ones soon after each other, so that eight are live.
    FillUp,
    /// One more, about the time at which the first of those runs out.
    Ninth,
    Refresh,
    /// Always of the lowest live slot.
    OnAndOn,
    Modify,
    /// A body shorter than the one there.
    Shorter,
    Remove,
    /// With the clock one below an end, at it or one above.
    AtAnEnd,
    /// With the clock below the latest.
    Back,
    /// The tag of a live publication, but of another package.
    OtherPackage,
    /// A tag that was given and holds no more, or one not given yet.
    Stale,
    Mangled,
    /// Neither tag nor body.
    Neither,
    Show,
    /// With the clock at its limit or near it.
    Late,
    Bad,
}

pub fn bytes_of(step: Step, scene: &Scene, random: &mut Random) -> Vec<u8> {
    match step {
        Step::Show | Step::Bad => show(scene, random),
        _ => publication_bytes(&publication(step, scene, random)),
    }
}

pub fn publication(step: Step, scene: &Scene, random: &mut Random) -> Publication {
    let made = match step {
        Step::Fresh => Some(fresh(scene, random)),
        Step::InitialOfZero => Some(initial_of_zero(scene, random)),
        Step::FillUp => Some(fill_up(scene, random)),
        Step::Ninth => Some(ninth(scene, random)),
        Step::Refresh => refresh(scene, random),
        Step::OnAndOn => on_and_on(scene, random),
        Step::Modify => modify(scene, random),
        Step::Shorter => shorter(scene, random),
        Step::Remove => remove(scene, random),
        Step::AtAnEnd => at_an_end(scene, random),
        Step::Back => back(scene, random),
        Step::OtherPackage => other_package(scene, random),
        Step::Stale => stale(scene, random),
        Step::Mangled => mangled(scene, random),
        Step::Neither => Some(neither(scene, random)),
        Step::Late => Some(late(scene, random)),
        Step::Initial | Step::Show | Step::Bad => None,
    };
    made.unwrap_or_else(|| initial(scene, random))
}

fn initial(scene: &Scene, random: &mut Random) -> Publication {
    let package = random.place(packages::COUNT);
    Publication {
        clock: clock_for(scene.record(), random),
        package,
        granted: granted(package, random),
        token: Vec::new(),
        body: values::body(random),
    }
}

/// Above 0, and below the package's least now and then.
fn granted(package: usize, random: &mut Random) -> u32 {
    let (least, most) = (packages::LEAST[package], packages::MOST[package]);
    match random.below(8) {
        0 => 1,
        1 => least,
        2 | 3 => most,
        4 => most - 1,
        _ => 1 + random.below(u64::from(most)) as u32,
    }
}

fn fresh(scene: &Scene, random: &mut Random) -> Publication {
    let mut made = initial(scene, random);
    made.granted = packages::MOST[made.package] - random.below(600) as u32;
    made
}

fn initial_of_zero(scene: &Scene, random: &mut Random) -> Publication {
    let mut made = initial(scene, random);
    made.granted = 0;
    made
}

fn fill_up(scene: &Scene, random: &mut Random) -> Publication {
    let mut made = fresh(scene, random);
    made.clock = (scene.record().latest + random.below(3)).min(CLOCK_LIMIT);
    made
}

fn ninth(scene: &Scene, random: &mut Random) -> Publication {
    let record = scene.record();
    let mut made = fresh(scene, random);
    let least_end = record.live(record.latest).map(|(_, slot)| slot.end).min();
    let about = match (least_end, random.below(5)) {
        (Some(end), 0 | 1) => end - 1,
        (Some(end), 2) => end,
        (Some(end), 3) => end + 1,
        _ => record.latest,
    };
    made.clock = about.clamp(record.latest, CLOCK_LIMIT);
    made
}

/// A refresh of that slot, while it is live.
fn refresh_of(k: usize, slot: &Slot, scene: &Scene, random: &mut Random) -> Publication {
    Publication {
        clock: live_clock(scene.record(), k, random),
        package: slot.package,
        granted: granted(slot.package, random),
        token: spelled(slot.tag, random),
        body: Vec::new(),
    }
}

fn refresh(scene: &Scene, random: &mut Random) -> Option<Publication> {
    let (k, slot) = scene.live_slot(random)?;
    Some(refresh_of(k, &slot, scene, random))
}

fn on_and_on(scene: &Scene, random: &mut Random) -> Option<Publication> {
    let record = scene.record();
    let (k, slot) = record.live(record.latest).next()?;
    Some(refresh_of(k, slot, scene, random))
}

fn modify(scene: &Scene, random: &mut Random) -> Option<Publication> {
    let mut made = refresh(scene, random)?;
    made.body = values::body(random);
    Some(made)
}

fn shorter(scene: &Scene, random: &mut Random) -> Option<Publication> {
    let (k, slot) = scene.live_slot_with(random, |slot| slot.body_length > 1)?;
    let mut made = refresh_of(k, &slot, scene, random);
    let length = match random.one_in(3) {
        true => slot.body_length - 1,
        false => 1 + random.place(slot.body_length - 1),
    };
    made.body = random.bytes(length);
    Some(made)
}

/// Granted 0, with a body now and then.
fn remove(scene: &Scene, random: &mut Random) -> Option<Publication> {
    let mut made = match random.one_in(3) {
        true => modify(scene, random)?,
        false => refresh(scene, random)?,
    };
    made.granted = 0;
    Some(made)
}

/// With that publication's tag, or with none.
fn at_an_end(scene: &Scene, random: &mut Random) -> Option<Publication> {
    let (k, slot) = scene.live_slot(random)?;
    let mut made = match random.one_in(3) {
        true => initial(scene, random),
        false => refresh_of(k, &slot, scene, random),
    };
    made.clock = (slot.end - 1 + random.below(3)).min(CLOCK_LIMIT);
    Some(made)
}

/// In other ways right, or not.
fn back(scene: &Scene, random: &mut Random) -> Option<Publication> {
    let latest = scene.record().latest;
    if latest == 0 {
        return None;
    }
    let steps = [Step::Initial, Step::Refresh, Step::Stale, Step::Neither];
    let step = *random.pick(&steps);
    let mut made = publication(step, scene, random);
    made.clock = match random.below(4) {
        0 => 0,
        1 => random.below(latest),
        _ => latest - 1,
    };
    Some(made)
}

fn other_package(scene: &Scene, random: &mut Random) -> Option<Publication> {
    let mut made = modify(scene, random)?;
    made.package = (made.package + 1 + random.place(2)) % packages::COUNT;
    made.granted = granted(made.package, random);
    Some(made)
}

/// With a body or without, and with time granted or not.
fn stale(scene: &Scene, random: &mut Random) -> Option<Publication> {
    let record = scene.record();
    let next = tag_of(record.start, record.spent.wrapping_add(1));
    let tag = match random.one_in(4) {
        true => next,
        false => random.pick_any(&scene.given)?,
    };
    let mut made = initial(scene, random);
    if random.one_in(2) {
        made.body.clear();
    }
    if random.one_in(4) {
        made.granted = 0;
    }
    made.token = spelled(tag, random);
    Some(made)
}

/// A tag that is the right one, but for its spelling.
fn mangled(scene: &Scene, random: &mut Random) -> Option<Publication> {
    let step = *random.pick(&[Step::Refresh, Step::Modify, Step::Remove]);
    let mut made = publication(step, scene, random);
    let token = &mut made.token;
    match random.below(9) {
        0 | 1 => *token = nearly(token, random),
        2 => token.truncate(7),
        3 => token.reverse(),
        4 => token.push(b'0'),
        5 => token.insert(0, b'0'),
        6 => token.clear(),
        7 => token.resize(255, b'0'),
        _ => *token = random.bytes(8),
    }
    Some(made)
}

fn neither(scene: &Scene, random: &mut Random) -> Publication {
    let step = *random.pick(&[Step::Initial, Step::InitialOfZero, Step::FillUp]);
    let mut made = publication(step, scene, random);
    made.body.clear();
    made
}

fn late(scene: &Scene, random: &mut Random) -> Publication {
    let latest = scene.record().latest;
    let mut made = initial(scene, random);
    made.clock = (CLOCK_LIMIT - random.pick(&[0, 0, 1, 60, 3600])).max(latest);
    made
}

/// Reading state at the latest clock, about an end, or at any clock at all.
fn show(scene: &Scene, random: &mut Random) -> Vec<u8> {
    let record = scene.record();
    let ends: Vec<u64> = record.occupied().map(|(_, slot)| slot.end).collect();
    let clock = match (random.below(12), random.pick_any(&ends)) {
        (0..=3, Some(end)) => end - 1 + random.below(3),
        (4, _) => random.below(record.latest + 1),
        (5, _) => *random.pick(&[0, CLOCK_LIMIT, CLOCK_LIMIT + 1, u64::MAX]),
        (6 | 7, _) => record.latest + random.below(4000),
        _ => record.latest,
    };
    let event = match random.below(24) {
        0 => *random.pick(&[3, 4, 255]),
        number => (number % 3) as u8,
    };
    show_bytes(clock, event)
}
