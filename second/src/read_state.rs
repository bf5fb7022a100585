//! "Reading state": the body to show for an address and a package.

use crate::packages::package_named;
use crate::results::*;
use crate::sound::all_sound;
use crate::table::*;

/// What is shown with result 0.
#[derive(Clone, Copy, Debug, PartialEq, Eq)]
pub enum Shown {
    /// A part of the store, its place counted from the store's begin.
    Store { at: usize, length: usize },
    /// The whole default body.
    Default,
}

/// Why only the empty front part of the default is shown.
#[derive(Clone, Copy, Debug, PartialEq, Eq)]
pub enum NotShown {
    WrongSizes,
    ClockAboveLimit,
    NotSound,
    AddressNotKnown,
    PackageNotKnown,
    ClockBelowLatest,
}

impl NotShown {
    pub fn result(&self) -> u8 {
        match self {
            NotShown::WrongSizes => WRONG_SIZES,
            NotShown::ClockAboveLimit => CLOCK_ABOVE_LIMIT,
            NotShown::NotSound => NOT_SOUND,
            NotShown::AddressNotKnown | NotShown::PackageNotKnown => NOT_KNOWN,
            NotShown::ClockBelowLatest => CLOCK_BELOW_LATEST,
        }
    }
}

/// The body of that package's live publication with the highest body number,
/// as a part of the store; with none live, the whole default body. A refusal
/// shows the empty front part of the default.
pub fn read_state<'a>(
    records: &[Record],
    store: &'a [u8],
    address: &[u8],
    package: &[u8],
    clock: u64,
    default: &'a [u8],
) -> (u8, &'a [u8]) {
    match state_shown(records, store, address, package, clock) {
        Err(why) => (why.result(), &default[..0]),
        Ok(Shown::Default) => (DONE, default),
        Ok(Shown::Store { at, length }) => (DONE, &store[at..at + length]),
    }
}

/// The same by its place: which part of the store, or the default.
pub fn state_shown(
    records: &[Record],
    store: &[u8],
    address: &[u8],
    package: &[u8],
    clock: u64,
) -> Result<Shown, NotShown> {
    if !sizes_are_right(records, store) {
        return Err(NotShown::WrongSizes);
    }
    if clock > CLOCK_LIMIT {
        return Err(NotShown::ClockAboveLimit);
    }
    if !all_sound(records) {
        return Err(NotShown::NotSound);
    }
    let r = record_of(records, address).ok_or(NotShown::AddressNotKnown)?;
    let package = package_named(package).ok_or(NotShown::PackageNotKnown)?;
    let record = &records[r];
    if clock < record.latest {
        return Err(NotShown::ClockBelowLatest);
    }
    Ok(match shown_slot(record, package, clock) {
        None => Shown::Default,
        Some(k) => Shown::Store {
            at: body_place(r, k),
            length: record.slots[k].body_length,
        },
    })
}

/// The slot of that package's live publication with the highest body number.
pub fn shown_slot(record: &Record, package: usize, clock: u64) -> Option<usize> {
    record
        .live(clock)
        .filter(|(_, slot)| slot.package == package)
        .max_by_key(|(_, slot)| slot.body_number)
        .map(|(k, _)| k)
}
