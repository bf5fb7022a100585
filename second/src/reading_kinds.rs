//! Kinds of reading state that a wrong program may get wrong. One reading can
//! be of several kinds, or of none.

use crate::packages::{package_named, NAMES};
use crate::read_state::{shown_slot, NotShown, Shown};
use crate::reading_in::Reading;
use crate::record::{Record, Slot, CLOCK_LIMIT};
use crate::table::record_of;
use crate::tags::number_of;

/// One reading, what came of it, and the records it was made of.
pub struct Case<'a> {
    pub records: &'a [Record],
    pub reading: &'a Reading,
    pub read: &'a Result<Shown, NotShown>,
}

type Test = fn(&Case) -> bool;

pub const KINDS: [(&str, Test); 21] = [
    ("read-at-end-minus-1", |case| {
        case.slots().any(|slot| slot.end == case.clock() + 1)
    }),
    ("read-at-end", |case| {
        case.slots().any(|slot| slot.end == case.clock())
    }),
    ("read-at-end-plus-1", |case| {
        case.slots().any(|slot| slot.end + 1 == case.clock())
    }),
    ("read-at-latest", |case| {
        case.answered()
            .map_or(false, |(record, _)| case.clock() == record.latest)
    }),
    ("read-at-limit", |case| {
        case.answered().is_some() && case.clock() == CLOCK_LIMIT
    }),
    ("read-two-live", |case| case.others().next().is_some()),
    ("read-two-live-newest-in-lower-slot", |case| {
        case.others().any(|(shown, other)| shown < other)
    }),
    ("read-two-live-other-refreshed", other_refreshed),
    ("read-newest-run-out", newest_run_out),
    ("read-default-empty", |case| {
        case.is_default() && case.reading.default.is_empty()
    }),
    ("read-default-not-empty", |case| {
        case.is_default() && !case.reading.default.is_empty()
    }),
    ("read-default-other-package-live", |case| {
        case.is_default() && case.any_live()
    }),
    ("read-4-limit-plus-1", |case| {
        case.clock() == CLOCK_LIMIT + 1
    }),
    ("read-4-huge", |case| case.clock() >= 1 << 63),
    ("read-4-not-known", |case| {
        case.is(NotShown::ClockAboveLimit) && (case.record().is_none() || case.package().is_none())
    }),
    ("read-10-address-other-case", |case| {
        case.is(NotShown::AddressNotKnown)
            && case
                .addresses()
                .any(|known| known.eq_ignore_ascii_case(&case.reading.address))
    }),
    ("read-10-address-zero-behind", |case| {
        case.is(NotShown::AddressNotKnown)
            && case
                .addresses()
                .any(|known| has_behind(&case.reading.address, known, b"\0"))
    }),
    ("read-10-package-other-case", |case| {
        case.is(NotShown::PackageNotKnown)
            && names().any(|known| known.eq_ignore_ascii_case(&case.reading.package))
    }),
    ("read-10-package-more-behind", |case| {
        case.is(NotShown::PackageNotKnown)
            && names().any(|known| has_behind(&case.reading.package, known, b"; \t"))
    }),
    ("read-10-clock-below-latest", |case| {
        case.is(NotShown::PackageNotKnown)
            && case
                .record()
                .map_or(false, |record| case.clock() < record.latest)
    }),
    ("read-11-latest-minus-1", |case| {
        case.is(NotShown::ClockBelowLatest)
            && case
                .record()
                .map_or(false, |record| case.clock() + 1 == record.latest)
    }),
];

impl<'a> Case<'a> {
    fn clock(&self) -> u64 {
        self.reading.clock
    }

    fn is(&self, why: NotShown) -> bool {
        *self.read == Err(why)
    }

    fn is_default(&self) -> bool {
        *self.read == Ok(Shown::Default)
    }

    fn record(&self) -> Option<&'a Record> {
        record_of(self.records, &self.reading.address).map(|r| &self.records[r])
    }

    fn package(&self) -> Option<usize> {
        package_named(&self.reading.package)
    }

    fn addresses(&self) -> impl Iterator<Item = &'a [u8]> {
        let in_use = self.records.iter().filter(|record| record.is_in_use());
        in_use.map(|record| record.address())
    }

    /// Record and package of a reading with result 0.
    fn answered(&self) -> Option<(&'a Record, usize)> {
        self.read.ok()?;
        Some((self.record()?, self.package()?))
    }

    /// The occupied slots of that package, of a reading with result 0.
    fn slots(&self) -> impl Iterator<Item = &'a Slot> {
        let answered = self.answered().into_iter();
        answered.flat_map(|(record, package)| {
            let of_package = move |slot: &&Slot| slot.package == package;
            record.occupied().map(|(_, slot)| slot).filter(of_package)
        })
    }

    /// The place of the slot that is shown, with that of each other live one of
    /// that package.
    fn others(&self) -> impl Iterator<Item = (usize, usize)> + 'a {
        let clock = self.clock();
        let answered = self.answered().into_iter();
        answered.flat_map(move |(record, package)| {
            let shown = shown_slot(record, package, clock);
            let of_package = record
                .live(clock)
                .filter(move |(_, slot)| slot.package == package);
            of_package.filter_map(move |(k, _)| Some((shown?, k)).filter(|(shown, k)| shown != k))
        })
    }

    fn any_live(&self) -> bool {
        let record = self.record();
        record.map_or(false, |record| record.live(self.clock()).next().is_some())
    }
}

/// Another live publication has a newer tag, but an older body.
fn other_refreshed(case: &Case) -> bool {
    let number = |record: &Record, k: usize| number_of(record.start, record.slots[k].tag);
    case.answered().map_or(false, |(record, _)| {
        case.others()
            .any(|(shown, other)| number(record, shown) < number(record, other))
    })
}

/// A body is shown, but one that has run out has a higher number.
fn newest_run_out(case: &Case) -> bool {
    let newest = case.slots().max_by_key(|slot| slot.body_number);
    matches!(case.read, Ok(Shown::Store { .. }))
        && newest.map_or(false, |slot| !slot.is_live(case.clock()))
}

fn names() -> impl Iterator<Item = &'static [u8]> {
    NAMES.iter().map(|name| name.as_bytes())
}

/// Whether that is a known name with one of these bytes behind it.
fn has_behind(given: &[u8], known: &[u8], bytes: &[u8]) -> bool {
    let behind = given.strip_prefix(known).and_then(|rest| rest.first());
    behind.map_or(false, |byte| bytes.contains(byte))
}
