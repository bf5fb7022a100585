//! The engine run alongside the generator, with what a generator must know of
//! it: which addresses, tags and ends there are now, and which tags there were.

use super::random::Random;
use crate::bench::{Bench, Outcome};
use crate::message::Answer;
use crate::read_state::shown_slot;
use crate::record::{Record, CLOCK_LIMIT, SLOTS};
use crate::table::record_of;
use crate::turn::{take_turn, Turn};

/// The address that is kept full of publications.
pub const CROWD: &[u8] = b"sip:crowd@board.example";
/// The address that has eight publications and then no tag left.
pub const FULL: &[u8] = b"sip:full@board.example";
/// The address whose clock runs up to the limit.
pub const LATE: &[u8] = b"sip:late@board.example;x=y";

const REMEMBERED: usize = 256;

pub struct World {
    pub bench: Bench,
    /// Record and tag of the latest successes.
    pub given: Vec<(usize, u32)>,
}

impl World {
    pub fn new() -> World {
        World {
            bench: Bench::new(),
            given: Vec::new(),
        }
    }

    /// Around records that are there already, whatever gave their tags.
    pub fn holding(records: &[Record]) -> World {
        World {
            bench: Bench {
                records: records.to_vec(),
                store: Vec::new(),
                buffer: Vec::new(),
            },
            given: Vec::new(),
        }
    }

    /// Gives one input line to the engine and remembers the tag it gave.
    pub fn run(&mut self, line: &[u8]) -> Turn {
        let spent: Vec<u32> = self.records().iter().map(|record| record.spent).collect();
        let turn = take_turn(&mut self.bench, line);
        if let Turn::Bench(Outcome::Answered(written)) = turn {
            if let Answer::Ok(success) = written.answer {
                let changed = (0..spent.len()).find(|&r| self.record(r).spent != spent[r]);
                self.remember(changed.unwrap_or(0), success.tag);
            }
        }
        turn
    }

    fn remember(&mut self, r: usize, tag: u32) {
        if self.given.len() == REMEMBERED {
            self.given.remove(0);
        }
        self.given.push((r, tag));
    }

    pub fn records(&self) -> &[Record] {
        &self.bench.records
    }

    pub fn record(&self, r: usize) -> &Record {
        &self.bench.records[r]
    }

    pub fn find(&self, address: &[u8]) -> Option<usize> {
        record_of(self.records(), address)
    }

    /// The records in use that pass a test.
    pub fn those(&self, test: impl Fn(&Record) -> bool) -> Vec<usize> {
        (0..self.records().len())
            .filter(|&r| self.record(r).is_in_use() && test(self.record(r)))
            .collect()
    }

    /// Addresses that are not kept in some special state and have a tag left.
    fn ordinary(&self) -> Vec<usize> {
        self.those(|record| {
            record.address() != CROWD && record.address() != FULL && record.spent < u32::MAX
        })
    }

    /// An address, and a clock for it, at which an initial publication works.
    pub fn with_room(&self, random: &mut Random) -> Option<(usize, u64)> {
        let candidates = self.ordinary();
        for _ in 0..8 {
            let r = random.pick_any(&candidates)?;
            let clock = self.clock_for(r, random);
            if self.record(r).live(clock).count() < SLOTS {
                return Some((r, clock));
            }
        }
        None
    }

    /// A publication that is live at its address's latest clock; now and then
    /// one whose body is older than another's of its package.
    pub fn live_slot(&self, random: &mut Random) -> Option<(usize, usize)> {
        let (mut found, mut older) = (Vec::new(), Vec::new());
        for r in self.ordinary() {
            let record = self.record(r);
            for (k, slot) in record.live(record.latest) {
                found.push((r, k));
                if shown_slot(record, slot.package, record.latest) != Some(k) {
                    older.push((r, k));
                }
            }
        }
        let older = random.pick_any(&older).filter(|_| random.one_in(3));
        older.or_else(|| random.pick_any(&found))
    }

    /// A clock not below the latest: often near it, often near some end.
    pub fn clock_for(&self, r: usize, random: &mut Random) -> u64 {
        clock_for(self.record(r), random)
    }

    /// A clock at which that publication is live, often the last one.
    pub fn live_clock(&self, r: usize, k: usize, random: &mut Random) -> u64 {
        live_clock(self.record(r), k, random)
    }

    /// Whether that tag text names a live publication of that package.
    pub fn is_live(&self, r: usize, package: usize, tag: &[u8], clock: u64) -> bool {
        self.record(r)
            .live(clock)
            .any(|(_, slot)| slot.package == package && crate::tags::presents(tag, slot.tag))
    }
}

pub fn clock_for(record: &Record, random: &mut Random) -> u64 {
    let ends: Vec<u64> = record.occupied().map(|(_, slot)| slot.end).collect();
    let clock = match (random.below(10), random.pick_any(&ends)) {
        (0, _) => record.latest,
        (1 | 2, Some(end)) => end.saturating_sub(1) + random.below(3),
        (3, _) => record.latest + random.below(700),
        (4, _) => record.latest + random.below(8000),
        _ => record.latest + random.below(40),
    };
    clock.max(record.latest).min(CLOCK_LIMIT)
}

/// The slot must be live at the latest clock.
pub fn live_clock(record: &Record, k: usize, random: &mut Random) -> u64 {
    let last = (record.slots[k].end - 1).min(CLOCK_LIMIT);
    let span = last - record.latest;
    match random.below(4) {
        0 => last,
        1 => record.latest,
        2 => record.latest + random.below(span + 1),
        _ => record.latest + random.below(span.min(30) + 1),
    }
}
