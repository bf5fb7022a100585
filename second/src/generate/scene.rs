//! The lives run alongside the generator of scripts, with what it must know of
//! them: the record as it is now, and the tags that were given.

use super::random::Random;
use crate::life::{Happening, Life, Lives};
use crate::record::{Record, Slot};
use crate::script_in::read_script_line;

static NO_RECORD: Record = Record::ZERO;

pub struct Scene {
    lives: Lives,
    /// The tags that this life gave.
    pub given: Vec<u32>,
}

impl Scene {
    pub fn new() -> Scene {
        Scene {
            lives: Lives::default(),
            given: Vec::new(),
        }
    }

    /// Gives one line to the life and remembers the tag it gave.
    pub fn run(&mut self, line: &[u8]) -> Happening {
        let happening = self.lives.run(&read_script_line(line));
        match happening {
            Happening::Begins => self.given.clear(),
            Happening::Gives { tag, .. } => self.given.push(tag),
            _ => {}
        }
        happening
    }

    /// The record of this life; an empty one before the first.
    pub fn record(&self) -> &Record {
        self.lives.life.as_ref().map_or(&NO_RECORD, Life::record)
    }

    /// A slot that is live at the latest clock, if there is one.
    pub fn live_slot(&self, random: &mut Random) -> Option<(usize, Slot)> {
        self.live_slot_with(random, |_| true)
    }

    pub fn live_slot_with(
        &self,
        random: &mut Random,
        test: impl Fn(&Slot) -> bool,
    ) -> Option<(usize, Slot)> {
        let record = self.record();
        let live = record.live(record.latest).map(|(k, slot)| (k, *slot));
        let found: Vec<(usize, Slot)> = live.filter(|(_, slot)| test(slot)).collect();
        random.pick_any(&found)
    }
}
