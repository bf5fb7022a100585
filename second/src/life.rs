//! A life: one record for the address ann and its part of the store, from its
//! beginning through publications and readings of state.

use crate::packages;
use crate::read_state::shown_slot;
use crate::record::{Record, SLOTS};
use crate::refusals::*;
use crate::script_in::{Publication, ScriptLine};
use crate::sound::all_sound;
use crate::success::succeed;
use crate::table::{add, PART_SIZE};

pub const ADDRESS: &[u8] = b"ann";

/// Stands for a slot where there is none.
pub const NO_SLOT: usize = SLOTS;

/// What came of one line of a script.
#[derive(Clone, Copy, Debug, PartialEq, Eq)]
pub enum Happening {
    Bad,
    Begins,
    Back,
    Unmatched,
    Empty,
    Spent,
    Full { least: u64 },
    Gives { tag: u32, slot: usize },
    Shows { slot: usize },
}

#[derive(Clone, Debug, PartialEq, Eq)]
pub struct Life {
    /// The one record.
    records: [Record; 1],
    part: Vec<u8>,
}

impl Life {
    /// The record is added afresh, its part zeroed.
    pub fn begin(start: u32, spent: u32) -> Life {
        let mut life = Life {
            records: [Record::ZERO],
            part: vec![0; PART_SIZE],
        };
        add(&mut life.records, &mut life.part, start, spent, ADDRESS);
        life
    }

    pub fn record(&self) -> &Record {
        &self.records[0]
    }

    pub fn part(&self) -> &[u8] {
        &self.part
    }

    pub fn is_sound(&self) -> bool {
        all_sound(&self.records)
    }

    pub fn publish(&mut self, asked: &Publication) -> Happening {
        let accepted = match self.accept(asked) {
            Err(refused) => return refused,
            Ok(accepted) => accepted,
        };
        let record = &mut self.records[0];
        let success = succeed(record, &mut self.part, asked.clock, &accepted);
        Happening::Gives {
            tag: success.tag,
            slot: accepted.matched.unwrap_or(NO_SLOT),
        }
    }

    /// The refusals of a life, in their order.
    fn accept<'a>(&self, asked: &'a Publication) -> Result<Accepted<'a>, Happening> {
        let (record, clock, body) = (self.record(), asked.clock, &asked.body[..]);
        clock_is_not_behind(record, clock).map_err(|_| Happening::Back)?;
        let matched = matched_slot(record, asked.package, asked.presented(), clock)
            .map_err(|_| Happening::Unmatched)?;
        something_is_given(body, matched).map_err(|_| Happening::Empty)?;
        a_tag_is_left(record).map_err(|_| Happening::Spent)?;
        match record.least_end_of_eight(clock) {
            Some(least) if matched.is_none() && asked.granted > 0 => Err(Happening::Full { least }),
            _ => Ok(Accepted {
                record: 0,
                package: asked.package,
                matched,
                granted: asked.granted,
                body,
            }),
        }
    }

    /// An event above 2 shows nothing; the clock may be any.
    pub fn show(&self, clock: u64, event: u8) -> Happening {
        let package = Some(usize::from(event)).filter(|&event| event < packages::COUNT);
        let slot = package.and_then(|package| shown_slot(self.record(), package, clock));
        Happening::Shows {
            slot: slot.unwrap_or(NO_SLOT),
        }
    }
}

/// The lives of a script, one after the other.
#[derive(Default)]
pub struct Lives {
    /// None before the first begins.
    pub life: Option<Life>,
}

impl Lives {
    pub fn run(&mut self, line: &ScriptLine) -> Happening {
        match (line, &mut self.life) {
            (ScriptLine::Begin { start, spent }, life) => {
                *life = Some(Life::begin(*start, *spent));
                Happening::Begins
            }
            (ScriptLine::Publish(asked), Some(life)) => life.publish(asked),
            (ScriptLine::Show { clock, event }, Some(life)) => life.show(*clock, *event),
            (ScriptLine::Bad, _) | (_, None) => Happening::Bad,
        }
    }
}
