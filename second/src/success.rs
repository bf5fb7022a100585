//! What a success does to its record and to that record's part of the store.

use crate::record::{Record, Slot, BODY_SIZE};
use crate::refusals::Accepted;
use crate::tags::tag_of;

#[derive(Clone, Copy, Debug, PartialEq, Eq)]
pub enum Kind {
    Initial,
    Refresh,
    Modify,
    Remove,
    /// No SIP-If-Match and granted 0: nothing is kept.
    InitialOfZero,
}

#[derive(Clone, Copy, Debug, PartialEq, Eq)]
pub struct Success {
    pub tag: u32,
    pub granted: u32,
    pub kind: Kind,
}

pub fn succeed(record: &mut Record, part: &mut [u8], clock: u64, asked: &Accepted) -> Success {
    let tag = spend_one_tag(record);
    record.latest = clock;
    free_slots_whose_end_has_come(record, clock);
    match (asked.matched, asked.granted) {
        (Some(k), 0) => record.free_slot(k),
        (Some(k), _) => keep_slot(record, part, k, tag, asked),
        (None, 0) => {}
        (None, _) => take_lowest_free_slot(record, part, tag, asked),
    }
    zero_outside_bodies(record, part);
    Success {
        tag,
        granted: asked.granted,
        kind: kind_of(asked),
    }
}

fn kind_of(asked: &Accepted) -> Kind {
    match (asked.matched.is_some(), asked.granted, asked.body.len()) {
        (true, 0, _) => Kind::Remove,
        (true, _, 0) => Kind::Refresh,
        (true, _, _) => Kind::Modify,
        (false, 0, _) => Kind::InitialOfZero,
        (false, _, _) => Kind::Initial,
    }
}

/// The success number is the spent count after it.
fn spend_one_tag(record: &mut Record) -> u32 {
    record.spent += 1;
    tag_of(record.start, record.spent)
}

fn free_slots_whose_end_has_come(record: &mut Record, clock: u64) {
    for k in 0..record.slots.len() {
        if record.is_occupied(k) && !record.slots[k].is_live(clock) {
            record.free_slot(k);
        }
    }
}

fn keep_slot(record: &mut Record, part: &mut [u8], k: usize, tag: u32, asked: &Accepted) {
    record.slots[k].tag = tag;
    record.slots[k].end = record.latest + u64::from(asked.granted);
    if !asked.body.is_empty() {
        set_body(record, part, k, asked.body);
    }
}

fn take_lowest_free_slot(record: &mut Record, part: &mut [u8], tag: u32, asked: &Accepted) {
    let k = record.lowest_free_slot();
    record.take_slot(
        k,
        Slot {
            package: asked.package,
            tag,
            end: record.latest + u64::from(asked.granted),
            body_length: 0,
            body_number: 0,
        },
    );
    set_body(record, part, k, asked.body);
}

fn set_body(record: &mut Record, part: &mut [u8], k: usize, body: &[u8]) {
    record.slots[k].body_length = body.len();
    record.slots[k].body_number = record.spent;
    part[BODY_SIZE * k..BODY_SIZE * k + body.len()].copy_from_slice(body);
}

/// After a success every occupied slot is live.
fn zero_outside_bodies(record: &Record, part: &mut [u8]) {
    for (k, place) in part.chunks_mut(BODY_SIZE).enumerate() {
        let kept = if record.is_occupied(k) {
            record.slots[k].body_length
        } else {
            0
        };
        place[kept..].fill(0);
    }
}
