//! One call: one whole request in, one whole response out, or none.

use crate::message::{write_message, Answer, LEAST_ANSWER_BUFFER};
use crate::record::{Record, CLOCK_LIMIT};
use crate::refusals::try_all;
use crate::request::{read_request, Request};
use crate::results::*;
use crate::sound::all_sound;
use crate::success::succeed;
use crate::table::{part_mut, sizes_are_right};
use crate::unreadable::Unreadable;

pub const LONGEST_REQUEST: usize = 4096;

/// Why no message was written.
#[derive(Clone, Copy, Debug, PartialEq, Eq)]
pub enum NoMessage {
    BufferTooSmall,
    WrongSizes,
    RequestTooLong,
    ClockAboveLimit,
    NotSound,
    Unreadable(Unreadable),
}

impl NoMessage {
    pub fn result(&self) -> u8 {
        match self {
            NoMessage::BufferTooSmall => BUFFER_TOO_SMALL,
            NoMessage::WrongSizes => WRONG_SIZES,
            NoMessage::RequestTooLong => REQUEST_TOO_LONG,
            NoMessage::ClockAboveLimit => CLOCK_ABOVE_LIMIT,
            NoMessage::NotSound => NOT_SOUND,
            NoMessage::Unreadable(_) => UNREADABLE,
        }
    }
}

/// A message that was written: what it says and how long it is.
#[derive(Clone, Copy, Debug, PartialEq, Eq)]
pub struct Written {
    pub answer: Answer,
    pub length: usize,
}

pub fn handle(
    records: &mut [Record],
    store: &mut [u8],
    clock: u64,
    request: &[u8],
    to_number: u32,
    buffer: &mut [u8],
) -> Result<Written, NoMessage> {
    call_is_well_formed(records, store, clock, request, buffer)?;
    let request = read_request(request).map_err(NoMessage::Unreadable)?;
    let answer = decide(records, store, clock, &request);
    let length = write_message(&request, &answer, to_number, buffer);
    Ok(Written { answer, length })
}

/// Results 1 to 5, in their order.
fn call_is_well_formed(
    records: &[Record],
    store: &[u8],
    clock: u64,
    request: &[u8],
    buffer: &[u8],
) -> Result<(), NoMessage> {
    if buffer.len() < LEAST_ANSWER_BUFFER {
        return Err(NoMessage::BufferTooSmall);
    }
    if !sizes_are_right(records, store) {
        return Err(NoMessage::WrongSizes);
    }
    if request.len() > LONGEST_REQUEST {
        return Err(NoMessage::RequestTooLong);
    }
    if clock > CLOCK_LIMIT {
        return Err(NoMessage::ClockAboveLimit);
    }
    if !all_sound(records) {
        return Err(NoMessage::NotSound);
    }
    Ok(())
}

/// Only a success changes anything.
fn decide(records: &mut [Record], store: &mut [u8], clock: u64, request: &Request) -> Answer {
    match try_all(request, records, clock) {
        Err(refusal) => Answer::Refused(refusal),
        Ok(accepted) => {
            let r = accepted.record;
            let part = part_mut(store, r);
            Answer::Ok(succeed(&mut records[r], part, clock, &accepted))
        }
    }
}
