//! How much is lent, the clocks at their limit, and what else must come besides what soundness asks for.

use crate::call::{Asked, Call};
use second::table::{CLOCK_LIMIT, PART_SIZE};

pub type Size = (&'static str, fn(&Call) -> bool);

pub const SIZES: &[Size] = &[
    ("no record", |call| call.records.is_empty()),
    ("no record and no store", |call| call.records.is_empty() && call.store.is_empty()),
    ("1 record", |call| call.records.len() == 1),
    ("2 records", |call| call.records.len() == 2),
    ("15 records", |call| call.records.len() == 15),
    ("16 records", |call| call.records.len() == 16),
    ("17 records", |call| call.records.len() == 17),
    ("17 records and their store", |call| call.records.len() == 17 && missing(call) == 0),
    ("store one byte short", |call| missing(call) == 1),
    ("store one byte long", |call| missing(call) == -1),
    ("answer of 0 bytes", |call| answer(call) == Some(0)),
    ("answer of 4,607 bytes", |call| answer(call) == Some(4607)),
    ("answer of 4,608 bytes", |call| answer(call) == Some(4608)),
    ("answer of more bytes", |call| answer(call) > Some(4608)),
    ("request of 4,096 bytes", |call| request(call) == Some(4096)),
    ("request of 4,097 bytes", |call| request(call) == Some(4097)),
    ("clock 0", |call| clock(call) == Some(0)),
    ("clock at its limit, asked for", |call| clock(call) == Some(CLOCK_LIMIT)),
    ("clock one above it, asked for", |call| clock(call) == Some(CLOCK_LIMIT + 1)),
    ("the last clock of 64 bits", |call| clock(call) == Some(u64::MAX)),
    ("request too long, clock too high", |call| request(call) > Some(4096) && clock(call) > Some(CLOCK_LIMIT)),
    ("answer too small, wrong sizes", |call| answer(call).map_or(false, |size| size < 4608) && missing(call) != 0),
    ("wrong sizes, request too long", |call| missing(call) != 0 && request(call) > Some(4096)),
];

/// The store bytes that are missing; below 0 where there are too many.
fn missing(call: &Call) -> isize {
    (PART_SIZE * call.records.len()) as isize - call.store.len() as isize
}

fn answer(call: &Call) -> Option<usize> {
    match &call.asked {
        Asked::Handle { answer, .. } => Some(answer.len()),
        _ => None,
    }
}

fn request(call: &Call) -> Option<usize> {
    match &call.asked {
        Asked::Handle { request, .. } => Some(request.len()),
        _ => None,
    }
}

fn clock(call: &Call) -> Option<u64> {
    match &call.asked {
        Asked::Handle { clock, .. } | Asked::Read { clock, .. } => Some(*clock),
        _ => None,
    }
}
