//! The same call made to the second program, on memory of its own.

use std::panic::catch_unwind;

use crate::call::{After, Asked, Call, Numbers};
use second::handle::{handle, NoMessage, Written};
use second::message::Answer;
use second::read_state::{state_shown, NotShown, Shown};
use second::refusals::Refusal;
use second::table::{add, open, Record};

/// What came of it. With a clause of soundness left out it may break off, where it relied on that clause.
pub fn run(call: &Call) -> Result<After<Vec<Record>>, String> {
    catch_unwind(|| unguarded(call)).map_err(|_| "the second program broke off".to_string())
}

fn unguarded(call: &Call) -> After<Vec<Record>> {
    let mut records = call.records.clone();
    let mut store = call.store.clone();
    let mut buffer = Vec::new();
    let numbers = match &call.asked {
        Asked::Open => vec![("result", open(&mut records, &mut store).into())],
        Asked::Add { address, start, spent } => {
            vec![("result", add(&mut records, &mut store, *start, *spent, address).into())]
        }
        Asked::Handle { clock, number, request, answer } => {
            buffer = answer.clone();
            handled(handle(&mut records, &mut store, *clock, request, *number, &mut buffer))
        }
        Asked::Read { address, name, clock } => state(state_shown(&records, &store, address, name, *clock)),
    };
    After { numbers, records, store, answer: buffer }
}

fn handled(said: Result<Written, NoMessage>) -> Numbers {
    let (result, status, length, tag, seconds) = match said {
        Err(why) => (why.result(), 0, 0, 0, 0),
        Ok(written) => {
            let (tag, seconds) = tag_and_seconds(&written.answer);
            (0, written.answer.status(), written.length, tag, seconds)
        }
    };
    vec![
        ("result", result.into()),
        ("status", status.into()),
        ("length", length as u64),
        ("tag", tag.into()),
        ("seconds", seconds),
    ]
}

/// The tag and the granted time; or the seconds of Min-Expires or Retry-After.
fn tag_and_seconds(answer: &Answer) -> (u32, u64) {
    match answer {
        Answer::Ok(success) => (success.tag, success.granted.into()),
        Answer::Refused(Refusal::IntervalTooBrief { least }) => (0, (*least).into()),
        Answer::Refused(Refusal::EightLive { retry_after }) => (0, *retry_after),
        Answer::Refused(_) => (0, 0),
    }
}

/// Shown: 0 nothing, 1 a part of the store, 2 the whole default.
fn state(said: Result<Shown, NotShown>) -> Numbers {
    let (result, shown, position, length) = match said {
        Err(why) => (why.result(), 0, 0, 0),
        Ok(Shown::Store { at, length }) => (0, 1, at, length),
        Ok(Shown::Default) => (0, 2, 0, 0),
    };
    vec![
        ("result", result.into()),
        ("shown", shown),
        ("position", position as u64),
        ("length", length as u64),
    ]
}
