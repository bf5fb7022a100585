//! Both programs on one call: what they gave and every byte of what was lent are compared.

use crate::call::{After, Asked, Call};
use crate::image::{record_of, RECORD_SIZE};
use crate::{ours, theirs};
use second::table::Record;

/// What the second program made of the call; or the first difference.
pub fn both(call: &Call) -> Result<After<Vec<Record>>, String> {
    let theirs = theirs::run(call);
    let ours = ours::run(call)?;
    let theirs = theirs?;
    match first_difference(call, &ours, &theirs) {
        Some(difference) => Err(difference),
        None => Ok(theirs),
    }
}

fn first_difference(call: &Call, ours: &After<Vec<u8>>, theirs: &After<Vec<Record>>) -> Option<String> {
    numbers(ours, theirs)
        .or_else(|| records(call, ours, theirs))
        .or_else(|| bytes("store", &ours.store, &theirs.store))
        .or_else(|| bytes("answer", &ours.answer, &theirs.answer))
}

fn numbers(ours: &After<Vec<u8>>, theirs: &After<Vec<Record>>) -> Option<String> {
    let mut pairs = ours.numbers.iter().zip(&theirs.numbers);
    let (our, their) = pairs.find(|(our, their)| our != their)?;
    Some(format!("{}: archive {}, second program {}", our.0, our.1, their.1))
}

/// A record that is written has its fields compared: what stands between them then is not promised. Any other record has all
/// its bytes compared with what they were.
fn records(call: &Call, ours: &After<Vec<u8>>, theirs: &After<Vec<Record>>) -> Option<String> {
    let all_are_written = matches!(call.asked, Asked::Open) && theirs.result() == 0;
    for (r, record) in theirs.records.iter().enumerate() {
        let place = RECORD_SIZE * r..RECORD_SIZE * (r + 1);
        let our = &ours.records[place.clone()];
        if all_are_written || *record != call.records[r] {
            if record_of(our) != *record {
                return Some(format!("record {}:\n archive {:?}\n second {:?}", r, record_of(our), record));
            }
        } else if let Some(difference) = bytes("record not written", our, &call.images[place]) {
            return Some(format!("record {}: {}", r, difference));
        }
    }
    None
}

fn bytes(name: &str, ours: &[u8], theirs: &[u8]) -> Option<String> {
    if ours == theirs {
        return None;
    }
    let place = ours.iter().zip(theirs).position(|(our, their)| our != their)?;
    let (our, their) = (ours[place], theirs[place]);
    Some(format!("{}, byte {}: archive {}, second program {}", name, place, our, their))
}
