//! One input line of the witness: a frame of the bench, or the witness's own,
//! which reads state.

use crate::bench::{Bench, Outcome};
use crate::frames_in::{read_frame, Frame};
use crate::read_state::{NotShown, Shown};
use crate::reading_in::{read_reading, Lack, Reading};

/// What came of it.
#[derive(Clone, Debug, PartialEq, Eq)]
pub enum Turn {
    Bench(Outcome),
    Read(Reading, Result<Shown, NotShown>),
    /// The witness's own frame, but not whole: bad.
    Lacking(Lack),
}

impl Turn {
    pub fn message_length(&self) -> usize {
        match self {
            Turn::Bench(outcome) => outcome.message_length(),
            _ => 0,
        }
    }
}

pub fn take_turn(bench: &mut Bench, line: &[u8]) -> Turn {
    match read_reading(line) {
        Some(Ok(reading)) => {
            let read = bench.read(&reading);
            Turn::Read(reading, read)
        }
        Some(Err(lack)) => {
            bench.run(&Frame::Bad);
            Turn::Lacking(lack)
        }
        None => Turn::Bench(bench.run(&read_frame(line))),
    }
}
