//! The bench: sixteen records and one answer buffer, to which the frames are
//! given one after the other.

use crate::frames_in::Frame;
use crate::handle::{handle, NoMessage, Written};
use crate::message::LEAST_ANSWER_BUFFER;
use crate::read_state::{state_shown, NotShown, Shown};
use crate::reading_in::Reading;
use crate::record::Record;
use crate::table::{add, open, MOST_RECORDS, PART_SIZE};

pub const TO_NUMBER: u32 = 1;

/// What came of one input line.
#[derive(Clone, Copy, Debug, PartialEq, Eq)]
pub enum Outcome {
    Added(u8),
    Answered(Written),
    None(NoMessage),
    Bad,
}

impl Outcome {
    pub fn message_length(&self) -> usize {
        match self {
            Outcome::Answered(written) => written.length,
            _ => 0,
        }
    }
}

pub struct Bench {
    pub records: Vec<Record>,
    pub store: Vec<u8>,
    pub buffer: Vec<u8>,
}

impl Default for Bench {
    fn default() -> Bench {
        Bench::new()
    }
}

impl Bench {
    pub fn new() -> Bench {
        let mut records = vec![Record::ZERO; MOST_RECORDS];
        let mut store = vec![0; PART_SIZE * MOST_RECORDS];
        open(&mut records, &mut store);
        Bench {
            records,
            store,
            buffer: vec![0; LEAST_ANSWER_BUFFER],
        }
    }

    pub fn run(&mut self, frame: &Frame) -> Outcome {
        self.mark_buffer();
        match frame {
            Frame::Bad => Outcome::Bad,
            Frame::Add {
                start,
                spent,
                address,
            } => Outcome::Added(add(
                &mut self.records,
                &mut self.store,
                *start,
                *spent,
                address,
            )),
            Frame::Request { clock, request } => self.request(*clock, request),
        }
    }

    /// Reads state, which the witness does between the bench's frames.
    pub fn read(&mut self, reading: &Reading) -> Result<Shown, NotShown> {
        self.mark_buffer();
        state_shown(
            &self.records,
            &self.store,
            &reading.address,
            &reading.package,
            reading.clock,
        )
    }

    fn request(&mut self, clock: u64, request: &[u8]) -> Outcome {
        let handled = handle(
            &mut self.records,
            &mut self.store,
            clock,
            request,
            TO_NUMBER,
            &mut self.buffer,
        );
        match handled {
            Ok(written) => Outcome::Answered(written),
            Err(why) => Outcome::None(why),
        }
    }

    /// Marks each byte, so that one touched past the message shows.
    fn mark_buffer(&mut self) {
        for (i, byte) in self.buffer.iter_mut().enumerate() {
            *byte = (i % 251) as u8;
        }
    }
}
