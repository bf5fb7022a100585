//! A scene: its steps in order. Each step is one frame, so its number, from 1,
//! is the number of its line in the listing.

#[derive(Clone, Debug, PartialEq, Eq)]
pub struct Step {
    /// The line of the file on which the step begins, counted from 1.
    pub line: usize,
    pub order: Order,
}

#[derive(Clone, Debug, PartialEq, Eq)]
pub enum Order {
    /// add ADDRESS start N spent N
    Add {
        address: Vec<u8>,
        start: u32,
        spent: u32,
    },
    /// at CLOCK, and the lines of the message as the file has them, without
    /// their ends and with nothing filled in.
    At { clock: u64, text: Vec<Vec<u8>> },
    /// read ADDRESS PACKAGE at CLOCK default TEXT
    Read {
        address: Vec<u8>,
        package: Vec<u8>,
        clock: u64,
        default: Vec<u8>,
    },
}
