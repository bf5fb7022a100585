//! A table with a few addresses, to which requests are sent as text.

use second::bench::{Bench, Outcome};
use second::frames_in::Frame;
use second::listing::listed;
use second::table::Record;

/// Lines that every request has, for ann.
pub const COPIED: &str = "Via: SIP/2.0/UDP pua
From: <ann>;tag=1
To: <ann>
Call-ID: 1
CSeq: 1 PUBLISH
";

pub struct Table {
    pub bench: Bench,
}

impl Table {
    /// ann with start 0 and bo with start 1.
    pub fn new() -> Table {
        let mut table = Table {
            bench: Bench::new(),
        };
        assert_eq!(table.add("ann", 0, 0), "add 0");
        assert_eq!(table.add("bo", 1, 0), "add 0");
        table
    }

    pub fn add(&mut self, address: &str, start: u32, spent: u32) -> String {
        let address = address.as_bytes().to_vec();
        self.run(&Frame::Add {
            start,
            spent,
            address,
        })
    }

    /// Gives the bytes to the engine; the answer as the listing has it.
    pub fn bytes(&mut self, clock: u64, request: &[u8]) -> String {
        let request = request.to_vec();
        self.run(&Frame::Request { clock, request })
    }

    /// A whole request; its lines here end with LF, its body follows.
    pub fn whole(&mut self, clock: u64, head: &str, body: &[u8]) -> String {
        self.bytes(clock, &request(head, body))
    }

    /// A PUBLISH for ann with these lines after the copied ones.
    pub fn ann(&mut self, clock: u64, lines: &str, body: &str) -> String {
        self.to("ann", clock, lines, body)
    }

    pub fn to(&mut self, address: &str, clock: u64, lines: &str, body: &str) -> String {
        let head = format!("PUBLISH {} SIP/2.0\n{}{}\n", address, COPIED, lines);
        self.whole(clock, &head, body.as_bytes())
    }

    /// An initial presence publication for ann that asks for that time.
    pub fn initial(&mut self, clock: u64, expires: u32) -> String {
        let lines = format!("Event: presence\nExpires: {}\n{}", expires, PIDF);
        self.ann(clock, &lines, "x")
    }

    pub fn record(&self, r: usize) -> &Record {
        &self.bench.records[r]
    }

    fn run(&mut self, frame: &Frame) -> String {
        let before = (self.bench.records.clone(), self.bench.store.clone());
        let outcome = self.bench.run(frame);
        if is_refusal(&outcome) {
            let after = (self.bench.records.clone(), self.bench.store.clone());
            assert!(before == after, "a refusal changed the table");
        }
        self.past_the_message_is_untouched(outcome.message_length());
        listed(&outcome)
    }

    fn past_the_message_is_untouched(&self, length: usize) {
        for (i, &byte) in self.bench.buffer.iter().enumerate().skip(length) {
            assert_eq!(usize::from(byte), i % 251);
        }
    }
}

pub const PIDF: &str = "Content-Type: application/pidf+xml\n";

fn is_refusal(outcome: &Outcome) -> bool {
    let text = listed(outcome);
    !text.starts_with("200") && text != "add 0"
}

/// Text with LF line ends as a request's bytes.
pub fn request(head: &str, body: &[u8]) -> Vec<u8> {
    let mut bytes = head.replace('\n', "\r\n").into_bytes();
    bytes.extend_from_slice(body);
    bytes
}
