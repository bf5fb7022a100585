//! One call and all that is lent to it; and what came of it, as the archive or the second program has it.

use second::table::Record;

pub enum Asked {
    Open,
    Add { address: Vec<u8>, start: u32, spent: u32 },
    Handle { clock: u64, number: u32, request: Vec<u8>, answer: Vec<u8> },
    Read { address: Vec<u8>, name: Vec<u8>, clock: u64 },
}

pub struct Call {
    pub records: Vec<Record>,
    /// The same as bytes.
    pub images: Vec<u8>,
    pub store: Vec<u8>,
    /// Records begin at a multiple of eight, all other bytes anywhere: so far from one.
    pub shift: usize,
    pub asked: Asked,
}

/// The numbers that a call gave, each with its name; the result first.
pub type Numbers = Vec<(&'static str, u64)>;

/// The memory after the call, and what it gave.
pub struct After<R> {
    pub numbers: Numbers,
    pub records: R,
    pub store: Vec<u8>,
    /// Empty where none was lent.
    pub answer: Vec<u8>,
}

impl<R> After<R> {
    pub fn result(&self) -> u64 {
        self.numbers[0].1
    }

    /// Whether it gave this number under this name.
    pub fn is(&self, name: &'static str, value: u64) -> bool {
        self.numbers.contains(&(name, value))
    }
}

impl Call {
    /// What was lent, in short.
    pub fn words(&self) -> String {
        let lent = format!("{} records, {} store bytes", self.records.len(), self.store.len());
        match &self.asked {
            Asked::Open => format!("open: {}", lent),
            Asked::Add { address, start, spent } => {
                format!("add: {}, address {}, start {}, spent {}", lent, text(address), start, spent)
            }
            Asked::Handle { clock, number, request, answer } => format!(
                "handle: {}, clock {}, To number {}, {} answer bytes, {} request bytes:\n{}",
                lent,
                clock,
                number,
                answer.len(),
                request.len(),
                text(request)
            ),
            Asked::Read { address, name, clock } => {
                format!("read: {}, address {}, name {}, clock {}", lent, text(address), text(name), clock)
            }
        }
    }

    /// The records in use, and those that have no mark.
    pub fn table_words(&self) -> String {
        let told = self.records.iter().enumerate().filter(|(_, record)| record.mark != 0);
        told.map(|(r, record)| record_words(r, record)).collect()
    }
}

fn record_words(r: usize, record: &Record) -> String {
    let mut words = format!(
        "  record {}: mark {}, address {}, start {}, spent {}, clock {}, map {:08b}\n",
        r,
        record.mark,
        text(without_last_zeros(&record.address)),
        record.start,
        record.spent,
        record.latest,
        record.map
    );
    for (k, slot) in record.occupied() {
        words.push_str(&format!(
            "    slot {}: package {}, tag {:08x}, end {}, length {}, number {}\n",
            k, slot.package, slot.tag, slot.end, slot.body_length, slot.body_number
        ));
    }
    words
}

fn without_last_zeros(bytes: &[u8]) -> &[u8] {
    let zeros = bytes.iter().rev().take_while(|&&byte| byte == 0).count();
    &bytes[..bytes.len() - zeros]
}

/// The front of some bytes, the unprintable ones escaped.
fn text(bytes: &[u8]) -> String {
    let front = &bytes[..bytes.len().min(800)];
    front.iter().flat_map(|&byte| std::ascii::escape_default(byte)).map(char::from).collect()
}
