//! A table: the records and the store that a caller lends, and the four calls on them.
use crate::answer::{answered, Answer};
use crate::foreign::{windgusset_add, windgusset_handle, windgusset_open, windgusset_read, State};
use crate::record::Record;
use crate::refusal::Refusal;

/// Records and their store, lent for as long as the table is used. Different tables may be used at the same time.
#[derive(Debug)]
pub struct Table<'a> {
    records: &'a mut [Record],
    store: &'a mut [u8],
}

impl<'a> Table<'a> {
    /// Empties all records and zeroes the store.
    ///
    /// The store has [`STORE_BYTES`](crate::STORE_BYTES) for each of the 1 to 16 records; with other sizes it is
    /// [`WrongSizes`](Refusal::WrongSizes).
    ///
    /// ```
    /// use windgusset::{Record, Refusal, Table, STORE_BYTES};
    ///
    /// let mut records = [Record::EMPTY; 2];
    /// let mut store = [0; 2 * STORE_BYTES];
    /// assert!(Table::open(&mut records, &mut store).is_ok());
    /// assert_eq!(Table::open(&mut records, &mut store[1..]).unwrap_err(), Refusal::WrongSizes);
    /// ```
    pub fn open(records: &'a mut [Record], store: &'a mut [u8]) -> Result<Table<'a>, Refusal> {
        // SAFETY: both are slices of this function's, borrowed mutably, so they are valid for their lengths and overlap nothing.
        let result = unsafe { windgusset_open(records.as_mut_ptr(), records.len(), store.as_mut_ptr(), store.len()) };
        Refusal::check(result)?;
        Ok(Table { records, store })
    }

    /// Takes records and store as they are, for instance read back from a file. Nothing is looked at yet: each call refuses sizes that
    /// do not fit and records that are not sound.
    ///
    /// ```
    /// use windgusset::{Record, Table, STORE_BYTES};
    ///
    /// let mut records = [Record::EMPTY; 1];
    /// let mut store = [0; STORE_BYTES];
    /// Table::open(&mut records, &mut store)?.add(b"ann", 7, 0)?;
    ///
    /// let table = Table::over(&mut records, &mut store);
    /// assert_eq!(table.read(b"ann", b"dialog", 5, b"idle")?, b"idle");
    /// # Ok::<(), windgusset::Refusal>(())
    /// ```
    pub fn over(records: &'a mut [Record], store: &'a mut [u8]) -> Table<'a> {
        Table { records, store }
    }

    /// Adds an address to the lowest unused record. A new address has `spent` 0; one that comes back with its start and the tags that it
    /// has spent repeats no tag.
    ///
    /// ```
    /// use windgusset::{Record, Refusal, Table, STORE_BYTES};
    ///
    /// let mut records = [Record::EMPTY; 1];
    /// let mut store = [0; STORE_BYTES];
    /// let mut table = Table::open(&mut records, &mut store)?;
    /// assert_eq!(table.add(b"sip:ann@room.example", 7, 0), Ok(()));
    /// assert_eq!(table.add(b"sip:ann@room.example", 7, 0), Err(Refusal::AddressThere));
    /// assert_eq!(table.add(b"sip:bo@room.example", 7, 0), Err(Refusal::NoUnusedRecord));
    /// assert_eq!(table.add(b"with a blank", 7, 0), Err(Refusal::AddressMalformed));
    /// # Ok::<(), Refusal>(())
    /// ```
    pub fn add(&mut self, address: &[u8], start: u32, spent: u32) -> Result<(), Refusal> {
        // SAFETY: all are slices, valid for their lengths. Records and store are borrowed mutably, so they overlap nothing.
        let result = unsafe {
            windgusset_add(
                self.records.as_mut_ptr(),
                self.records.len(),
                self.store.as_mut_ptr(),
                self.store.len(),
                address.as_ptr(),
                address.len(),
                start,
                spent,
            )
        };
        Refusal::check(result)
    }

    /// Handles one request at a clock in seconds. The message is written to the front of the buffer. The number is written as eight hex
    /// digits to To as its tag, where To has none; RFC 3261 wants it random.
    ///
    /// ```
    /// use windgusset::{Outcome, Record, Refusal, Table, ANSWER_BYTES, STORE_BYTES};
    ///
    /// let mut records = [Record::EMPTY; 1];
    /// let mut store = [0; STORE_BYTES];
    /// let mut buffer = [0; ANSWER_BYTES];
    /// let mut table = Table::open(&mut records, &mut store)?;
    ///
    /// let request = b"PUBLISH bo SIP/2.0\r\nVia: v\r\nFrom: f\r\nTo: t\r\nCall-ID: 1\r\nCSeq: 1 PUBLISH\r\n\r\n";
    /// let answer = table.handle(100, 0xdeadbeef, request, &mut buffer)?;
    /// assert_eq!(answer.outcome, Outcome::Refused { status: 404, seconds: None });
    /// assert_eq!(
    ///     answer.message,
    ///     b"SIP/2.0 404 Not Found\r\nVia: v\r\nFrom: f\r\nTo: t;tag=deadbeef\r\nCall-ID: 1\r\nCSeq: 1 PUBLISH\r\nContent-Length: 0\r\n\r\n",
    /// );
    /// assert_eq!(table.handle(100, 0, b"hello", &mut buffer), Err(Refusal::Unreadable));
    /// # Ok::<(), Refusal>(())
    /// ```
    ///
    /// The answer borrows the buffer, which is lent again only once the answer is let go:
    ///
    /// ```compile_fail,E0499
    /// # use windgusset::{Record, Refusal, Table, ANSWER_BYTES, STORE_BYTES};
    /// # let mut records = [Record::EMPTY; 1];
    /// # let mut store = [0; STORE_BYTES];
    /// # let mut buffer = [0; ANSWER_BYTES];
    /// # let mut table = Table::open(&mut records, &mut store)?;
    /// let first = table.handle(100, 1, b"one", &mut buffer)?;
    /// let second = table.handle(100, 2, b"two", &mut buffer)?;
    /// println!("{:?}", first.message);
    /// # Ok::<(), Refusal>(())
    /// ```
    pub fn handle<'b>(&mut self, clock: u64, number: u32, request: &[u8], answer: &'b mut [u8]) -> Result<Answer<'b>, Refusal> {
        // SAFETY: all are slices, valid for their lengths. Records, store and answer are borrowed mutably, so they overlap nothing.
        let handled = unsafe {
            windgusset_handle(
                self.records.as_mut_ptr(),
                self.records.len(),
                self.store.as_mut_ptr(),
                self.store.len(),
                clock,
                number,
                request.as_ptr(),
                request.len(),
                answer.as_mut_ptr(),
                answer.len(),
            )
        };
        answered(handled, answer)
    }

    /// The newest live body of an address and a package, or the whole default where none is live. It is the part of the store itself:
    /// nothing is copied.
    ///
    /// ```
    /// use windgusset::{Record, Refusal, Table, ANSWER_BYTES, STORE_BYTES};
    ///
    /// let mut records = [Record::EMPTY; 1];
    /// let mut store = [0; STORE_BYTES];
    /// let mut buffer = [0; ANSWER_BYTES];
    /// let mut table = Table::open(&mut records, &mut store)?;
    /// table.add(b"ann", 0, 0)?;
    /// assert_eq!(table.read(b"ann", b"presence", 100, b"away")?, b"away");
    ///
    /// let request = b"PUBLISH ann SIP/2.0\r\nVia: v\r\nFrom: f\r\nTo: t\r\nCall-ID: 1\r\nCSeq: 1 PUBLISH\r\n\
    ///     Event: presence\r\nContent-Type: application/pidf+xml\r\n\r\nfree";
    /// table.handle(100, 1, request, &mut buffer)?;
    /// let body = table.read(b"ann", b"presence", 100, b"away")?;
    /// assert_eq!(body, b"free");
    /// assert_eq!(table.read(b"ann", b"weather", 100, b"away"), Err(Refusal::NotKnown));
    /// assert_eq!(table.read(b"ann", b"presence", 99, b"away"), Err(Refusal::ClockBelowLatest));
    /// # Ok::<(), Refusal>(())
    /// ```
    ///
    /// While it is shown the table cannot be changed:
    ///
    /// ```compile_fail,E0502
    /// # use windgusset::{Record, Refusal, Table, ANSWER_BYTES, STORE_BYTES};
    /// # let mut records = [Record::EMPTY; 1];
    /// # let mut store = [0; STORE_BYTES];
    /// # let mut table = Table::open(&mut records, &mut store)?;
    /// let body = table.read(b"ann", b"presence", 100, b"away")?;
    /// table.add(b"bo", 0, 0)?;
    /// println!("{:?}", body);
    /// # Ok::<(), Refusal>(())
    /// ```
    ///
    /// Nor can the store be touched, which the table still has:
    ///
    /// ```compile_fail,E0506
    /// # use windgusset::{Record, Refusal, Table, ANSWER_BYTES, STORE_BYTES};
    /// # let mut records = [Record::EMPTY; 1];
    /// # let mut store = [0; STORE_BYTES];
    /// # let mut table = Table::open(&mut records, &mut store)?;
    /// let body = table.read(b"ann", b"presence", 100, b"away")?;
    /// store[0] = 1;
    /// println!("{:?}", body);
    /// # Ok::<(), Refusal>(())
    /// ```
    pub fn read<'s>(&'s self, address: &[u8], name: &[u8], clock: u64, default: &'s [u8]) -> Result<&'s [u8], Refusal> {
        // SAFETY: all are slices, valid for their lengths, and nothing is written.
        let state = unsafe {
            windgusset_read(
                self.records.as_ptr(),
                self.records.len(),
                self.store.as_ptr(),
                self.store.len(),
                address.as_ptr(),
                address.len(),
                name.as_ptr(),
                name.len(),
                clock,
            )
        };
        shown(state, self.store, default)
    }

    /// The records, for instance to be written to a file.
    ///
    /// ```
    /// use windgusset::{Record, Table, STORE_BYTES};
    ///
    /// let mut records = [Record::EMPTY; 1];
    /// let mut store = [0; STORE_BYTES];
    /// let mut table = Table::open(&mut records, &mut store)?;
    /// table.add(b"ann", 7, 3)?;
    /// assert_eq!(table.records()[0].start, 7);
    /// assert_eq!(table.records()[0].spent, 3);
    /// assert!(table.records()[0].address.starts_with(b"ann\0"));
    /// # Ok::<(), windgusset::Refusal>(())
    /// ```
    pub fn records(&self) -> &[Record] {
        self.records
    }

    /// The store of bodies.
    ///
    /// ```
    /// use windgusset::{Record, Table, STORE_BYTES};
    ///
    /// let mut records = [Record::EMPTY; 1];
    /// let mut store = [1; STORE_BYTES];
    /// assert_eq!(Table::open(&mut records, &mut store)?.store(), [0; STORE_BYTES]);
    /// # Ok::<(), windgusset::Refusal>(())
    /// ```
    pub fn store(&self) -> &[u8] {
        self.store
    }
}

// What is shown, by the library's numbers: a part of the store or the whole default.
fn shown<'s>(state: State, store: &'s [u8], default: &'s [u8]) -> Result<&'s [u8], Refusal> {
    Refusal::check(state.result)?;
    let part = match state.shown {
        1 => store.get(state.position..).and_then(|rest| rest.get(..state.length)),
        2 => Some(default),
        _ => None,
    };
    part.ok_or(Refusal::Other(0))
}

#[cfg(test)]
mod tests {
    use super::shown;
    use crate::foreign::State;
    use crate::refusal::Refusal;

    fn state(position: usize, length: usize, shown: u8, result: u8) -> State {
        State {
            position,
            length,
            shown,
            result,
        }
    }

    #[test]
    fn a_part_of_the_store_or_the_whole_default() {
        assert_eq!(shown(state(1, 2, 1, 0), b"store", b"default"), Ok(&b"to"[..]));
        assert_eq!(shown(state(5, 0, 1, 0), b"store", b"default"), Ok(&b""[..]));
        assert_eq!(shown(state(0, 0, 2, 0), b"store", b"default"), Ok(&b"default"[..]));
    }

    #[test]
    fn what_is_outside_of_the_store_is_not_shown() {
        for (position, length) in [(0, 6), (5, 1), (6, 0), (1, usize::MAX), (usize::MAX, 1)] {
            assert_eq!(shown(state(position, length, 1, 0), b"store", b""), Err(Refusal::Other(0)));
        }
    }

    #[test]
    fn any_other_number_shows_nothing() {
        for which in (0..=255).filter(|which| ![1, 2].contains(which)) {
            assert_eq!(shown(state(0, 1, which, 0), b"store", b""), Err(Refusal::Other(0)));
        }
        for result in 1..=255 {
            assert_eq!(shown(state(0, 1, 1, result), b"store", b"").unwrap_err().number(), result);
        }
    }
}
