//! Every result that the calls can give, and the message and outcome of every status.
use windgusset::{Answer, Outcome, Record, Refusal, Table, ANSWER_BYTES, CLOCK_LIMIT, MOST_RECORDS, REQUEST_BYTES, STORE_BYTES};

const PIDF: &str = "Event: presence\r\nContent-Type: application/pidf+xml\r\n";

// A request with some header lines and a body of as many bytes.
fn request(method: &str, address: &str, lines: &str, body: usize) -> Vec<u8> {
    let mut bytes =
        format!("{method} {address} SIP/2.0\r\nVia: v\r\nFrom: f\r\nTo: t\r\nCall-ID: 1\r\nCSeq: 1 {method}\r\n{lines}\r\n")
            .into_bytes();
    bytes.resize(bytes.len() + body, b'b');
    bytes
}

// A table with one address, in memory that is kept to the end of the program.
fn with_ann() -> Table<'static> {
    let records = Box::leak(Box::new([Record::EMPTY; 2]));
    let store = Box::leak(Box::new([0; 2 * STORE_BYTES]));
    let mut table = Table::open(records, store).unwrap();
    table.add(b"ann", 0, 0).unwrap();
    table
}

// The message that the paper has for a status, its phrase and its field.
fn message(status_and_phrase: &str, field: &str) -> String {
    format!(
        "SIP/2.0 {status_and_phrase}\r\nVia: v\r\nFrom: f\r\nTo: t;tag=0000002a\r\nCall-ID: 1\r\nCSeq: 1 PUBLISH\r\n{field}Content-Length: 0\r\n\r\n"
    )
}

fn refused(table: &mut Table, clock: u64, bytes: &[u8], seconds: Option<u64>, said: &str, field: &str) {
    let mut buffer = [0; ANSWER_BYTES];
    let before = (table.records().to_vec(), table.store().to_vec());
    let Answer { message: text, outcome } = table.handle(clock, 42, bytes, &mut buffer).unwrap();
    let status = said[..3].parse().unwrap();
    assert_eq!(outcome, Outcome::Refused { status, seconds });
    assert_eq!(std::str::from_utf8(text).unwrap(), message(said, field));
    assert_eq!((table.records().to_vec(), table.store().to_vec()), before);
}

fn publish(table: &mut Table, clock: u64, lines: &str, body: usize) -> Outcome {
    table
        .handle(clock, 42, &request("PUBLISH", "ann", lines, body), &mut [0; ANSWER_BYTES])
        .unwrap()
        .outcome
}

#[test]
fn statuses() {
    let table = &mut with_ann();
    let ann = |lines: &str, body| request("PUBLISH", "ann", lines, body);
    assert_eq!(
        publish(table, 100, PIDF, 3),
        Outcome::Granted {
            tag: 0x9e3779b9,
            seconds: 3600
        }
    );
    refused(table, 100, &ann("Expires: x\r\n", 0), None, "400 Bad Request", "");
    refused(table, 100, &request("PUBLISH", "bo", "", 0), None, "404 Not Found", "");
    refused(
        table,
        100,
        &ann("Event: x\r\n", 0),
        None,
        "489 Bad Event",
        "Allow-Events: presence, message-summary, dialog\r\n",
    );
    refused(table, 99, &ann(PIDF, 1), None, "500 Server Internal Error", "");
    refused(
        table,
        100,
        &ann("Event: presence\r\nSIP-If-Match: 9e3779b8\r\n", 0),
        None,
        "412 Conditional Request Failed",
        "",
    );
    refused(
        table,
        100,
        &ann("Event: presence\r\nExpires: 59\r\n", 0),
        Some(60),
        "423 Interval Too Brief",
        "Min-Expires: 60\r\n",
    );
    refused(table, 100, &ann(PIDF, 513), None, "413 Request Entity Too Large", "");
    refused(
        table,
        100,
        &ann("Event: presence\r\n", 1),
        None,
        "415 Unsupported Media Type",
        "Accept: application/pidf+xml\r\n",
    );
    for _ in 1..8 {
        publish(table, 100, PIDF, 512);
    }
    refused(
        table,
        109,
        &ann(PIDF, 1),
        Some(3591),
        "503 Service Unavailable",
        "Retry-After: 3591\r\n",
    );
}

#[test]
fn another_method() {
    let mut buffer = [0; ANSWER_BYTES];
    let answer = with_ann()
        .handle(1, 42, &request("INFO", "ann", "", 0), &mut buffer)
        .map(|a| a.outcome);
    assert_eq!(
        answer,
        Ok(Outcome::Refused {
            status: 405,
            seconds: None
        })
    );
    assert!(buffer.starts_with(b"SIP/2.0 405 Method Not Allowed\r\n"));
}

#[test]
fn handling_that_is_refused() {
    let mut table = with_ann();
    let long = [b'x'; REQUEST_BYTES + 1];
    let mut buffer = [7; ANSWER_BYTES];
    let mut small = [7; ANSWER_BYTES - 1];
    assert_eq!(
        table.handle(CLOCK_LIMIT + 1, 1, &long, &mut small),
        Err(Refusal::BufferTooSmall)
    );
    assert_eq!(
        table.handle(CLOCK_LIMIT + 1, 1, &long, &mut buffer),
        Err(Refusal::RequestTooLong)
    );
    assert_eq!(
        table.handle(CLOCK_LIMIT + 1, 1, &long[1..], &mut buffer),
        Err(Refusal::ClockAboveLimit)
    );
    assert_eq!(
        table.handle(CLOCK_LIMIT, 1, &long[1..], &mut buffer),
        Err(Refusal::Unreadable)
    );
    assert_eq!(
        table.handle(1, 1, &request("ACK", "ann", "", 0), &mut buffer),
        Err(Refusal::Unreadable)
    );
    assert_eq!(table.handle(1, 1, b"", &mut buffer), Err(Refusal::Unreadable));
    let mut broken = [Record {
        used: 2,
        ..Record::EMPTY
    }];
    let mut store = [0; STORE_BYTES];
    assert_eq!(
        Table::over(&mut broken, &mut store).handle(1, 1, b"", &mut buffer),
        Err(Refusal::NotSound)
    );
    assert_eq!(
        Table::over(&mut broken, &mut []).handle(1, 1, b"", &mut buffer),
        Err(Refusal::WrongSizes)
    );
    assert_eq!((buffer, small), ([7; ANSWER_BYTES], [7; ANSWER_BYTES - 1]));
}

#[test]
fn opening() {
    let mut records = [Record::EMPTY; MOST_RECORDS + 1];
    let mut store = [1; (MOST_RECORDS + 1) * STORE_BYTES];
    for count in 0..=MOST_RECORDS + 1 {
        let opened = Table::open(&mut records[..count], &mut store[..count * STORE_BYTES]);
        assert_eq!(opened.is_ok(), (1..=MOST_RECORDS).contains(&count));
        assert!(opened.is_ok() || opened.unwrap_err() == Refusal::WrongSizes);
    }
    assert_eq!(store[MOST_RECORDS * STORE_BYTES], 1);
}

#[test]
fn adding() {
    let mut table = with_ann();
    assert_eq!(table.add(b"", 0, 0), Err(Refusal::AddressMalformed));
    assert_eq!(table.add(&[b'a'; 65], 0, 0), Err(Refusal::AddressMalformed));
    assert_eq!(table.add(b"ann", 0, 0), Err(Refusal::AddressThere));
    assert_eq!(table.add(&[b'a'; 64], 0, 0), Ok(()));
    assert_eq!(table.add(b"bo", 0, 0), Err(Refusal::NoUnusedRecord));
    assert_eq!(Table::over(&mut [], &mut []).add(b"bo", 0, 0), Err(Refusal::WrongSizes));
}

#[test]
fn reading() {
    let mut table = with_ann();
    publish(&mut table, 100, PIDF, 3);
    assert_eq!(table.read(b"ann", b"presence", 3699, b"away"), Ok(&b"bbb"[..]));
    assert_eq!(table.read(b"ann", b"presence", 3700, b"away"), Ok(&b"away"[..]));
    assert_eq!(table.read(b"ann", b"presence", 3700, b""), Ok(&b""[..]));
    assert_eq!(table.read(b"bo", b"presence", 100, b"away"), Err(Refusal::NotKnown));
    assert_eq!(table.read(b"ann", b"", 100, b"away"), Err(Refusal::NotKnown));
    assert_eq!(table.read(b"ann", b"presence", 99, b"away"), Err(Refusal::ClockBelowLatest));
    assert_eq!(
        table.read(b"ann", b"presence", CLOCK_LIMIT + 1, b"away"),
        Err(Refusal::ClockAboveLimit)
    );
    assert_eq!(
        Table::over(&mut [], &mut []).read(b"ann", b"presence", 1, b""),
        Err(Refusal::WrongSizes)
    );
}

#[test]
fn what_is_shown_lies_in_the_store() {
    let mut table = with_ann();
    publish(&mut table, 100, PIDF, 3);
    let store = table.store().as_ptr_range();
    let body = table.read(b"ann", b"presence", 100, b"away").unwrap().as_ptr_range();
    assert_eq!((body.start, body.end), (store.start, store.start.wrapping_add(3)));
}

#[test]
fn words_of_refusals_differ() {
    let all = [
        Refusal::BufferTooSmall,
        Refusal::WrongSizes,
        Refusal::RequestTooLong,
        Refusal::ClockAboveLimit,
        Refusal::NotSound,
        Refusal::Unreadable,
        Refusal::AddressMalformed,
        Refusal::AddressThere,
        Refusal::NoUnusedRecord,
        Refusal::NotKnown,
        Refusal::ClockBelowLatest,
        Refusal::Other(12),
        Refusal::Other(13),
    ];
    for (i, a) in all.iter().enumerate() {
        assert!(all[..i].iter().all(|b| a.to_string() != b.to_string()), "{a}");
    }
}
