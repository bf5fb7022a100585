//! Results 1 to 5, which the bench reaches in part only, and their order.

use crate::table::*;
use second::handle::handle;
use second::table::{add, open, Record, IN_USE, PART_SIZE};

struct Call {
    records: usize,
    store: usize,
    buffer: usize,
    request: usize,
    clock: u64,
    sound: bool,
}

const FINE: Call = Call {
    records: 2,
    store: 2 * PART_SIZE,
    buffer: 4608,
    request: 4096,
    clock: 1_000_000_000_000,
    sound: true,
};

/// The result of a call whose request is unreadable, so that 6 is the last.
fn result(call: &Call) -> u8 {
    let mut records = vec![Record::ZERO; call.records];
    let mut store = vec![3; call.store];
    let mut buffer = vec![4; call.buffer];
    if let (Some(last), false) = (records.last_mut(), call.sound) {
        last.mark = IN_USE;
    }
    let before = records.clone();
    let request = vec![b'x'; call.request];
    let handled = handle(
        &mut records,
        &mut store,
        call.clock,
        &request,
        1,
        &mut buffer,
    );
    assert_eq!(records, before);
    assert!(store.iter().all(|&byte| byte == 3));
    assert!(buffer.iter().all(|&byte| byte == 4));
    handled.unwrap_err().result()
}

fn after(change: fn(&mut Call)) -> u8 {
    let mut call = FINE;
    change(&mut call);
    result(&call)
}

fn with_records(records: usize, store: usize) -> u8 {
    result(&Call {
        records,
        store,
        ..FINE
    })
}

#[test]
fn each_by_itself() {
    assert_eq!(result(&FINE), 6);
    assert_eq!(after(|call| call.buffer = 4607), 1);
    assert_eq!(after(|call| call.buffer = 0), 1);
    assert_eq!(after(|call| call.buffer = 9000), 6);
    assert_eq!(after(|call| call.request = 4097), 3);
    assert_eq!(after(|call| call.request = 0), 6);
    assert_eq!(after(|call| call.clock = 1_000_000_000_001), 4);
    assert_eq!(after(|call| call.sound = false), 5);
}

#[test]
fn records_and_store() {
    assert_eq!(with_records(0, 0), 2);
    assert_eq!(with_records(1, PART_SIZE), 6);
    assert_eq!(with_records(16, 16 * PART_SIZE), 6);
    assert_eq!(with_records(17, 17 * PART_SIZE), 2);
    assert_eq!(with_records(2, 2 * PART_SIZE - 1), 2);
    assert_eq!(with_records(2, 2 * PART_SIZE + 1), 2);
    assert_eq!(with_records(2, 0), 2);
}

#[test]
fn the_first_that_applies_is_given() {
    let mut call = Call {
        records: 2,
        store: 0,
        buffer: 0,
        request: 5000,
        clock: u64::MAX,
        sound: false,
    };
    assert_eq!(result(&call), 1);
    call.buffer = 4608;
    assert_eq!(result(&call), 2);
    call.store = 2 * PART_SIZE;
    assert_eq!(result(&call), 3);
    call.request = 4096;
    assert_eq!(result(&call), 4);
    call.clock = 0;
    assert_eq!(result(&call), 5);
    call.sound = true;
    assert_eq!(result(&call), 6);
}

#[test]
fn a_larger_buffer_is_untouched_past_the_message() {
    let mut records = vec![Record::ZERO; 1];
    let mut store = vec![0; PART_SIZE];
    let mut buffer = vec![9; 6000];
    assert_eq!(open(&mut records, &mut store), 0);
    assert_eq!(add(&mut records, &mut store, 0, 0, b"ann"), 0);
    let head = format!("OPTIONS ann SIP/2.0\n{}\n", COPIED);
    let request = request(&head, b"");
    let written = handle(&mut records, &mut store, 0, &request, 0xabc, &mut buffer).unwrap();
    assert!(buffer[..written.length].ends_with(b"Content-Length: 0\r\n\r\n"));
    assert!(buffer[written.length..].iter().all(|&byte| byte == 9));
    let message = String::from_utf8_lossy(&buffer[..written.length]);
    assert!(message.contains("To: <ann>;tag=00000abc\r\n"));
}
