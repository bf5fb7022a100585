//! A call made to the archive, with guard bytes around all that is lent to it.

use crate::archive::*;
use crate::call::{After, Asked, Call, Numbers};
use crate::lent::Lent;

/// What came of it; or what was changed that no call may change.
pub fn run(call: &Call) -> Result<After<Vec<u8>>, String> {
    let mut records = Lent::new(&call.images, call.shift % 2 * 8);
    let mut store = Lent::new(&call.store, call.shift);
    let (numbers, answer) = match &call.asked {
        Asked::Open => (open(call, &mut records, &mut store), Vec::new()),
        Asked::Add { address, start, spent } => {
            (add(call, &mut records, &mut store, address, *start, *spent)?, Vec::new())
        }
        Asked::Handle { .. } => handle(call, &mut records, &mut store)?,
        Asked::Read { address, name, clock } => {
            let numbers = read(call, &records, &store, address, name, *clock)?;
            is_untouched("records read", &records, &call.images)?;
            is_untouched("store read", &store, &call.store)?;
            (numbers, Vec::new())
        }
    };
    guards_stand("records", &records)?;
    guards_stand("store", &store)?;
    Ok(After {
        numbers,
        records: records.content().to_vec(),
        store: store.content().to_vec(),
        answer,
    })
}

fn open(call: &Call, records: &mut Lent, store: &mut Lent) -> Numbers {
    let count = call.records.len();
    // The pointers are to so many records and so many bytes, and nothing else holds them.
    let result = unsafe { windgusset_open(records.pointer_mut(), count, store.pointer_mut(), call.store.len()) };
    vec![("result", result.into())]
}

fn add(
    call: &Call,
    records: &mut Lent,
    store: &mut Lent,
    address: &[u8],
    start: u32,
    spent: u32,
) -> Result<Numbers, String> {
    let (count, size) = (call.records.len(), call.store.len());
    let lent = Lent::new(address, call.shift);
    let (records, store) = (records.pointer_mut(), store.pointer_mut());
    let result = unsafe { windgusset_add(records, count, store, size, lent.pointer(), address.len(), start, spent) };
    is_untouched("address", &lent, address)?;
    Ok(vec![("result", result.into())])
}

fn handle(call: &Call, records: &mut Lent, store: &mut Lent) -> Result<(Numbers, Vec<u8>), String> {
    let (clock, number, request, answer) = match &call.asked {
        Asked::Handle { clock, number, request, answer } => (*clock, *number, request, answer),
        _ => return Err("no request to handle".to_string()),
    };
    let (count, size) = (call.records.len(), call.store.len());
    let (asked, mut written) = (Lent::new(request, call.shift), Lent::new(answer, call.shift));
    let (records, store, to) = (records.pointer_mut(), store.pointer_mut(), written.pointer_mut());
    let handled = unsafe {
        windgusset_handle(
            records,
            count,
            store,
            size,
            clock,
            number,
            asked.pointer(),
            request.len(),
            to,
            answer.len(),
        )
    };
    is_untouched("request", &asked, request)?;
    guards_stand("answer", &written)?;
    let numbers = vec![
        ("result", handled.result.into()),
        ("status", handled.status.into()),
        ("length", handled.length as u64),
        ("tag", handled.tag.into()),
        ("seconds", handled.seconds),
    ];
    Ok((numbers, written.content().to_vec()))
}

fn read(
    call: &Call,
    records: &Lent,
    store: &Lent,
    address: &[u8],
    name: &[u8],
    clock: u64,
) -> Result<Numbers, String> {
    let (count, size) = (call.records.len(), call.store.len());
    let (whose, which) = (Lent::new(address, call.shift), Lent::new(name, call.shift));
    let state = unsafe {
        windgusset_read(
            records.pointer(),
            count,
            store.pointer(),
            size,
            whose.pointer(),
            address.len(),
            which.pointer(),
            name.len(),
            clock,
        )
    };
    is_untouched("address", &whose, address)?;
    is_untouched("name", &which, name)?;
    Ok(vec![
        ("result", state.result.into()),
        ("shown", state.shown.into()),
        ("position", state.position as u64),
        ("length", state.length as u64),
    ])
}

fn is_untouched(name: &str, lent: &Lent, content: &[u8]) -> Result<(), String> {
    guards_stand(name, lent)?;
    if lent.content() == content {
        Ok(())
    } else {
        Err(format!("the archive changed the {}, which it may only read", name))
    }
}

fn guards_stand(name: &str, lent: &Lent) -> Result<(), String> {
    if lent.guards_stand() {
        Ok(())
    } else {
        Err(format!("the archive wrote outside the {}", name))
    }
}
