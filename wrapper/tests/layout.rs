//! Records and slots lie in memory as `windgusset.h` has them, and the archive writes and reads them so.
use std::mem::{align_of, size_of};
use windgusset::{Record, Refusal, Slot, Table, ANSWER_BYTES, SLOTS, STORE_BYTES};

// How far a field lies behind the start of what holds it.
fn offset<A, B>(whole: &A, field: &B) -> usize {
    field as *const B as usize - whole as *const A as usize
}

// A record in which no two bytes beside each other are the same.
fn distinct() -> Record {
    let mut at = 0;
    let mut bytes = [0; Record::BYTES];
    bytes.fill_with(|| {
        at += 1;
        at as u8
    });
    Record::from(bytes)
}

#[test]
fn sizes_and_alignment() {
    assert_eq!((size_of::<Slot>(), align_of::<Slot>()), (Slot::BYTES, 8));
    assert_eq!((size_of::<Record>(), align_of::<Record>()), (Record::BYTES, 8));
    assert_eq!((Slot::BYTES, Record::BYTES), (24, 288));
}

#[test]
fn offsets() {
    let r = Record::EMPTY;
    assert_eq!(offset(&r, &r.used), 0);
    assert_eq!(offset(&r, &r.address), 1);
    assert_eq!(offset(&r, &r.start), 68);
    assert_eq!(offset(&r, &r.spent), 72);
    assert_eq!(offset(&r, &r.clock), 80);
    assert_eq!(offset(&r, &r.map), 88);
    assert_eq!(offset(&r, &r.slots), 96);
    for (k, s) in r.slots.iter().enumerate() {
        assert_eq!(offset(&r, s), 96 + 24 * k);
        assert_eq!(offset(s, &s.event), 0);
        assert_eq!(offset(s, &s.tag), 4);
        assert_eq!(offset(s, &s.end), 8);
        assert_eq!(offset(s, &s.length), 16);
        assert_eq!(offset(s, &s.edition), 20);
    }
}

#[test]
fn bytes_and_back() {
    let r = distinct();
    let bytes: [u8; Record::BYTES] = r.into();
    assert_eq!(Record::from(bytes), r);
    assert_eq!(r.start, u32::from_ne_bytes([69, 70, 71, 72]));
    assert_eq!(bytes[65..68], [0; 3]);
    assert_eq!(bytes[76..80], [0; 4]);
    assert_eq!(bytes[89..96], [0; 7]);
    assert_eq!(bytes.iter().filter(|b| **b == 0).count(), 14 + 1 + SLOTS * 5);
}

#[test]
fn default_is_empty() {
    assert_eq!(Record::default(), Record::EMPTY);
    assert_eq!(Slot::default(), Slot::EMPTY);
    assert_eq!(<[u8; Record::BYTES]>::from(Record::EMPTY), [0; Record::BYTES]);
}

#[test]
fn the_archive_writes_the_fields() {
    let mut records = [distinct(); 2];
    let mut store = [1; 2 * STORE_BYTES];
    let mut buffer = [0; ANSWER_BYTES];
    let mut table = Table::open(&mut records, &mut store).unwrap();
    assert_eq!(table.records(), [Record::EMPTY; 2]);
    assert_eq!(table.store(), [0; 2 * STORE_BYTES]);
    table.add(b"ann", 1, 2).unwrap();
    table.add(b"bo", 0x01020304, 0x05060708).unwrap();
    let request = b"PUBLISH bo SIP/2.0\r\nVia: v\r\nFrom: f\r\nTo: t\r\nCall-ID: 1\r\nCSeq: 1 PUBLISH\r\n\
        Event: dialog\r\nExpires: 70\r\nContent-Type: application/dialog-info+xml\r\n\r\ntalks";
    table.handle(0xA1B2C3D4E5, 1, request, &mut buffer).unwrap();

    let mut expected = Record::EMPTY;
    expected.used = 1;
    expected.address[..2].copy_from_slice(b"bo");
    expected.start = 0x01020304;
    expected.spent = 0x05060709;
    expected.clock = 0xA1B2C3D4E5;
    expected.map = 1;
    expected.slots[0] = Slot {
        event: 2,
        tag: 0x01020304u32.wrapping_add(0x05060709u32.wrapping_mul(2654435769)),
        end: 0xA1B2C3D4E5 + 70,
        length: 5,
        edition: 0x05060709,
    };
    assert_eq!(table.records()[1], expected);
    assert_eq!(table.store()[STORE_BYTES..STORE_BYTES + 6], *b"talks\0");
    assert_eq!(table.records()[0].spent, 2);
}

#[test]
fn the_archive_reads_the_fields() {
    let mut records = [Record::EMPTY];
    let mut store = [0; STORE_BYTES];
    records[0].used = 1;
    records[0].address[0] = b'a';
    records[0].spent = 9;
    for k in 0..SLOTS {
        store[512 * k] = b'0' + k as u8;
        let n = k as u32 + 1;
        records[0].slots[k] = Slot {
            event: 0,
            tag: n.wrapping_mul(2654435769),
            end: 3600,
            length: 1,
            edition: n,
        };
        records[0].map |= 1 << k;
        let table = Table::over(&mut records, &mut store);
        assert_eq!(table.read(b"a", b"presence", 3599, b""), Ok(&[b'0' + k as u8][..]));
        records[0].slots[k].edition = 10;
        let table = Table::over(&mut records, &mut store);
        assert_eq!(table.read(b"a", b"presence", 3599, b""), Err(Refusal::NotSound));
        records[0].slots[k].edition = n;
    }
}
