//! One address with its publications, as it lies in memory.
use crate::{ADDRESS_BYTES, SLOTS};

/// One publication, where the record's map says that its slot is occupied.
#[repr(C)]
#[derive(Clone, Copy, Debug, Default, PartialEq, Eq)]
pub struct Slot {
    /// The package: 0 presence, 1 message-summary, 2 dialog.
    pub event: u8,
    /// The SIP-ETag, there written as eight lowercase hex digits.
    pub tag: u32,
    /// The publication is live while the clock is below its end.
    pub end: u64,
    /// The bytes of the body.
    pub length: u16,
    /// The success, counted as `spent` is, that last set the body.
    pub edition: u32,
}

/// One address. The library keeps records sound; one with other values is refused as [`NotSound`](crate::Refusal::NotSound).
///
/// Any 288 bytes are a record, so that one can be read back from a file:
///
/// ```
/// use windgusset::{Record, Refusal, Table, STORE_BYTES};
///
/// let bytes: [u8; Record::BYTES] = Record::EMPTY.into();
/// assert_eq!(Record::from(bytes), Record::EMPTY);
///
/// let mut records = [Record::from([255; Record::BYTES])];
/// let mut store = [0; STORE_BYTES];
/// assert_eq!(Table::over(&mut records, &mut store).add(b"ann", 0, 0), Err(Refusal::NotSound));
/// ```
#[repr(C)]
#[derive(Clone, Copy, Debug, PartialEq, Eq)]
pub struct Record {
    /// 1 in use, 0 not; anything else is not sound.
    pub used: u8,
    /// The address, zero past its end.
    pub address: [u8; ADDRESS_BYTES],
    /// Success n gives the tag `start` plus n times 2654435769, kept to 32 bits.
    pub start: u32,
    /// The tags spent: the latest n.
    pub spent: u32,
    /// The clock of the latest success.
    pub clock: u64,
    /// Bit k: slot k is occupied.
    pub map: u8,
    /// The publications.
    pub slots: [Slot; SLOTS],
}

impl Slot {
    /// The bytes of a slot.
    pub const BYTES: usize = 24;

    /// A slot of zeros.
    pub const EMPTY: Slot = Slot {
        event: 0,
        tag: 0,
        end: 0,
        length: 0,
        edition: 0,
    };

    /// Writes the fields where they lie in memory.
    fn put(&self, to: &mut [u8]) {
        to[0] = self.event;
        to[4..8].copy_from_slice(&self.tag.to_ne_bytes());
        to[8..16].copy_from_slice(&self.end.to_ne_bytes());
        to[16..18].copy_from_slice(&self.length.to_ne_bytes());
        to[20..24].copy_from_slice(&self.edition.to_ne_bytes());
    }
}

impl Record {
    /// The bytes of a record.
    pub const BYTES: usize = 288;

    /// A record that is not in use.
    pub const EMPTY: Record = Record {
        used: 0,
        address: [0; ADDRESS_BYTES],
        start: 0,
        spent: 0,
        clock: 0,
        map: 0,
        slots: [Slot::EMPTY; SLOTS],
    };
}

impl Default for Record {
    fn default() -> Record {
        Record::EMPTY
    }
}

impl From<[u8; Record::BYTES]> for Record {
    /// The record that lies in memory as these bytes. Padding is not looked at.
    fn from(bytes: [u8; Record::BYTES]) -> Record {
        // SAFETY: a record is numbers alone, and each may have any bits; that both have 288 bytes is checked by the compiler.
        unsafe { core::mem::transmute(bytes) }
    }
}

impl From<Record> for [u8; Record::BYTES] {
    /// The bytes as which the record lies in memory, with zero for its padding.
    fn from(record: Record) -> [u8; Record::BYTES] {
        let mut bytes = [0; Record::BYTES];
        bytes[0] = record.used;
        bytes[1..65].copy_from_slice(&record.address);
        bytes[68..72].copy_from_slice(&record.start.to_ne_bytes());
        bytes[72..76].copy_from_slice(&record.spent.to_ne_bytes());
        bytes[80..88].copy_from_slice(&record.clock.to_ne_bytes());
        bytes[88] = record.map;
        for (slot, to) in record.slots.iter().zip(bytes[96..].chunks_exact_mut(Slot::BYTES)) {
            slot.put(to);
        }
        bytes
    }
}
