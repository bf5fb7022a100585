//! Windgusset keeps SIP published event state (PUBLISH, RFC 3903) for 1 to 16 addresses: one whole request in, one whole response out.
//!
//! The caller lends all memory: 1 to 16 [`Record`]s, a store of [`STORE_BYTES`] for each, and a buffer of [`ANSWER_BYTES`] for each
//! answer. Nothing is allocated, and nothing global is written.
//!
//! ```
//! use windgusset::{Outcome, Record, Table, ANSWER_BYTES, STORE_BYTES};
//!
//! let mut records = [Record::EMPTY; 1];
//! let mut store = [0; STORE_BYTES];
//! let mut table = Table::open(&mut records, &mut store)?;
//! table.add(b"ann", 0, 0)?;
//!
//! let request = b"PUBLISH ann SIP/2.0\r\nVia: SIP/2.0/UDP pua\r\nFrom: <ann>;tag=1\r\nTo: <ann>\r\nCall-ID: 1\r\nCSeq: 1 PUBLISH\r\n\
//!     Event: presence\r\nExpires: 900\r\nContent-Type: application/pidf+xml\r\nContent-Length: 4\r\n\r\nfree";
//! let mut buffer = [0; ANSWER_BYTES];
//! let answer = table.handle(100, 1, request, &mut buffer)?;
//! assert_eq!(answer.outcome, Outcome::Granted { tag: 0x9e3779b9, seconds: 900 });
//! assert!(answer.message.starts_with(b"SIP/2.0 200 OK\r\n"));
//!
//! assert_eq!(table.read(b"ann", b"presence", 999, b"away")?, b"free");
//! assert_eq!(table.read(b"ann", b"presence", 1000, b"away")?, b"away");
//! # Ok::<(), windgusset::Refusal>(())
//! ```
//!
//! The functions are those of `libwindgusset.a`, which `tools/library` makes; they are proved, and this crate is tested. `build.rs` finds
//! the archive in the folder that the environment's `WINDGUSSET_LIBRARY` names. Without cargo: `rustc -L native=FOLDER`.
#![no_std]
#![deny(missing_docs, unsafe_op_in_unsafe_fn)]

#[cfg(not(all(target_arch = "x86_64", target_pointer_width = "64", not(windows))))]
compile_error!("libwindgusset.a is for x86-64, by the C calling convention of Linux");

mod answer;
mod foreign;
mod record;
mod refusal;
mod table;

pub use answer::{Answer, Outcome};
pub use record::{Record, Slot};
pub use refusal::Refusal;
pub use table::Table;

/// The most records of a table.
pub const MOST_RECORDS: usize = 16;
/// The bytes of the store for each record; a store has exactly as many.
pub const STORE_BYTES: usize = 4096;
/// The least bytes of an answer buffer; every message fits.
pub const ANSWER_BYTES: usize = 4608;
/// The most bytes of a request.
pub const REQUEST_BYTES: usize = 4096;
/// The most bytes of an address.
pub const ADDRESS_BYTES: usize = 64;
/// The publications of an address.
pub const SLOTS: usize = 8;
/// The most bytes of a body. Slot k of record r has its body from 4,096 × r + 512 × k of the store on.
pub const BODY_BYTES: usize = 512;
/// The latest clock, in seconds.
pub const CLOCK_LIMIT: u64 = 1_000_000_000_000;
