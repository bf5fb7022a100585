//! The publication part of the presence server, written from documents 01 and 02 alone.
//! It is held against the proved definitions byte by byte.

pub mod bench;
pub mod counts;
pub mod frames_in;
pub mod frames_out;
pub mod generate;
pub mod handle;
pub mod header_lines;
pub mod life;
pub mod listing;
pub mod lives;
pub mod message;
pub mod names;
pub mod packages;
pub mod read_counts;
pub mod read_state;
pub mod reading_in;
pub mod reading_kinds;
pub mod reads;
pub mod record;
pub mod refusals;
pub mod request;
pub mod results;
pub mod script_in;
pub mod script_out;
pub mod sound;
pub mod success;
pub mod table;
pub mod tags;
pub mod text;
pub mod to_tag;
pub mod turn;
pub mod unreadable;
pub mod witness;
