//! The paper held against the program, from outside: whole requests in
//! readable text, and what comes back.

mod answers;
mod eleven;
mod generator;
mod lives;
mod order;
mod reading_kinds;
mod reading_state;
mod readings;
mod reads;
mod requests;
mod rows;
mod scripts;
mod sizes;
mod spelling;
mod successes;
mod table;
mod witness_reading;
