//! The calls of one seed, one after the other. A table is opened in memory of any bytes, gets addresses and publications, and is
//! kept from call to call. Between its own calls come calls on other memory: copies of it with one change, tables built
//! directly, tables of any bytes, and wrong sizes. Nothing of those is kept.

use crate::asking::{any_adding, any_call, call_on};
use crate::call::{After, Asked, Call};
use crate::chance::one_of;
use crate::changes::{with_one_change, with_one_failing};
use crate::tables::{any_count, built, of_any_bytes, Table};
use second::generate::random::Random;
use second::sound::CLAUSES;
use second::table::{Record, PART_SIZE};

/// So many calls are made on a table before another is opened.
const CALLS_OF_A_TABLE: usize = 600;

pub struct Life {
    random: Random,
    table: Table,
    /// The calls that this table still has.
    left: usize,
    /// Whether the latest call was on the table itself.
    is_own: bool,
}

impl Life {
    pub fn new(seed: u64) -> Life {
        Life {
            random: Random::new(seed),
            table: Table { records: Vec::new(), store: Vec::new() },
            left: 0,
            is_own: false,
        }
    }

    pub fn next_call(&mut self) -> Call {
        if self.left == 0 {
            return self.opening();
        }
        self.left -= 1;
        self.is_own = self.random.below(9) < 5;
        if self.is_own {
            self.own_call()
        } else {
            self.other_call()
        }
    }

    /// Goes on with what the call left.
    pub fn keep(&mut self, after: After<Vec<Record>>) {
        if self.is_own {
            self.table = Table { records: after.records, store: after.store };
        }
    }

    fn opening(&mut self) -> Call {
        let random = &mut self.random;
        self.left = CALLS_OF_A_TABLE;
        self.is_own = true;
        let count = any_count(random);
        call_on(&of_any_bytes(count, random), Asked::Open, random)
    }

    /// Addresses come first, then anything but opening again.
    fn own_call(&mut self) -> Call {
        let (table, random) = (&self.table, &mut self.random);
        if CALLS_OF_A_TABLE - self.left < 3 * table.records.len() {
            let asked = any_adding(&table.records, random);
            return call_on(table, asked, random);
        }
        loop {
            let call = any_call(table, table, random);
            if !matches!(call.asked, Asked::Open) {
                return call;
            }
        }
    }

    fn other_call(&mut self) -> Call {
        let (table, random) = (&self.table, &mut self.random);
        let count = any_count(random);
        let (sound, lent) = match random.below(16) {
            0..=5 => {
                let clause = *random.pick(&CLAUSES);
                with_one_failing(clause, count, random)
            }
            6 | 7 => (table.clone(), with_one_change(table, random)),
            8 => {
                let sound = built(count, random);
                let lent = with_one_change(&sound, random);
                (sound, lent)
            }
            9 => (table.clone(), of_any_bytes(count, random)),
            10 => of_a_wrong_size(random),
            _ => {
                let sound = built(count, random);
                (sound.clone(), sound)
            }
        };
        any_call(&sound, &lent, random)
    }
}

/// No records or too many; or a store that is too short or too long, by one byte or by a record's part.
fn of_a_wrong_size(random: &mut Random) -> (Table, Table) {
    let count = one_of([0, 1, 2, 15, 16, 17], random);
    let sound = built(count, random);
    let right = PART_SIZE * count;
    let mut lent = sound.clone();
    if (1..=16).contains(&count) || random.one_in(2) {
        let size = one_of([right.saturating_sub(1), right + 1, right.saturating_sub(PART_SIZE), right + PART_SIZE], random);
        lent.store.resize(size, 7);
    }
    (sound, lent)
}
