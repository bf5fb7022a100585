//! How often each thing came that must come: results, statuses, clauses that alone failed, values at the bounds, sizes.

use crate::call::{After, Asked, Call};
use crate::edges::{is_at, EDGES};
use crate::sizes::SIZES;
use second::results::{NOT_SOUND, UNREADABLE};
use second::sound::{failing, Clause, CLAUSES};
use second::table::Record;

const RESULTS: u64 = 12;
const STATUSES: [u64; 11] = [200, 400, 404, 405, 412, 413, 415, 423, 489, 500, 503];
/// Each thing must come at least so often.
const ENOUGH: u64 = 50;

/// A call, what came of it, and how its table stands.
struct Seen<'a> {
    call: &'a Call,
    after: &'a After<Vec<Record>>,
    table: Soundness,
}

#[derive(PartialEq)]
enum Soundness {
    /// The call was refused before it came to ask, or several clauses fail.
    NotTold,
    Sound,
    OneFails(Clause),
}

struct Thing {
    name: String,
    came: Box<dyn Fn(&Seen) -> bool>,
    count: u64,
}

pub struct Tally {
    things: Vec<Thing>,
}

impl Tally {
    pub fn new() -> Tally {
        let mut tally = Tally { things: Vec::new() };
        for result in 0..RESULTS {
            tally.wants(format!("result {}", result), move |seen| seen.after.result() == result);
        }
        for status in STATUSES {
            tally.wants(format!("status {}", status), move |seen| seen.after.is("status", status));
        }
        tally.wants("opened".into(), |seen| seen.after.result() == 0 && matches!(seen.call.asked, Asked::Open));
        tally.wants("added".into(), |seen| seen.after.result() == 0 && matches!(seen.call.asked, Asked::Add { .. }));
        tally.wants("a part of the store shown".into(), |seen| seen.after.is("shown", 1));
        tally.wants("the default shown".into(), |seen| seen.after.is("shown", 2));
        for clause in CLAUSES {
            let name = format!("only '{}' failed", clause.words());
            tally.wants(name, move |seen| seen.table == Soundness::OneFails(clause));
        }
        for edge in EDGES {
            let table = edge.1.map_or(Soundness::Sound, Soundness::OneFails);
            tally.wants(edge.0.into(), move |seen| seen.table == table && is_at(edge, &seen.call.records));
        }
        for (name, has) in SIZES {
            tally.wants(name.to_string(), move |seen| has(seen.call));
        }
        tally
    }

    fn wants(&mut self, name: String, came: impl Fn(&Seen) -> bool + 'static) {
        self.things.push(Thing { name, came: Box::new(came), count: 0 });
    }

    pub fn count(&mut self, call: &Call, after: &After<Vec<Record>>) {
        let table = soundness(call, after.result());
        let seen = Seen { call, after, table };
        for thing in &mut self.things {
            thing.count += u64::from((thing.came)(&seen));
        }
    }

    /// Prints all counts, and gives how many are enough and how many are not.
    pub fn judge(&self) -> (u64, u64) {
        for thing in &self.things {
            let said = if thing.count < ENOUGH { " FAILED: too seldom" } else { "" };
            println!("{}: {}{}", thing.name, thing.count, said);
        }
        let enough = self.things.iter().filter(|thing| thing.count >= ENOUGH).count();
        (enough as u64, (self.things.len() - enough) as u64)
    }
}

fn soundness(call: &Call, result: u64) -> Soundness {
    if result == u64::from(NOT_SOUND) {
        return match failing(&call.records)[..] {
            [clause] => Soundness::OneFails(clause),
            _ => Soundness::NotTold,
        };
    }
    let asks = !matches!(call.asked, Asked::Open);
    match asks && (result == 0 || result >= u64::from(UNREADABLE)) {
        true => Soundness::Sound,
        false => Soundness::NotTold,
    }
}
