//! The archive and the second program on the same memory, call by call: boundary CALLS SEED..
//! For each seed so many calls are made to both, and compared. Then each clause of soundness is left out of the second program in
//! turn, and the two must part. A seed and a number of calls give the same calls each time.

mod archive;
mod asking;
mod call;
mod chance;
mod changes;
mod compare;
mod edges;
mod image;
mod lent;
mod life;
mod ours;
mod sizes;
mod tables;
mod tally;
mod theirs;

use call::Call;
use life::Life;
use second::sound::{failing, leave_out, Clause, CLAUSES};
use tally::Tally;

/// Leaving out a clause must be noticed within so many calls.
const SOON: u64 = 20_000;

/// Where the two programs part.
struct Parting {
    number: u64,
    call: Call,
    difference: String,
}

fn main() {
    let numbers: Option<Vec<u64>> = std::env::args().skip(1).map(|word| word.parse().ok()).collect();
    let (calls, seeds) = match numbers.as_deref() {
        Some([calls, seeds @ ..]) if !seeds.is_empty() => (*calls, seeds),
        _ => {
            eprintln!("boundary CALLS SEED..");
            std::process::exit(2);
        }
    };
    let mut tally = Tally::new();
    let agreed = seeds.iter().filter(|&&seed| seed_agrees(seed, calls, &mut tally)).count() as u64;
    let (enough, seldom) = tally.judge();
    std::panic::set_hook(Box::new(|_| {}));
    let noticed = CLAUSES.iter().filter(|&&clause| is_missed(clause, seeds[0])).count() as u64;
    let passed = agreed + enough + noticed;
    let failed = seeds.len() as u64 - agreed + seldom + CLAUSES.len() as u64 - noticed;
    println!("{} passed, {} failed", passed, failed);
    std::process::exit(i32::from(failed != 0));
}

/// Runs both programs on the calls of a seed, as long as they agree.
fn part(seed: u64, calls: u64, tally: &mut Tally) -> Option<Parting> {
    let mut life = Life::new(seed);
    for number in 1..=calls {
        let call = life.next_call();
        match compare::both(&call) {
            Err(difference) => return Some(Parting { number, call, difference }),
            Ok(after) => {
                tally.count(&call, &after);
                life.keep(after);
            }
        }
    }
    None
}

fn seed_agrees(seed: u64, calls: u64, tally: &mut Tally) -> bool {
    match part(seed, calls, tally) {
        None => {
            println!("archive and second program agree, seed {}, {} calls", seed, calls);
            true
        }
        Some(parting) => {
            println!("archive and second program DIFFER, seed {}, call {}:", seed, parting.number);
            println!("{}\n{}{}", parting.call.words(), parting.call.table_words(), parting.difference);
            false
        }
    }
}

/// Whether the two programs part when the second does not ask this clause, and at a table that fails this clause alone.
fn is_missed(clause: Clause, seed: u64) -> bool {
    leave_out(Some(clause));
    let parting = part(seed, SOON, &mut Tally::new());
    leave_out(None);
    match parting.filter(|parting| failing(&parting.call.records) == [clause]) {
        Some(parting) => {
            println!("without '{}' they differ at call {}", clause.words(), parting.number);
            true
        }
        None => {
            println!("FAILED: '{}' is not missed in {} calls", clause.words(), SOON);
            false
        }
    }
}
