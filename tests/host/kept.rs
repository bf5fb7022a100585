//! What the state file keeps: counts ahead of use, exact counts after a clean end, addresses that are not served, and the clock.

use crate::checks::{holds, Checks, Held};
use crate::host::{Host, SIGINT};
use crate::message;
use crate::place::Place;
use crate::sender::Sender;
use crate::state::{Line, State};
use crate::tags;
use std::time::{SystemTime, UNIX_EPOCH};

const ANN: &str = "sip:ann@example.com";
const BO: &str = "sip:bo@example.com";
const GONE: &str = "sip:gone@example.com";

pub fn kept(place: &Place, checks: &mut Checks) {
    checks.note("a first start, clean ends and restarts", restarts(place));
    checks.note("the count is written before a tag is given", ahead(place));
    checks.note("addresses that are not served stay", others_stay(place));
    checks.note("a clock that is ahead goes on", clock_ahead(place));
    checks.note("the clock is the system's where that is later", clock_now(place));
    checks.note("the last tags of an address", last_tags(place));
    checks.note("addresses from a file", from_a_file(place));
    checks.note("256 addresses are kept", most_addresses(place));
}

fn seconds_now() -> u64 {
    SystemTime::now().duration_since(UNIX_EPOCH).expect("no clock").as_secs()
}

fn fresh(place: &Place) {
    let _ = std::fs::remove_file(place.state());
}

fn line(spent: u32, start: u32, address: &str) -> Line {
    Line { spent, start, address: address.to_string() }
}

/// Spends so many tags, which have to be those of the successes after the first number.
fn spend(host: &Host, line: &Line, count: u32) -> Held {
    let sender = Sender::new(host.at);
    for n in line.spent + 1..=line.spent + count {
        let tag = sender.tag(&message::passing(&line.address))?;
        holds(tag == tags::tag(line.start, n), || format!("success {} of {:?} gave {:08x}", n, line, tag))?;
    }
    Ok(())
}

/// After a clean end what is spent is exact, and the next host goes on there.
fn restarts(place: &Place) -> Held {
    fresh(place);
    let mut host = place.start(&[ANN, BO])?;
    let first = State::read(&place.state())?;
    let mut lines = [line(0, first.lines[0].start, ANN), line(0, first.lines[1].start, BO)];
    holds(first.lines[0].start != first.lines[1].start, || "the starts are not by chance".to_string())?;
    for (signal, counts) in [(SIGINT, [7, 3]), (crate::host::SIGTERM, [0, 300]), (SIGINT, [257, 0]), (SIGINT, [0, 0])] {
        for (line, count) in lines.iter_mut().zip(counts) {
            spend(&host, line, count)?;
            line.spent += count;
        }
        let ended = host.end_by(signal)?;
        holds(ended.status == 0, || format!("{:?}", ended))?;
        let state = State::read(&place.state())?;
        holds(state.lines == lines, || format!("{:?} in place of {:?}", state, lines))?;
        holds(state.clock.abs_diff(seconds_now()) <= 2, || format!("{:?} ended at {}", state, seconds_now()))?;
        host = place.start(&[ANN, BO])?;
    }
    host.end().map(|_| ())
}

/// At each answer the file that stands there covers the tag, and by no more than a block.
fn ahead(place: &Place) -> Held {
    State { clock: 0, lines: vec![line(100, 5, ANN)] }.write(&place.state())?;
    let mut host = place.start(&[ANN])?;
    let sender = Sender::new(host.at);
    for n in 101..=700 {
        let tag = sender.tag(&message::passing(ANN))?;
        let spent = State::read(&place.state())?.spent(ANN).unwrap_or(0);
        holds(tag == tags::tag(5, n), || format!("success {} gave {:08x}", n, tag))?;
        holds((n..n + 256).contains(&spent), || format!("{} is written at success {}", spent, n))?;
    }
    host.end().map(|_| ())
}

/// Lines of addresses that are not served stay as they are and where they are; a new address comes last.
fn others_stay(place: &Place) -> Held {
    let mut state = State { clock: 5, lines: vec![line(9, 1, GONE), line(3, 2, ANN), line(u32::MAX, 3, "x")] };
    state.write(&place.state())?;
    let mut host = place.start(&[BO, ANN])?;
    spend(&host, &state.lines[1], 2)?;
    host.end()?;
    let found = State::read(&place.state())?;
    state.lines[1].spent += 2;
    let start = found.lines.get(3).map_or(0, |l| l.start);
    state.lines.push(line(0, start, BO));
    holds(found.lines == state.lines, || format!("{:?} in place of {:?}", found, state))
}

/// A clock 1000 seconds ahead never goes back, not in the file and not after a kill.
fn clock_ahead(place: &Place) -> Held {
    let mut state = State { clock: seconds_now() + 1_000, lines: vec![line(0, 0, ANN)] };
    state.write(&place.state())?;
    for kills in [false, true, false] {
        let mut host = place.start(&[ANN])?;
        spend(&host, &state.lines[0], 3)?;
        if kills {
            host.kill();
        } else {
            host.end()?;
        }
        let found = State::read(&place.state())?;
        holds(found.clock >= state.clock && found.clock < state.clock + 60, || format!("{:?} after {:?}", found, state))?;
        state = found;
    }
    Ok(())
}

/// A kill leaves a clock that is at least what was used, and not far ahead of it.
fn clock_now(place: &Place) -> Held {
    let state = State { clock: seconds_now() - 1_000, lines: vec![line(0, 0, ANN)] };
    state.write(&place.state())?;
    let host = place.start(&[ANN])?;
    spend(&host, &state.lines[0], 1)?;
    drop(host);
    let found = State::read(&place.state())?;
    holds(found.clock >= seconds_now() - 1 && found.clock <= seconds_now() + 60, || format!("{:?} at {}", found, seconds_now()))
}

/// Tags do not begin again where all are spent.
fn last_tags(place: &Place) -> Held {
    let state = State { clock: 0, lines: vec![line(u32::MAX - 3, 77, ANN)] };
    state.write(&place.state())?;
    let all_spent = || {
        let found = State::read(&place.state())?;
        holds(found.lines == [line(u32::MAX, 77, ANN)], || format!("{:?}", found))
    };
    let mut host = place.start(&[ANN])?;
    all_spent()?;
    spend(&host, &state.lines[0], 3)?;
    for _ in 0..2 {
        Sender::new(host.at).wants(&message::passing(ANN), 500)?;
        host.end()?;
        all_spent()?;
        host = place.start(&[ANN])?;
    }
    Ok(())
}

/// One address a line, beside addresses on the command line; the last line may have no end.
fn from_a_file(place: &Place) -> Held {
    fresh(place);
    std::fs::write(place.file("addresses"), format!("{}\n\n{}", ANN, BO)).map_err(|e| e.to_string())?;
    let mut host = place.start(&[GONE, "-f", &place.word("addresses")])?;
    let sender = Sender::new(host.at);
    for address in [ANN, BO, GONE] {
        sender.wants(&message::passing(address), 200)?;
    }
    sender.wants(&message::passing("sip:nobody@example.com"), 404)?;
    host.end().map(|_| ())
}

/// A file with 256 addresses of 64 bytes each and the longest numbers is read and written.
fn most_addresses(place: &Place) -> Held {
    let long = |k: u32| line(u32::MAX, u32::MAX - k, &format!("{:#>64}", k));
    let state = State { clock: 499_999_999_000, lines: (0..256).map(long).collect() };
    state.write(&place.state())?;
    let words: Vec<&str> = state.lines.iter().map(|l| l.address.as_str()).take(16).collect();
    place.start(&words)?.end()?;
    let found = State::read(&place.state())?;
    holds(found.lines == state.lines && found.clock >= state.clock, || "it was changed".to_string())
}
