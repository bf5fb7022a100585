//! The clock, with a host whose system clock can be shifted (clock.c): it never goes back, also over a restart and a kill, it goes on where
//! the system's clock is behind, and the state file is never behind it. The time for which answers are kept is measured here too.

use crate::checks::{holds, Checks, Held};
use crate::host::Host;
use crate::log::Line;
use crate::message::{self, BODY};
use crate::place::Place;
use crate::sender::Sender;
use crate::state::State;
use std::time::{SystemTime, UNIX_EPOCH};

const ANN: &str = "sip:ann@example.com";
/// A test may be as many seconds late.
const LATE: u64 = 8;

pub fn clock(place: &Place, checks: &mut Checks) {
    checks.note("the clock never goes back while the host runs", running(place));
    checks.note("the clock never goes back over a restart", restarted(place));
    checks.note("an answer is kept for 32 seconds", kept_answer(place));
}

/// The shifts take effect at once: the file is replaced whole.
fn shift(place: &Place, wall: i64, steady: i64) -> Held {
    std::fs::write(place.file("shift.new"), format!("{} {}\n", wall, steady)).map_err(|e| e.to_string())?;
    std::fs::rename(place.file("shift.new"), place.file("shift")).map_err(|e| e.to_string())
}

fn seconds_now() -> u64 {
    SystemTime::now().duration_since(UNIX_EPOCH).expect("no clock").as_secs()
}

/// Where eight publications are live, a ninth gets 503, and Retry-After tells the host's clock: the least end minus the clock.
fn left(host: &Host) -> Result<u64, String> {
    Sender::new(host.at).wants(&message::publish(ANN, None, 3600, BODY), 503)?;
    match host.log()?.last() {
        Some(Line::Answered(503, None, Some(seconds))) => Ok(*seconds),
        other => Err(format!("{:?} in the log", other)),
    }
}

/// So many seconds are left of the eight, or a few less.
fn wants_left(host: &Host, expected: u64) -> Held {
    let found = left(host)?;
    holds(found <= expected && found + LATE >= expected, || format!("{} seconds are left in place of {}", found, expected))
}

fn running(place: &Place) -> Held {
    shift(place, 0, 0)?;
    let _ = std::fs::remove_file(place.state());
    let mut host = place.start(&[ANN])?;
    let sender = Sender::new(host.at);
    let mut tag = 0;
    for _ in 0..8 {
        tag = sender.tag(&message::publish(ANN, None, 3600, BODY))?;
    }
    // What the system's clock and the steady one are ahead, and what is left then.
    let shifts = [(0, 0, 3600), (1_000, 0, 2600), (-5_000, 0, 2600), (-5_000, 100, 2500), (1_099, 100, 2500), (1_200, 100, 2400)];
    for (wall, steady, expected) in shifts {
        shift(place, wall, steady)?;
        wants_left(&host, expected)?;
        let used = seconds_now() as i64 + wall;
        let written = State::read(&place.state())?.clock;
        holds(written as i64 >= used, || format!("{} is written at {}", written, used))?;
    }
    shift(place, -5_000, 100)?;
    sender.wants(&message::publish(ANN, Some(tag), 3600, ""), 200)?;
    host.end().map(|_| ())
}

/// The written clock after kills and clean ends with the system's clock behind.
fn restarted(place: &Place) -> Held {
    shift(place, 10_000, 0)?;
    let _ = std::fs::remove_file(place.state());
    let mut least = seconds_now() + 10_000;
    for kills in [false, true, true, false, false] {
        let mut host = place.start(&[ANN])?;
        Sender::new(host.at).wants(&message::passing(ANN), 200)?;
        if kills {
            host.kill();
        } else {
            host.end()?;
        }
        let found = State::read(&place.state())?.clock;
        holds(found >= least && found <= least + 30, || format!("{} is written after {}", found, least))?;
        least = found;
        shift(place, -10_000, 0)?;
    }
    Ok(())
}

/// From the first time that it was given, by the steady clock; the system's clock does not count.
fn kept_answer(place: &Place) -> Held {
    shift(place, 0, 0)?;
    let mut host = place.start(&[ANN])?;
    let sender = Sender::new(host.at);
    let tag = sender.tag(&message::publish(ANN, None, 3600, BODY))?;
    let request = message::publish(ANN, Some(tag), 3600, "");
    sender.wants(&request, 200)?;
    for (wall, steady, expected) in [(0, 0, 200), (100, 20, 200), (-100, 31 - LATE as i64, 200), (0, 33, 412)] {
        shift(place, wall, steady)?;
        sender.wants(&request, expected)?;
    }
    host.end().map(|_| ())
}
