//! Whole lives by sipp, without loss and with it, and the log that they leave.

use crate::checks::{holds, Checks, Held};
use crate::host::Host;
use crate::log::{self, Line};
use crate::place::Place;
use crate::sipp;
use crate::state::State;
use crate::tags;

const ADDRESSES: [&str; 4] = ["sip:ann@example.com", "sip:bo@example.com", "sip:cy@example.com", "sip:di@example.com"];
const LIVES: u64 = 200;
const REQUESTS: u64 = 5;
/// A fifth of the answers is lost, so that about a quarter as many as there are requests are sent again.
const LOST: u32 = 20;
const SENT_AGAIN: u64 = 100;

pub fn without_loss(place: &Place, checks: &mut Checks) {
    checks.note("200 lives", lives(place, 0));
}

pub fn with_loss(place: &Place, checks: &mut Checks) {
    checks.note("200 lives with a fifth of the answers lost", lives(place, LOST));
}

/// A host that keeps no answers must have failed lives under loss: the test above can fail.
pub fn forgetful(place: &Place, checks: &mut Checks) {
    let failed = || {
        State::apart(&ADDRESSES).write(&place.state())?;
        let host = place.start(&ADDRESSES)?;
        let outcome = sipp::run(place, &host, &ADDRESSES, LIVES / 4, LOST)?;
        holds(outcome.status == Some(1) && outcome.failed > 0, || format!("{:?}", outcome))
    };
    checks.note("lives fail under loss where no answers are kept", failed());
}

fn lives(place: &Place, lost: u32) -> Held {
    State::apart(&ADDRESSES).write(&place.state())?;
    let mut host = place.start(&ADDRESSES)?;
    let outcome = sipp::run(place, &host, &ADDRESSES, LIVES, lost)?;
    holds(outcome.passed(LIVES), || format!("{:?}", outcome))?;
    holds(lost == 0 || outcome.retransmissions >= SENT_AGAIN, || format!("too few were sent again: {:?}", outcome))?;
    host.end()?;
    logged(&host, &State::read(&place.state())?)
}

/// One line a request: each is a success, and the tags of an address are those of its successes 1, 2, 3 and so on to what is spent. A
/// datagram that came again has no line.
fn logged(host: &Host, state: &State) -> Held {
    let lines = host.log()?;
    holds(lines.len() as u64 == LIVES * REQUESTS, || format!("{} lines in the log", lines.len()))?;
    let strange = lines.iter().find(|line| !matches!(line, Line::Answered(200, _, Some(0 | 900 | 1800 | 3600))));
    holds(strange.is_none(), || format!("{:?} in the log", strange))?;
    let mut given: Vec<(usize, u32)> = log::tags(&lines).into_iter().map(tags::whose).collect();
    given.sort_unstable();
    let spent = |(k, line): (usize, &crate::state::Line)| (1..=line.spent).map(move |n| (k, n)).collect::<Vec<_>>();
    let expected: Vec<(usize, u32)> = state.lines.iter().enumerate().flat_map(spent).collect();
    holds(given == expected, || format!("the log's tags are not those of {:?}", state))
}
