//! A state that cannot be written, at the start and while the host runs: it says so and ends, and no tag is given that is not covered.

use crate::checks::{holds, Checks, Held};
use crate::host::Ended;
use crate::message;
use crate::place::{self, Place, HOME};
use crate::sender::Sender;
use crate::state::State;
use crate::tags;
use std::time::Duration;

const ANN: &str = "sip:ann@example.com";

pub fn unwritten(place: &Place, checks: &mut Checks) {
    checks.note("a state that cannot be written at the start", at_start(place));
    checks.note("a state in a folder that is not there", no_folder(place));
    checks.note("a state that cannot be written while it runs", while_it_runs(place));
    checks.note("a state that cannot be written at the end", at_end(place));
}

/// With a host in which a call fails that writes the state (order.c): the disk is full or broken.
pub fn failing(place: &Place, checks: &mut Checks) {
    checks.note("a disk that fails", refused_at_start(place));
}

/// With a host that does not write its state in order (order.c): it is aborted, so that the test above can fail.
pub fn disordered(place: &Place, checks: &mut Checks) {
    let port = place::free(HOME).port().to_string();
    let ended = place.run(&["127.0.0.1", &port, &place.word("state"), ANN]);
    let aborted = ended.and_then(|ended| holds(ended.status < 0 && ended.said.contains("out of order"), || format!("{:?}", ended)));
    checks.note("a host that does not write in order is caught", aborted);
}

/// A message about the state, and a status that is not 0.
fn is_refusal(ended: &Ended) -> Held {
    let last = ended.said.lines().last().unwrap_or("");
    holds(ended.status > 0 && last.contains("cannot write") && last.contains("state"), || format!("{:?}", ended))
}

/// In the way of the file that is written first.
fn block(place: &Place) -> Held {
    std::fs::create_dir(place.file("state.new")).map_err(|e| e.to_string())
}

fn unblock(place: &Place) -> Held {
    std::fs::remove_dir(place.file("state.new")).map_err(|e| e.to_string())
}

fn at_start(place: &Place) -> Held {
    block(place)?;
    let refused = refused_at_start(place);
    unblock(place)?;
    refused
}

fn refused_at_start(place: &Place) -> Held {
    let state = State::apart(&[ANN]);
    state.write(&place.state())?;
    let port = place::free(HOME).port().to_string();
    is_refusal(&place.run(&["127.0.0.1", &port, &place.word("state"), ANN])?)?;
    holds(State::read(&place.state())? == state, || "the state was changed".to_string())
}

fn no_folder(place: &Place) -> Held {
    let port = place::free(HOME).port().to_string();
    is_refusal(&place.run(&["127.0.0.1", &port, &place.word("nowhere/state"), ANN])?)
}

/// The block that is written is spent; the first request after it ends the host, and is not answered.
fn while_it_runs(place: &Place) -> Held {
    State::apart(&[ANN]).write(&place.state())?;
    let mut host = place.start(&[ANN])?;
    let sender = Sender::new(host.at);
    block(place)?;
    let written = State::read(&place.state())?.spent(ANN).unwrap_or(0);
    while !host.has_ended() {
        let request = message::passing(ANN);
        sender.send(&request.bytes)?;
        if let Some(bytes) = sender.answer(&request, Duration::from_secs(2)) {
            let n = tags::whose(message::Answer::new(bytes)?.tag()?).1;
            holds(n <= written, || format!("success {} was given with {} written", n, written))?;
        }
    }
    unblock(place)?;
    let ended = host.ends()?;
    is_refusal(&ended)?;
    holds(host.log()?.len() == written as usize, || format!("{} requests were handled", host.log().map_or(0, |l| l.len())))?;
    holds(State::read(&place.state())?.spent(ANN) == Some(written), || "the state was changed".to_string())
}

/// Nothing is lost: the file stays as it is, which is ahead of what was given.
fn at_end(place: &Place) -> Held {
    State::apart(&[ANN]).write(&place.state())?;
    let mut host = place.start(&[ANN])?;
    Sender::new(host.at).wants(&message::passing(ANN), 200)?;
    let state = State::read(&place.state())?;
    block(place)?;
    let ended = host.end_by(crate::host::SIGTERM);
    unblock(place)?;
    is_refusal(&ended?)?;
    holds(State::read(&place.state())? == state, || "the state was changed".to_string())
}
