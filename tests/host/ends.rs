//! Clean ends under a flood of datagrams and without a log, and a second host that is refused beside a first.

use crate::checks::{holds, Checks, Held};
use crate::host::{SIGINT, SIGTERM};
use crate::log;
use crate::message;
use crate::place::{self, Place, HOME};
use crate::sender::Sender;
use crate::state::State;
use crate::tags;
use std::sync::atomic::{AtomicBool, Ordering};
use std::time::Duration;

const ANN: &str = "sip:ann@example.com";

pub fn ends(place: &Place, checks: &mut Checks) {
    checks.note("SIGTERM under a flood", flood(place, SIGTERM));
    checks.note("SIGINT under a flood", flood(place, SIGINT));
    checks.note("a log whose reader is gone", no_reader(place));
    checks.note("a second host on the same state", second_host(place));
    checks.note("a port that is in use", port_in_use(place));
}

/// For a host that leaves out a line of the log that it cannot write.
pub fn unread(place: &Place, checks: &mut Checks) {
    checks.note("a log that nobody reads", full_log(place));
}

/// Two senders send as fast as they can, and do not wait. The host ends, and its file has what the log has.
fn flood(place: &Place, signal: i32) -> Held {
    State::apart(&[ANN]).write(&place.state())?;
    let mut host = place.start(&[ANN])?;
    let (over, at) = (AtomicBool::new(false), host.at);
    let ended = std::thread::scope(|scope| {
        for _ in 0..2 {
            scope.spawn(|| {
                let sender = Sender::new(at);
                while !over.load(Ordering::Relaxed) {
                    let _ = sender.send(&message::passing(ANN).bytes);
                }
            });
        }
        std::thread::sleep(Duration::from_millis(300));
        let ended = host.end_by(signal);
        over.store(true, Ordering::Relaxed);
        ended
    })?;
    holds(ended.status == 0 && ended.said.lines().count() == 1, || format!("status {}: {}", ended.status, ended.said))?;
    let given: Vec<u32> = log::tags(&host.log()?).into_iter().map(|tag| tags::whose(tag).1).collect();
    let spent = State::read(&place.state())?.spent(ANN).unwrap_or(0);
    holds(spent > 50 && given == (1..=spent).collect::<Vec<u32>>(), || format!("{} tags in the log, {} spent", given.len(), spent))
}

/// The log is a pipe that was closed: the host goes on, and ends cleanly.
fn no_reader(place: &Place) -> Held {
    let mut host = place.start_unread(&[ANN])?;
    host.close_log();
    let sender = Sender::new(host.at);
    for _ in 0..2_000 {
        sender.wants(&message::probe(), 405)?;
    }
    host.end().map(|_| ())
}

/// The log is a pipe that is full: the host goes on, and ends cleanly.
fn full_log(place: &Place) -> Held {
    let mut host = place.start_unread(&[ANN])?;
    let sender = Sender::new(host.at);
    for _ in 0..8_000 {
        sender.wants(&message::probe(), 405)?;
    }
    host.end().map(|_| ())
}

/// The first one goes on as if nothing had been.
fn second_host(place: &Place) -> Held {
    let _ = std::fs::remove_file(place.state());
    let mut host = place.start(&[ANN])?;
    let state = State::read(&place.state())?;
    for _ in 0..2 {
        let port = place::free(HOME).port().to_string();
        let second = place.run(&["127.0.0.1", &port, &place.word("state"), "sip:bo@example.com"])?;
        holds(second.status > 0 && second.said.contains("in use by another host"), || format!("{:?}", second))?;
        holds(State::read(&place.state())? == state, || "the state was changed".to_string())?;
    }
    Sender::new(host.at).wants(&message::passing(ANN), 200)?;
    host.end().map(|_| ())
}

/// Both where the state is there and where it is not.
fn port_in_use(place: &Place) -> Held {
    let _ = std::fs::remove_file(place.state());
    let taken = std::net::UdpSocket::bind((HOME, 0)).map_err(|e| e.to_string())?;
    let port = taken.local_addr().map_err(|e| e.to_string())?.port().to_string();
    let tried = || place.run(&["127.0.0.1", &port, &place.word("state"), ANN]);
    let ended = tried()?;
    holds(ended.status > 0 && ended.said.contains("cannot listen") && ended.said.contains(&port), || format!("{:?}", ended))?;
    holds(!place.state().exists(), || "a state was written".to_string())?;
    let state = State::apart(&[ANN, "sip:bo@example.com"]);
    state.write(&place.state())?;
    let ended = tried()?;
    holds(ended.status > 0 && ended.said.contains("cannot listen"), || format!("{:?}", ended))?;
    holds(State::read(&place.state())? == state, || "the state was changed".to_string())
}
