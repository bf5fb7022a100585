//! A datagram that comes again from the same sender is answered as before, within a time and a number of answers.

use crate::checks::{holds, Checks, Held};
use crate::host::Host;
use crate::message::{self, Request, BODY};
use crate::place::Place;
use crate::sender::Sender;
use std::time::{Duration, Instant};

const ADDRESS: &str = "sip:ann@example.com";
/// Answers that the host keeps.
const ANSWERS: usize = 1_024;
/// An answer comes within this time; a host that runs under an emulator is slow.
const WAIT: Duration = Duration::from_secs(10);

pub fn again(place: &Place, checks: &mut Checks) {
    checks.note("the same datagram again", same(place));
    checks.note("the same datagram from another port", other_port(place));
    checks.note("the number of answers that are kept", bounded(place));
}

/// With a host that keeps answers for 2 seconds.
pub fn window(place: &Place, checks: &mut Checks) {
    checks.note("the same datagram after the time", late(place));
}

/// The bytes that come for one datagram that is sent once.
fn once(sender: &Sender, request: &Request) -> Result<Vec<u8>, String> {
    sender.send(&request.bytes)?;
    sender.answer(request, WAIT).ok_or("no answer".to_string())
}

/// The log has so many lines more than the first number.
fn logged(host: &Host, lines: usize) -> Held {
    let found = host.log()?.len();
    holds(found == lines, || format!("{} lines in the log in place of {}", found, lines))
}

/// An initial publication, and a refresh of it that can be handled only once.
fn refresh(sender: &Sender) -> Result<Request, String> {
    let tag = sender.tag(&message::publish(ADDRESS, None, 3600, BODY))?;
    Ok(message::publish(ADDRESS, Some(tag), 600, ""))
}

/// Every answer is kept, a refusal as well as a success.
fn same(place: &Place) -> Held {
    let mut host = place.start(&[ADDRESS])?;
    let sender = Sender::new(host.at);
    let requests = [refresh(&sender)?, message::probe(), message::publish("sip:nobody@example.com", None, 60, BODY)];
    for (k, request) in requests.iter().enumerate() {
        let first = once(&sender, request)?;
        for _ in 0..3 {
            let second = once(&sender, request)?;
            holds(first == second, || format!("{:?} and {:?}", first, second))?;
        }
        logged(&host, k + 2)?;
    }
    host.end().map(|_| ())
}

/// From another port it is another request: the refresh finds its tag gone. A longer and a shorter datagram are others too, though the
/// library drops what is after the body.
fn other_port(place: &Place) -> Held {
    let mut host = place.start(&[ADDRESS])?;
    let (sender, other) = (Sender::new(host.at), Sender::new(host.at));
    let mut request = refresh(&sender)?;
    let first = once(&sender, &request)?;
    holds(first.starts_with(b"SIP/2.0 200 "), || "the refresh failed".to_string())?;
    for _ in 0..2 {
        let second = once(&other, &request)?;
        holds(second.starts_with(b"SIP/2.0 412 "), || "it was not handled afresh".to_string())?;
        logged(&host, 3)?;
    }
    request.bytes.extend_from_slice(b"\0\0");
    for lines in 4..6 {
        let other = once(&sender, &request)?;
        holds(other.starts_with(b"SIP/2.0 412 "), || "a datagram of another length was not handled afresh".to_string())?;
        logged(&host, lines)?;
        request.bytes.pop();
    }
    host.end().map(|_| ())
}

/// After 1,023 other answers it is kept, and after one more it is not. Answering it again does not make it newer.
fn bounded(place: &Place) -> Held {
    let mut host = place.start(&[ADDRESS])?;
    let (sender, other) = (Sender::new(host.at), Sender::new(host.at));
    let request = refresh(&sender)?;
    let first = once(&sender, &request)?;
    let began = Instant::now();
    for _ in 1..ANSWERS {
        once(&other, &message::probe())?;
    }
    holds(began.elapsed() < Duration::from_secs(30), || "too slow to be tried".to_string())?;
    let second = once(&sender, &request)?;
    holds(first == second, || "it was forgotten too early".to_string())?;
    once(&other, &message::probe())?;
    let third = once(&sender, &request)?;
    holds(third.starts_with(b"SIP/2.0 412 "), || "it was kept too long".to_string())?;
    logged(&host, ANSWERS + 3)?;
    host.end().map(|_| ())
}

fn late(place: &Place) -> Held {
    let mut host = place.start(&[ADDRESS])?;
    let sender = Sender::new(host.at);
    let request = refresh(&sender)?;
    let first = once(&sender, &request)?;
    std::thread::sleep(Duration::from_millis(1_000));
    let second = once(&sender, &request)?;
    holds(first == second, || "it was forgotten too early".to_string())?;
    std::thread::sleep(Duration::from_millis(1_500));
    let third = once(&sender, &request)?;
    holds(third.starts_with(b"SIP/2.0 412 "), || "it was kept too long".to_string())?;
    logged(&host, 3)?;
    host.end().map(|_| ())
}
