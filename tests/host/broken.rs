//! Broken datagrams: random, cut at every length, changed at every byte, and as long as UDP has them. The host logs each, and lives pass
//! afterwards.

use crate::chance::Chance;
use crate::checks::{holds, Checks, Held};
use crate::message::{self, BODY};
use crate::place::Place;
use crate::sender::Sender;
use crate::sipp;
use std::time::Duration;

/// The longest datagram over IPv4.
const LONGEST: usize = 65_507;
/// The longest answer.
const ANSWER: usize = 4_608;
/// What may wait in the host's socket before it is asked whether it has come so far; a datagram takes more room there than its bytes.
const WAITING: usize = 50_000;
const ROOM: usize = 2_304;
const BROKEN: &str = "sip:qqqqqqqq@broken.invalid";
const LIFE: &str = "sip:ann@example.com";

pub fn broken(place: &Place, checks: &mut Checks) {
    checks.note("broken datagrams", all(place));
}

fn all(place: &Place) -> Held {
    let mut host = place.start(&[BROKEN, LIFE])?;
    let mut pump = Pump { sender: Sender::new(host.at), waiting: 0, sent: 0 };
    let mut chance = Chance::new(7);
    for datagram in cut().into_iter().chain(changed(&mut chance)).chain(random(&mut chance)).chain(long()) {
        pump.send(&datagram)?;
    }
    pump.catch_up()?;
    let lines = host.log()?.len();
    holds(lines == pump.sent, || format!("{} datagrams were sent, and the log has {} lines", pump.sent, lines))?;
    let outcome = sipp::run(place, &host, &[LIFE], 16, 0)?;
    holds(outcome.passed(16), || format!("lives after broken datagrams: {:?}", outcome))?;
    host.end().map(|_| ())
}

/// Sends datagrams, and waits for the host before its socket is full.
struct Pump {
    sender: Sender,
    waiting: usize,
    sent: usize,
}

impl Pump {
    fn send(&mut self, datagram: &[u8]) -> Held {
        self.sender.send(datagram)?;
        self.sent += 1;
        self.waiting += datagram.len() + ROOM;
        if self.waiting > WAITING {
            self.catch_up()?;
        }
        Ok(())
    }

    /// Asks what is always answered, and looks at what else was answered meanwhile.
    fn catch_up(&mut self) -> Held {
        let probe = message::probe();
        self.sent += 1;
        self.waiting = 0;
        self.sender.send(&probe.bytes)?;
        let branch = probe.branch.trim_end();
        loop {
            let answer = self.sender.next(Duration::from_secs(20)).ok_or("the host no longer answers")?;
            holds(answer.starts_with(b"SIP/2.0 ") && answer.len() <= ANSWER, || format!("an answer {:?}", answer))?;
            if String::from_utf8_lossy(&answer).contains(branch) {
                return holds(answer.starts_with(b"SIP/2.0 405 "), || format!("a probe was answered {:?}", answer));
            }
        }
    }
}

/// A good request, cut at every length.
fn cut() -> Vec<Vec<u8>> {
    let good = message::publish(BROKEN, None, 60, BODY).bytes;
    (0..=good.len()).map(|length| good[..length].to_vec()).collect()
}

/// A good request with one byte changed, each in turn.
fn changed(chance: &mut Chance) -> Vec<Vec<u8>> {
    let good = message::publish(BROKEN, None, 60, BODY).bytes;
    let mut change = |at: usize| {
        let mut bytes = good.clone();
        bytes[at] ^= 1 + chance.below(255) as u8;
        bytes
    };
    (0..good.len()).map(&mut change).collect()
}

fn random(chance: &mut Chance) -> Vec<Vec<u8>> {
    let bounds = [20, 700, 5_000, LONGEST as u64 + 1];
    let mut one = |k: usize| {
        let length = chance.below(bounds[k % bounds.len()]) as usize;
        chance.bytes(length)
    };
    (0..400).map(&mut one).collect()
}

/// Requests of lengths around the bounds, filled by a body, by one line, by many Via lines and by short lines.
fn long() -> Vec<Vec<u8>> {
    let lengths = [4_095, 4_096, 4_097, 4_608, 4_609, 8_192, 32_768, 65_506, LONGEST];
    let fillers: [(&str, &str, &str); 4] = [
        ("Content-Type: application/pidf+xml\r\n\r\n", "x", ""),
        ("v: ", "y", "\r\n\r\n"),
        ("", "Via: SIP/2.0/UDP a-server-with-quite-a-long-name.example.com:5060;branch=z9hG4bK-as-long-as-this-one-is\r\n", "\r\n\r\n"),
        ("", "v:\r\n", "\r\n"),
    ];
    let of = |length: usize| fillers.iter().map(move |filler| filled(length, *filler));
    lengths.iter().flat_map(|length| of(*length)).collect()
}

/// A request of this length: a good head, then the filler's middle again and again, then its end.
fn filled(length: usize, (first, middle, last): (&str, &str, &str)) -> Vec<u8> {
    let head = format!(
        "PUBLISH {BROKEN} SIP/2.0\r\nv: SIP/2.0/UDP a\r\nf: <a>;tag={n}\r\nt: <a>\r\ni: {n}\r\nCSeq: 1 PUBLISH\r\nEvent: presence\r\n",
        n = message::fresh()
    );
    let mut bytes = [head.as_bytes(), first.as_bytes()].concat();
    let room = length - last.len();
    while bytes.len() < room {
        bytes.extend_from_slice(middle.as_bytes());
    }
    bytes.truncate(room);
    bytes.extend_from_slice(last.as_bytes());
    bytes
}
