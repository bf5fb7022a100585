//! The senders of a round that ends with a kill: each goes from life to life until the host is gone.

use crate::message::{self, Answer, Request, BODY, OTHER_BODY};
use crate::sender::Sender;
use crate::tags;
use std::net::SocketAddr;
use std::sync::atomic::{AtomicBool, AtomicU32, Ordering};
use std::time::{Duration, Instant};

/// What the senders of a round share.
pub struct Round {
    pub over: AtomicBool,
    /// Publications that are live as far as the senders know.
    pub live: AtomicU32,
    /// Successes that were answered.
    pub answered: AtomicU32,
}

impl Round {
    pub fn new() -> Round {
        Round { over: AtomicBool::new(false), live: AtomicU32::new(0), answered: AtomicU32::new(0) }
    }

    /// Waits until the test holds, for no longer than is given.
    pub fn until(&self, longest: Duration, test: impl Fn(&Round) -> bool) {
        let end = Instant::now() + longest;
        while !test(self) && Instant::now() < end {
            std::thread::sleep(Duration::from_micros(100));
        }
    }
}

/// What a sender has when the host is gone.
#[derive(Default)]
pub struct Left {
    /// Every tag that it was given.
    pub tags: Vec<u32>,
    /// The tag of its publication that is live.
    pub live: Option<u32>,
    /// An answer that was not a success.
    pub refused: Option<String>,
}

/// Lives at one address, one after another, until the round is over.
pub fn lives(round: &Round, host: SocketAddr, address: &str) -> Left {
    let sender = Sender::new(host);
    let mut left = Left::default();
    let mut step = 0;
    while let Some(answer) = asked(round, &sender, &request(address, step, left.live)) {
        match answer.tag() {
            Ok(tag) => left.tags.push(tag),
            Err(why) => {
                left.refused = Some(why);
                return left;
            }
        }
        round.answered.fetch_add(1, Ordering::Relaxed);
        step = (step + 1) % 5;
        let live = if step == 0 { None } else { left.tags.last().copied() };
        match (left.live.is_some(), live.is_some()) {
            (false, true) => round.live.fetch_add(1, Ordering::Relaxed),
            (true, false) => round.live.fetch_sub(1, Ordering::Relaxed),
            _ => 0,
        };
        left.live = live;
    }
    left
}

/// Step 0 is initial, then refresh, modify, refresh, remove.
fn request(address: &str, step: u32, tag: Option<u32>) -> Request {
    match step {
        0 => message::publish(address, None, 3600, BODY),
        2 => message::publish(address, tag, 900, OTHER_BODY),
        4 => message::publish(address, tag, 0, ""),
        _ => message::publish(address, tag, 1800, ""),
    }
}

/// The answer, asked for until it comes or the round is over.
fn asked(round: &Round, sender: &Sender, request: &Request) -> Option<Answer> {
    while !is_over(round) {
        sender.send(&request.bytes).ok()?;
        let tries = || (0..25).find_map(|_| if is_over(round) { None } else { sender.answer(request, Duration::from_millis(20)) });
        if let Some(bytes) = tries() {
            return Answer::new(bytes).ok();
        }
    }
    None
}

fn is_over(round: &Round) -> bool {
    round.over.load(Ordering::Relaxed)
}

/// Asks for one tag after another and does not wait for them, so that requests wait in the host's socket when it is killed. A probe now
/// and then keeps that socket from running over.
pub fn haste(round: &Round, host: SocketAddr, address: &str) -> Left {
    let sender = Sender::new(host);
    while !is_over(round) {
        for _ in 0..40 {
            let _ = sender.send(&message::passing(address).bytes);
        }
        asked(round, &sender, &message::probe());
    }
    Left::default()
}

/// Spends tags of an address one by one, up to this success.
pub fn spend_to(sender: &Sender, address: &str, success: u32, tags: &mut Vec<u32>) -> Result<(), String> {
    while tags.last().map_or(true, |tag| tags::whose(*tag).1 < success) {
        tags.push(sender.tag(&message::passing(address))?);
    }
    Ok(())
}
