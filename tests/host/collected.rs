//! Every tag that was given over all rounds, and what has to hold of it.

use crate::checks::{holds, Held};
use crate::host::Host;
use crate::kill_round::Left;
use crate::log;
use crate::message;
use crate::sender::Sender;
use crate::state::State;
use crate::tags;
use std::collections::HashSet;

pub const ADDRESSES: [&str; 3] = ["sip:ann@example.com", "sip:bo@example.com", "sip:cy@example.com"];
/// Tags that are written as spent ahead of use.
const BLOCK: usize = 256;

#[derive(Default)]
pub struct Collected {
    /// By the logs, which have the answers that never arrived too.
    pub seen: HashSet<u32>,
    /// How many were in a log and not in an answer.
    pub lost: usize,
    /// Rounds in which an address spent more than a block.
    pub crossed: u32,
    /// Tags that were live when the host was killed, and some others; the next host is asked for them.
    old: Vec<u32>,
}

impl Collected {
    /// Old tags get 412.
    pub fn present(&mut self, host: &Host) -> Held {
        let sender = Sender::new(host.at);
        for tag in std::mem::take(&mut self.old) {
            sender.wants(&message::publish(ADDRESSES[tags::whose(tag).0], Some(tag), 600, ""), 412)?;
        }
        Ok(())
    }

    /// Takes up a round: the states before it and after the kill, and what the senders have.
    pub fn add(&mut self, host: &Host, before: &State, after: &State, left: &[Left]) -> Held {
        let logged = log::tags(&host.log()?);
        for &tag in &logged {
            self.is_new(tag, before, after)?;
        }
        let successes = |k: usize| logged.iter().filter(|tag| tags::whose(**tag).0 == k).count();
        self.crossed += u32::from((0..ADDRESSES.len()).any(|k| successes(k) > BLOCK));
        self.lost += logged.len() - received(&logged, left)?;
        let some = self.seen.iter().copied().take(4).chain(logged.iter().rev().copied().take(8));
        self.old.extend(left.iter().filter_map(|left| left.live).chain(some));
        Ok(())
    }

    /// It came in no round before, is above what was spent before this round, and is covered by the state file that the kill left.
    fn is_new(&mut self, tag: u32, before: &State, after: &State) -> Held {
        let (k, n) = tags::whose(tag);
        let address = ADDRESSES.get(k).ok_or(format!("tag {:08x} is no address's", tag))?;
        let spent = |state: &State| state.spent(address).unwrap_or(0);
        holds(self.seen.insert(tag), || format!("tag {:08x} came again", tag))?;
        holds(n > spent(before), || format!("tag {:08x} was spent by the state file", tag))?;
        holds(n <= spent(after), || format!("tag {:08x} was given and not written: {:?}", tag, after))
    }
}

/// How many tags came in answers: each is in the log, and no two answers have the same.
fn received(logged: &[u32], left: &[Left]) -> Result<usize, String> {
    let logged: HashSet<u32> = logged.iter().copied().collect();
    let mut received = HashSet::new();
    for &tag in left.iter().flat_map(|left| &left.tags) {
        holds(logged.contains(&tag), || format!("tag {:08x} is not in the log", tag))?;
        holds(received.insert(tag), || format!("two answers have tag {:08x}", tag))?;
    }
    Ok(received.len())
}
