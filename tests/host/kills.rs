//! SIGKILL at moments that differ, and a restart each time: old tags get 412, and no tag of before comes again.

use crate::chance::Chance;
use crate::checks::{holds, Checks, Held};
use crate::collected::{Collected, ADDRESSES};
use crate::host::Host;
use crate::kill_round::{haste, lives, spend_to, Left, Round};
use crate::log;
use crate::message;
use crate::place::{self, Place, HOME};
use crate::sender::Sender;
use crate::state::State;
use std::net::SocketAddr;
use std::sync::atomic::Ordering;
use std::time::{Duration, Instant};

const SENDERS: usize = 5;
/// A sender that waits this long gets no more.
const LONGEST: Duration = Duration::from_secs(10);

/// When the host is killed.
#[derive(Clone, Copy)]
enum Moment {
    /// Some time after it was started, whether it listens or not.
    Start,
    /// Some time after lives began, while at least one publication is live.
    Lives,
    /// The same, beside a sender that does not wait, and after enough successes that more than one block was spent at an address.
    Haste,
    /// Some time after a request that makes it write its state.
    Edge,
}

pub fn kills(place: &Place, checks: &mut Checks) {
    let plan = [Moment::Lives; 44].iter().chain(&[Moment::Haste; 8]).chain(&[Moment::Start; 12]).chain(&[Moment::Edge; 24]);
    let mut trial = Trial::new(place, 11);
    checks.note("kills and restarts", trial.rounds(plan.copied().collect()));
    checks.note("at least 50 kills in the middle of lives", holds(trial.in_lives >= 50, || trial.in_lives.to_string()));
    let Collected { seen, lost, crossed, .. } = &trial.collected;
    checks.note("more than a block was spent in some rounds", holds(*crossed >= 20, || crossed.to_string()));
    println!("{} kills, {} tags, of which {} were given and not received", trial.kills, seen.len(), lost);
    let [before, between, after] = trial.edges;
    println!("kills near a write: {} before it, {} between it and the tag, {} after the tag", before, between, after);
}

/// A host that does not count ahead of use gives a tag again, and is caught in as many rounds of lives as the test above has: that test can
/// fail. Whether a round catches it is chance; six rounds in a row missed it one time in six.
pub fn careless(place: &Place, checks: &mut Checks) {
    let caught = match Trial::new(place, 12).rounds(vec![Moment::Lives; 44]) {
        Err(why) if why.contains("came again") || why.contains("not written") => Ok(()),
        other => Err(format!("{:?}", other)),
    };
    checks.note("a host that does not count ahead is caught", caught);
}

struct Trial<'a> {
    place: &'a Place,
    at: SocketAddr,
    chance: Chance,
    collected: Collected,
    kills: u32,
    in_lives: u32,
    /// How long a start took, and how many kills near a write came before it, between it and the tag, and after the tag.
    start: Duration,
    edges: [u32; 3],
}

impl Trial<'_> {
    fn new(place: &Place, seed: u64) -> Trial<'_> {
        let (at, chance, start) = (place::free(HOME), Chance::new(seed), Duration::from_millis(5));
        Trial { place, at, chance, collected: Collected::default(), kills: 0, in_lives: 0, start, edges: [0; 3] }
    }

    /// The moments of the plan in an order by chance.
    fn rounds(&mut self, mut plan: Vec<Moment>) -> Held {
        State::apart(&ADDRESSES).write(&self.place.state())?;
        while !plan.is_empty() {
            let moment = plan.swap_remove(self.chance.below(plan.len() as u64) as usize);
            self.round(moment).map_err(|why| format!("after {} kills: {}", self.kills, why))?;
        }
        self.started()?.end().map(|_| ())
    }

    fn round(&mut self, moment: Moment) -> Held {
        let before = State::read(&self.place.state())?;
        let (host, left) = match moment {
            Moment::Start => self.killed_at_start(),
            Moment::Edge => self.killed_at_edge()?,
            Moment::Lives => self.killed_in_lives(1, false)?,
            Moment::Haste => self.killed_in_lives(1_400, true)?,
        };
        self.kills += 1;
        if let Some(why) = left.iter().find_map(|left| left.refused.clone()) {
            return Err(why);
        }
        let after = State::read(&self.place.state())?;
        holds(before.clock <= after.clock, || format!("the clock went back from {:?} to {:?}", before, after))?;
        self.collected.add(&host, &before, &after, &left)
    }

    /// A host that listens, and to which old tags were presented.
    fn started(&mut self) -> Result<Host, String> {
        let began = Instant::now();
        let host = self.place.start_at(self.at, &ADDRESSES)?;
        self.start = began.elapsed().min(LONGEST / 10);
        self.collected.present(&host)?;
        Ok(host)
    }

    fn killed_at_start(&mut self) -> (Host, Vec<Left>) {
        let mut host = self.place.launch(self.at, &ADDRESSES);
        self.pause(self.start + self.start / 4);
        host.kill();
        (host, Vec::new())
    }

    /// Spends what is written and one more, which makes the host write its state, and takes the time of that. Then the same again with a
    /// kill within three times as long: the second write may be slower.
    fn killed_at_edge(&mut self) -> Result<(Host, Vec<Left>), String> {
        let mut host = self.started()?;
        let address = ADDRESSES[self.chance.below(ADDRESSES.len() as u64) as usize];
        let (sender, mut tags) = (Sender::new(self.at), Vec::new());
        let written = |place: &Place| State::read(&place.state())?.spent(address).ok_or("an address is gone".to_string());
        spend_to(&sender, address, written(self.place)?, &mut tags)?;
        let began = Instant::now();
        tags.push(sender.tag(&message::passing(address))?);
        let taken = began.elapsed();
        let edge = written(self.place)?;
        spend_to(&sender, address, edge, &mut tags)?;
        sender.send(&message::passing(address).bytes)?;
        self.pause(taken * 3);
        host.kill();
        let given = log::tags(&host.log()?).len() > tags.len();
        self.edges[usize::from(written(self.place)? > edge) + usize::from(given)] += 1;
        Ok((host, vec![Left { tags, ..Left::default() }]))
    }

    /// Kills it after so many successes at least.
    fn killed_in_lives(&mut self, successes: u32, in_haste: bool) -> Result<(Host, Vec<Left>), String> {
        let mut host = self.started()?;
        let (round, at) = (Round::new(), self.at);
        let left: Vec<Left> = std::thread::scope(|scope| {
            let round = &round;
            let mut started: Vec<_> = (0..SENDERS).map(|k| scope.spawn(move || lives(round, at, ADDRESSES[k % 3]))).collect();
            started.extend(in_haste.then(|| scope.spawn(move || haste(round, at, ADDRESSES[0]))));
            round.until(LONGEST, |round| round.answered.load(Ordering::Relaxed) >= successes);
            self.pause(Duration::from_millis(30));
            round.until(LONGEST, |round| round.live.load(Ordering::Relaxed) > 0);
            host.kill();
            round.over.store(true, Ordering::Relaxed);
            started.into_iter().map(|sender| sender.join().expect("a sender fell")).collect()
        });
        self.in_lives += u32::from(left.iter().any(|left| left.live.is_some()));
        Ok((host, left))
    }

    /// Up to so long, by chance. It is spun, because sleep is coarse.
    fn pause(&mut self, most: Duration) {
        let end = Instant::now() + Duration::from_nanos(self.chance.below(most.as_nanos() as u64 + 1));
        while Instant::now() < end {
            std::hint::spin_loop();
        }
    }
}
