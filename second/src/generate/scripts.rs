//! The generator of scripts for the lives listing: each life has a plan of
//! steps, and each step is made into a line that suits what the life holds.

use std::io::{self, Write};

use super::lines::any_case_line;
use super::random::Random;
use super::scene::Scene;
use super::script_faults::{bad_line, fault_bytes};
use super::steps::{self, Step};
use crate::life::Happening;
use crate::script_out::begin_bytes;
use crate::tags::STEP;

/// What kind of life begins.
#[derive(Clone, Copy)]
enum Opening {
    /// No tag spent yet.
    Fresh,
    /// A start at which the tags run over, or come to zero soon.
    Wrapping,
    /// A long row of refreshes.
    Long,
    /// The same, until no tag is left.
    LongToTheEnd,
    /// A few tags left.
    Near,
    /// No tag left.
    Last,
}

/// How often each kind of life stands in the deck.
const OPENINGS: [(Opening, usize); 6] = [
    (Opening::Fresh, 3),
    (Opening::Wrapping, 2),
    (Opening::Long, 2),
    (Opening::LongToTheEnd, 1),
    (Opening::Near, 2),
    (Opening::Last, 1),
];

/// How often each step is taken where any may be.
const ANY_STEP: [(Step, usize); 16] = [
    (Step::Initial, 5),
    (Step::InitialOfZero, 1),
    (Step::Refresh, 3),
    (Step::Modify, 3),
    (Step::Shorter, 2),
    (Step::Remove, 2),
    (Step::AtAnEnd, 3),
    (Step::Back, 1),
    (Step::OtherPackage, 2),
    (Step::Stale, 2),
    (Step::Mangled, 2),
    (Step::Neither, 1),
    (Step::Bad, 1),
    (Step::FillUp, 1),
    (Step::Ninth, 2),
    (Step::Show, 2),
];

/// A row of refreshes has at least so many.
const LONG_ROW: usize = 60;

pub struct Scripts {
    random: Random,
    scene: Scene,
    deck: Vec<Opening>,
    /// The steps to come, the next one last.
    plan: Vec<Step>,
}

impl Scripts {
    /// A few steps come before the first life begins.
    pub fn new(seed: u64) -> Scripts {
        let mut random = Random::new(seed);
        let plan = vec![*random.pick(&[Step::Show, Step::Initial, Step::Bad]); 2];
        Scripts {
            random,
            scene: Scene::new(),
            deck: Vec::new(),
            plan,
        }
    }

    /// The next line without its LF, and what came of it.
    pub fn next_line(&mut self) -> (Vec<u8>, Happening) {
        let line = match self.plan.pop() {
            Some(step) => self.line_of(step),
            None => self.begin(),
        };
        let happening = self.scene.run(&line);
        (line, happening)
    }

    fn line_of(&mut self, step: Step) -> Vec<u8> {
        let (scene, random) = (&self.scene, &mut self.random);
        let bytes = match step {
            Step::Bad if random.one_in(2) => return bad_line(scene, random),
            Step::Bad => fault_bytes(scene, random),
            _ => steps::bytes_of(step, scene, random),
        };
        any_case_line(&bytes, random)
    }

    fn begin(&mut self) -> Vec<u8> {
        let opening = self.deal();
        let random = &mut self.random;
        self.plan = plan_of(opening, random);
        self.plan.reverse();
        let bytes = begin_bytes(start_of(opening, random), spent_of(opening, random));
        any_case_line(&bytes, random)
    }

    fn deal(&mut self) -> Opening {
        if self.deck.is_empty() {
            for (opening, count) in OPENINGS {
                self.deck.extend(vec![opening; count]);
            }
            self.random.shuffle(&mut self.deck);
        }
        self.deck.pop().unwrap_or(Opening::Fresh)
    }
}

fn start_of(opening: Opening, random: &mut Random) -> u32 {
    let any = random.word() as u32;
    match opening {
        Opening::Fresh => *random.pick(&[0, 0, 1, any]),
        Opening::Wrapping => {
            let soon = random.below(4) as u32 + 1;
            let soon_zero = 0u32.wrapping_sub(STEP.wrapping_mul(soon));
            *random.pick(&[u32::MAX, u32::MAX - STEP, soon_zero, soon_zero])
        }
        _ => any,
    }
}

fn spent_of(opening: Opening, random: &mut Random) -> u32 {
    let any = random.word() as u32;
    match opening {
        Opening::Fresh | Opening::Wrapping => 0,
        Opening::Long => *random.pick(&[0, 1 << 31, (1 << 31) - 30, any >> 1]),
        Opening::LongToTheEnd => u32::MAX - 62 - random.below(20) as u32,
        Opening::Near => u32::MAX - 1 - random.below(12) as u32,
        Opening::Last => u32::MAX,
    }
}

fn plan_of(opening: Opening, random: &mut Random) -> Vec<Step> {
    let mut plan = Vec::new();
    match opening {
        Opening::Fresh => {
            full_house(&mut plan, random);
            any_steps(&mut plan, 30, random);
            plan.extend([Step::Late, Step::Show, Step::Late]);
            any_steps(&mut plan, 4, random);
        }
        Opening::Wrapping => any_steps(&mut plan, 40, random),
        Opening::Long | Opening::LongToTheEnd => {
            any_steps(&mut plan, 4, random);
            long_row(&mut plan, random);
            any_steps(&mut plan, 20, random);
        }
        Opening::Near => {
            any_steps(&mut plan, 4, random);
            plan.extend([Step::FillUp; 8]);
            any_steps(&mut plan, 20, random);
        }
        Opening::Last => any_steps(&mut plan, 16, random),
    }
    plan
}

/// Steps of any kind, with state read after every other one.
fn any_steps(plan: &mut Vec<Step>, count: usize, random: &mut Random) {
    let weighted: Vec<Step> = ANY_STEP
        .iter()
        .flat_map(|&(step, count)| vec![step; count])
        .collect();
    for _ in 0..count {
        plan.push(*random.pick(&weighted));
        if random.one_in(2) {
            plan.push(Step::Show);
        }
    }
}

/// A fresh publication and nothing but its refreshes.
fn long_row(plan: &mut Vec<Step>, random: &mut Random) {
    plan.push(Step::Fresh);
    plan.extend(vec![Step::OnAndOn; LONG_ROW + random.place(20)]);
    plan.push(Step::Show);
}

/// Eight slots filled, then a ninth publication tried in several ways.
fn full_house(plan: &mut Vec<Step>, random: &mut Random) {
    any_steps(plan, 6, random);
    plan.extend([Step::FillUp; 9]);
    plan.push(Step::Show);
    let mut tries = vec![Step::Ninth; 6];
    tries.extend([
        Step::InitialOfZero,
        Step::Refresh,
        Step::Shorter,
        Step::Neither,
    ]);
    tries.extend([Step::Show, Step::Mangled, Step::FillUp, Step::Stale]);
    random.shuffle(&mut tries);
    plan.extend(tries);
}

pub fn print_scripts<W: Write>(seed: u64, lines: u64, output: &mut W) -> io::Result<()> {
    let mut scripts = Scripts::new(seed);
    for _ in 0..lines {
        let (mut line, _) = scripts.next_line();
        line.push(b'\n');
        output.write_all(&line)?;
    }
    Ok(())
}
