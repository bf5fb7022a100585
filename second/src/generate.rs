//! The generator of bench input: a deck of ideas, shuffled and dealt over and
//! over, each made into a line that suits what the engine holds just then.

mod attempt;
mod dead_tags;
mod draft;
mod faults;
pub mod for_table;
mod lines;
mod mutations;
mod oddities;
pub mod random;
mod reading_aims;
mod reading_names;
mod reading_wants;
mod readings;
pub mod requests;
mod scene;
mod script_faults;
pub mod scripts;
mod special;
mod spelling;
mod steps;
mod values;
mod world;

use std::io::{self, Write};

use crate::frames_out::add_frame;
use crate::record::Record;
use crate::table::MOST_RECORDS;
use crate::tags::STEP;
use crate::turn::Turn;
use attempt::{Attempt, Wish};
use faults::Fault;
use random::Random;
use reading_aims::must_wait;
use reading_wants::Want;
use world::World;
pub use world::{CROWD, FULL, LATE};

#[derive(Clone, Copy)]
enum Idea {
    OneFault(Fault),
    SeveralFaults,
    Initial,
    Refresh,
    Modify,
    Remove,
    InitialOfZero,
    Crowd,
    Spent,
    Late,
    Again,
    Mutated,
    MostHeaderLines,
    LongestRequest,
    NewAddress,
    PresentAddress,
    MalformedAddress,
    BadLine,
    Reading,
}

/// How often each idea stands in the deck, besides each fault once.
const IDEAS: [(Idea, usize); 20] = [
    (Idea::OneFault(Fault::Cseq), 1),
    (Idea::OneFault(Fault::NoLivePublication), 2),
    (Idea::SeveralFaults, 7),
    (Idea::Initial, 6),
    (Idea::Refresh, 3),
    (Idea::Modify, 3),
    (Idea::Remove, 2),
    (Idea::InitialOfZero, 1),
    (Idea::Crowd, 4),
    (Idea::Spent, 2),
    (Idea::Late, 1),
    (Idea::Again, 1),
    (Idea::Mutated, 6),
    (Idea::MostHeaderLines, 1),
    (Idea::LongestRequest, 1),
    (Idea::NewAddress, 2),
    (Idea::PresentAddress, 1),
    (Idea::MalformedAddress, 1),
    (Idea::BadLine, 2),
    (Idea::Reading, 15),
];

/// Addresses that are added early; the others come later.
const EARLY: usize = 13;

pub struct Generator {
    random: Random,
    world: World,
    deck: Vec<Idea>,
    /// What the next readings are to be.
    readings: Vec<Want>,
    /// Frames that add the sixteen addresses, the next one last.
    planned: Vec<Vec<u8>>,
    last_line: Vec<u8>,
}

impl Generator {
    pub fn new(seed: u64) -> Generator {
        let mut random = Random::new(seed);
        let planned = planned_addresses(&mut random);
        Generator {
            random,
            world: World::new(),
            deck: Vec::new(),
            readings: Vec::new(),
            planned,
            last_line: Vec::new(),
        }
    }

    /// The next input line without its LF, and what the engine made of it.
    pub fn next_line(&mut self) -> (Vec<u8>, Turn) {
        let early = self.planned.len() > MOST_RECORDS - EARLY;
        let line = if early && self.random.one_in(2) {
            self.new_address()
        } else {
            let idea = self.deal();
            self.line_of(idea)
        };
        let turn = self.world.run(&line);
        self.last_line = line.clone();
        (line, turn)
    }

    /// The records after the latest line.
    pub fn records(&self) -> &[Record] {
        self.world.records()
    }

    fn deal(&mut self) -> Idea {
        if self.deck.is_empty() {
            self.deck.extend(faults::ALL.map(Idea::OneFault));
            for (idea, count) in IDEAS {
                self.deck.extend(vec![idea; count]);
            }
            self.random.shuffle(&mut self.deck);
        }
        self.deck.pop().unwrap_or(Idea::Initial)
    }

    fn line_of(&mut self, idea: Idea) -> Vec<u8> {
        let (world, random) = (&self.world, &mut self.random);
        let frame = match idea {
            Idea::NewAddress => return self.new_address(),
            Idea::Again => return self.last_line.clone(),
            Idea::BadLine => return lines::bad_line(world, random),
            Idea::Reading => {
                let want = deal_reading(&mut self.readings, world, random);
                readings::frame(want, world, random)
            }
            Idea::OneFault(fault) => faults::single(fault, world, random).frame(),
            Idea::SeveralFaults => faults::several(world, random).frame(),
            Idea::Initial => Attempt::initial(world, random).frame(),
            Idea::Refresh => Attempt::matching(world, random, |wish, _| wish).frame(),
            Idea::Modify => Attempt::matching(world, random, Wish::with_body).frame(),
            Idea::Remove => special::remove(world, random).frame(),
            Idea::InitialOfZero => special::initial_of_zero(world, random).frame(),
            Idea::Crowd => special::crowd(world, random).frame(),
            Idea::Spent => special::spent(world, random).frame(),
            Idea::Late => special::late(world, random).frame(),
            Idea::Mutated => lines::mutated(world, random),
            Idea::MostHeaderLines => lines::most_header_lines(world, random),
            Idea::LongestRequest => lines::longest_request(world, random),
            Idea::PresentAddress => lines::present_address(world, random),
            Idea::MalformedAddress => lines::malformed_address(world, random),
        };
        lines::any_case_line(&frame, random)
    }

    /// A planned address, or after those one for which no record is left.
    fn new_address(&mut self) -> Vec<u8> {
        let random = &mut self.random;
        let frame = match self.planned.pop() {
            Some(frame) => frame,
            None => add_frame(random.word() as u32, 0, &lines::new_address(random)),
        };
        lines::any_case_line(&frame, random)
    }
}

/// Every kind of reading before one comes again; one that must wait for its
/// time comes later.
fn deal_reading(deck: &mut Vec<Want>, world: &World, random: &mut Random) -> Want {
    loop {
        let place = deck.iter().rposition(|&want| !must_wait(want, world));
        if let Some(place) = place {
            return deck.remove(place);
        }
        deck.extend(reading_wants::ALL);
        random.shuffle(deck);
    }
}

/// Sixteen addresses, some alike, with starts at which tags run over and spent
/// counts near their end. The first to be added stands last.
fn planned_addresses(random: &mut Random) -> Vec<Vec<u8>> {
    let any = random.word() as u32;
    let first_tag_is_zero = 0u32.wrapping_sub(STEP);
    let mut planned = vec![
        add_frame(0, 0, b"ann"),
        add_frame(any, 7, CROWD),
        add_frame(any, u32::MAX, b"sip:spent@board.example"),
        add_frame(any, 4294967200, LATE),
        add_frame(1, 0, b"bo"),
        add_frame(any, u32::MAX - 3, b"an"),
        add_frame(first_tag_is_zero, 0, b"sip:ann@board.example"),
        add_frame(any, u32::MAX - 12, b"Ann"),
        add_frame(u32::MAX, 1 << 31, &[b'~'; 64]),
        add_frame(random.word() as u32, random.word() as u32, b"!"),
        add_frame(
            first_tag_is_zero.wrapping_sub(STEP),
            1,
            b"sip:Ann@board.example",
        ),
        add_frame(u32::MAX, 0, b"\"<;tag=1"),
        add_frame(any, u32::MAX - 8, FULL),
    ];
    while planned.len() < MOST_RECORDS {
        let start = random.word() as u32;
        planned.push(add_frame(start, 0, &lines::new_address(random)));
    }
    random.shuffle(&mut planned[..EARLY]);
    planned.reverse();
    planned
}

pub fn print_frames<W: Write>(seed: u64, lines: u64, output: &mut W) -> io::Result<()> {
    let mut generator = Generator::new(seed);
    for _ in 0..lines {
        let (mut line, _) = generator.next_line();
        line.push(b'\n');
        output.write_all(&line)?;
    }
    Ok(())
}
