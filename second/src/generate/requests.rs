//! The generator of lines for the reads listing: a deck of ideas, half of them
//! good requests, shuffled and dealt over and over.

use std::io::{self, Write};

use super::attempt::{draft_of, Attempt, Wish};
use super::faults::{self, Fault};
use super::lines::{any_case_line, lengthen, mutate};
use super::mutations::{mutate_lines, scrap};
use super::oddities::{long_value, odd_value};
use super::random::Random;
use super::spelling::spelled;
use super::world::World;
use crate::frames_out::frame_line;
use crate::handle::LONGEST_REQUEST;
use crate::names::Name;
use crate::reads::MOST_DIGITS;
use crate::request::MOST_HEADER_LINES;

#[derive(Clone, Copy)]
enum Idea {
    Good,
    LongValue,
    HeaderLines(usize),
    Longest,
    Repeated,
    OtherMethod,
    OneFault(Fault),
    SeveralFaults,
    OddValue,
    MutatedBytes,
    MutatedLines,
    Scrap,
    BadLine,
}

/// How often each idea stands in the deck, besides each fault that shows in a
/// request once. Those before the odd values are the good half; with the
/// thirty-six faults the deck has two hundred.
const IDEAS: [(Idea, usize); 13] = [
    (Idea::Good, 52),
    (Idea::LongValue, 12),
    (Idea::HeaderLines(MOST_HEADER_LINES), 5),
    (Idea::HeaderLines(MOST_HEADER_LINES + 1), 4),
    (Idea::Longest, 5),
    (Idea::Repeated, 12),
    (Idea::OtherMethod, 10),
    (Idea::OddValue, 20),
    (Idea::SeveralFaults, 6),
    (Idea::MutatedBytes, 20),
    (Idea::MutatedLines, 14),
    (Idea::Scrap, 2),
    (Idea::BadLine, 2),
];

const URIS: [&[u8]; 6] = [
    b"ann",
    b"sip:ann@board.example",
    b"sip:ann@board.example;x=y?z",
    b"!",
    b"\"<;tag=1",
    &[b'~'; 64],
];

/// Fields that a readable request may have more than once.
const REPEATABLE: [Name; 6] = [
    Name::Via,
    Name::ContentType,
    Name::ContentLength,
    Name::Event,
    Name::Expires,
    Name::SipIfMatch,
];

pub struct Requests {
    random: Random,
    /// Without addresses: what is read does not depend on any.
    world: World,
    deck: Vec<Idea>,
}

impl Requests {
    pub fn new(seed: u64) -> Requests {
        Requests {
            random: Random::new(seed),
            world: World::new(),
            deck: Vec::new(),
        }
    }

    /// The next line without its LF.
    pub fn next_line(&mut self) -> Vec<u8> {
        let idea = self.deal();
        let mut bytes = self.bytes_of(idea);
        bytes.truncate(LONGEST_REQUEST);
        match idea {
            Idea::BadLine => bad_line(&bytes, &mut self.random),
            _ => any_case_line(&bytes, &mut self.random),
        }
    }

    fn deal(&mut self) -> Idea {
        if self.deck.is_empty() {
            let shown = faults::ALL.iter().filter(|&&fault| shows(fault));
            self.deck.extend(shown.map(|&fault| Idea::OneFault(fault)));
            for (idea, count) in IDEAS {
                self.deck.extend(vec![idea; count]);
            }
            self.random.shuffle(&mut self.deck);
        }
        self.deck.pop().unwrap_or(Idea::Good)
    }

    fn bytes_of(&mut self, idea: Idea) -> Vec<u8> {
        let (world, random) = (&self.world, &mut self.random);
        let mut attempt = good(random);
        match idea {
            Idea::Good | Idea::BadLine => {}
            Idea::LongValue => long_value(&mut attempt.draft, random),
            Idea::HeaderLines(count) => faults::pad_lines(&mut attempt, count, random),
            Idea::Longest => lengthen(&mut attempt, random),
            Idea::Repeated => repeat(&mut attempt, world, random),
            Idea::OtherMethod => other_method(&mut attempt, world, random),
            Idea::OneFault(fault) => faults::apply(fault, &mut attempt, world, random),
            Idea::SeveralFaults => {
                for _ in 0..2 + random.below(2) {
                    faults::one_more(&mut attempt, world, random);
                }
            }
            Idea::OddValue => odd_value(&mut attempt.draft, random),
            Idea::MutatedBytes => return mutated_bytes(&attempt, random),
            Idea::MutatedLines => return mutate_lines(&attempt.draft.bytes(), random),
            Idea::Scrap => return scrap(&attempt.draft.bytes(), random),
        }
        attempt.draft.bytes()
    }
}

/// Whether a fault shows in the request's bytes, where there is no address.
fn shows(fault: Fault) -> bool {
    !matches!(
        fault,
        Fault::ClockAboveLimit | Fault::ClockBehind | Fault::NoLivePublication
    )
}

fn good(random: &mut Random) -> Attempt {
    let wish = any_wish(random);
    let uri = *random.pick(&URIS);
    Attempt {
        record: None,
        package: wish.package,
        clock: 0,
        draft: draft_of(uri, &wish, random),
    }
}

/// A fresh publication, a refresh, a modification or a removal.
fn any_wish(random: &mut Random) -> Wish {
    let mut wish = Wish::initial(random);
    if random.one_in(2) {
        wish.presented = Some(spelled(random.word() as u32, random));
        if random.one_in(2) {
            wish.body.clear();
        }
    }
    match random.one_in(6) {
        true => wish.of_zero(random),
        false => wish,
    }
}

fn repeat(attempt: &mut Attempt, world: &World, random: &mut Random) {
    let name = *random.pick(&REPEATABLE);
    for _ in 0..1 + random.below(2) {
        faults::apply(Fault::Repeated(name), attempt, world, random);
    }
}

/// Another method, ACK among them, mostly with a CSeq that says so.
fn other_method(attempt: &mut Attempt, world: &World, random: &mut Random) {
    let fault = match random.one_in(3) {
        true => Fault::Ack,
        false => Fault::OtherMethod,
    };
    faults::apply(fault, attempt, world, random);
    if random.one_in(2) {
        let mut cseq = random
            .pick(&["7 ", "2147483647\t", "00 \t "])
            .as_bytes()
            .to_vec();
        cseq.extend_from_slice(&attempt.draft.method);
        attempt.draft.set(Name::Cseq, &cseq, random);
    }
}

fn mutated_bytes(attempt: &Attempt, random: &mut Random) -> Vec<u8> {
    let mut bytes = attempt.draft.bytes();
    for _ in 0..1 + random.below(3) {
        mutate(&mut bytes, random);
    }
    bytes
}

/// A line that is no request in hexadecimal.
fn bad_line(request: &[u8], random: &mut Random) -> Vec<u8> {
    let mut line = frame_line(request);
    let place = random.place(line.len() + 1);
    match random.below(8) {
        0 => line.push(b'0'),
        1 => line.push(b'\r'),
        2 => line.insert(place, b' '),
        3 => line.splice(place..place, *b"0x").for_each(drop),
        4 => line.resize(MOST_DIGITS + 1, b'0'),
        5 => line.resize(MOST_DIGITS + 2, b'0'),
        6 => line.resize(MOST_DIGITS + 18, b'f'),
        _ => line.resize(3 * MOST_DIGITS, b'f'),
    }
    line
}

pub fn print_requests<W: Write>(seed: u64, lines: u64, output: &mut W) -> io::Result<()> {
    let mut requests = Requests::new(seed);
    for _ in 0..lines {
        let mut line = requests.next_line();
        line.push(b'\n');
        output.write_all(&line)?;
    }
    Ok(())
}

#[cfg(test)]
mod tests {
    use super::*;
    use crate::reads::{reading_of, Reading};

    #[test]
    fn good_requests_are_readable_with_every_field_well_formed() {
        for seed in 0..300 {
            let bytes = good(&mut Random::new(seed)).draft.bytes();
            match reading_of(Some(&bytes)) {
                Reading::Said(said) => {
                    assert_eq!(said.cseq, Ok(()));
                    assert!(said.body.is_ok() && said.expires.is_ok() && said.presented.is_ok());
                }
                other => panic!("{:?}", other),
            }
        }
    }

    #[test]
    fn the_deck_has_two_hundred_half_of_them_good() {
        let shown = faults::ALL.iter().filter(|&&fault| shows(fault)).count();
        let counts: Vec<usize> = IDEAS.iter().map(|(_, count)| *count).collect();
        assert_eq!(shown, 36);
        assert_eq!(counts[..7].iter().sum::<usize>(), 100);
        assert_eq!(counts.iter().sum::<usize>() + shown, 200);
    }

    #[test]
    fn a_bad_line_is_bad() {
        let mut random = Random::new(3);
        for _ in 0..200 {
            let line = bad_line(b"PUBLISH ann SIP/2.0", &mut random);
            assert_eq!(crate::reads::request_bytes(&line), None);
        }
    }
}
