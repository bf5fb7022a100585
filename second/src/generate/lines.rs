//! Input lines that are more than a request with a fault: bytes changed at
//! will, requests as long as may be, addresses to add, and lines that are bad.

use super::attempt::Attempt;
use super::draft::DraftLine;
use super::faults::pad_lines;
use super::random::Random;
use super::world::World;
use crate::frames_in::MOST_DIGITS;
use crate::frames_out::{add_frame, frame_line, request_frame};
use crate::handle::LONGEST_REQUEST;
use crate::names::Name;
use crate::request::MOST_HEADER_LINES;

/// A frame's digits in small letters, capitals or both.
pub fn any_case_line(frame: &[u8], random: &mut Random) -> Vec<u8> {
    let mut line = frame_line(frame);
    match random.below(8) {
        0 => line.make_ascii_uppercase(),
        1 => {
            for digit in line.iter_mut() {
                if random.one_in(2) {
                    digit.make_ascii_uppercase();
                }
            }
        }
        _ => {}
    }
    line
}

/// A good request with one to three bytes or pieces changed.
pub fn mutated(world: &World, random: &mut Random) -> Vec<u8> {
    let attempt = Attempt::any(world, random);
    let mut bytes = attempt.draft.bytes();
    for _ in 0..1 + random.below(3) {
        mutate(&mut bytes, random);
    }
    request_frame(attempt.clock, &bytes)
}

pub fn mutate(bytes: &mut Vec<u8>, random: &mut Random) {
    let place = random.place(bytes.len() + 1);
    let nasty = *random.pick(b"\r\n \t:;,\"\\<>=\x00\x7f\xff09aZ");
    if place == bytes.len() {
        bytes.push(nasty);
        return;
    }
    match random.below(8) {
        0 => bytes[place] ^= 1 << random.below(8),
        1 => bytes[place] ^= 32,
        2 => bytes[place] = random.byte(),
        3 => bytes[place] = nasty,
        4 => bytes.insert(place, nasty),
        5 => {
            bytes.remove(place);
        }
        6 => bytes.truncate(place),
        _ => {
            let end = (place + 1 + random.place(40)).min(bytes.len());
            let piece = bytes[place..end].to_vec();
            bytes.splice(place..place, piece);
        }
    }
}

/// A good request with exactly as many header lines as may be.
pub fn most_header_lines(world: &World, random: &mut Random) -> Vec<u8> {
    let mut attempt = Attempt::any(world, random);
    pad_lines(&mut attempt, MOST_HEADER_LINES, random);
    attempt.frame()
}

/// A good request of exactly as many bytes as may be.
pub fn longest_request(world: &World, random: &mut Random) -> Vec<u8> {
    let mut attempt = Attempt::any(world, random);
    lengthen(&mut attempt, random);
    attempt.frame()
}

/// Brings a request to as many bytes as may be: with a long Via, a line passed
/// over, or bytes that Content-Length drops.
pub fn lengthen(attempt: &mut Attempt, random: &mut Random) {
    let length = attempt.draft.bytes().len();
    let missing = LONGEST_REQUEST.saturating_sub(length);
    if random.one_in(4) && attempt.draft.has(Name::ContentLength) {
        attempt.draft.rest.extend(vec![b'z'; missing]);
        return;
    }
    let (name, known) = match random.below(3) {
        0 => ("X", None),
        _ => ("Via", Some(Name::Via)),
    };
    let filled = missing.saturating_sub(name.len() + 3);
    let mut text = format!("{}:", name).into_bytes();
    text.extend(vec![b'v'; filled]);
    text.extend_from_slice(b"\r\n");
    attempt.draft.lines.push(DraftLine { name: known, text });
}

/// A new, well-formed address.
pub fn new_address(random: &mut Random) -> Vec<u8> {
    let length = *random.pick(&[2, 8, 20, 63, 64]);
    let mut address: Vec<u8> = (0..length).map(|_| 33 + random.below(94) as u8).collect();
    address[0] = b'N';
    address
}

pub fn malformed_address(world: &World, random: &mut Random) -> Vec<u8> {
    let mut address = match random.pick_any(&world.those(|_| true)) {
        Some(r) => world.record(r).address().to_vec(),
        None => b"ann".to_vec(),
    };
    let place = random.place(address.len());
    match random.below(5) {
        0 => address.clear(),
        1 => address.resize(65, b'a'),
        2 => address.resize(200, b'a'),
        3 => address[place] = *random.pick(b" \x7f\x00\t\x80\xff"),
        _ => address.push(*random.pick(b" \x7f\x00\r\n\x80")),
    }
    let start = random.word() as u32;
    add_frame(start, 0, &address)
}

/// An address that is there, with another start and spent count.
pub fn present_address(world: &World, random: &mut Random) -> Vec<u8> {
    let there = world.those(|_| true);
    let address = match random.pick_any(&there) {
        Some(r) => world.record(r).address().to_vec(),
        None => Vec::new(),
    };
    add_frame(random.word() as u32, random.word() as u32, &address)
}

/// A line that is not a frame.
pub fn bad_line(world: &World, random: &mut Random) -> Vec<u8> {
    let good = frame_line(&Attempt::any(world, random).frame());
    let mut line = good.clone();
    let place = random.place(line.len());
    match random.below(12) {
        0 => line.clear(),
        1 => line.push(b'0'),
        2 => line.push(b'\r'),
        3 => line[place] = *random.pick(b"gG xX/:@`\x00\r\xff"),
        4 => line.truncate(random.place(18)),
        5 => {
            line[1] = *random.pick(b"012");
            line.truncate(16)
        }
        6 => line[1] = *random.pick(b"3456789abcdefABCDEF"),
        7 => line[0] = *random.pick(b"123456789abcdefABCDEF"),
        8 => line.resize(MOST_DIGITS + 1, b'0'),
        9 => line.resize(MOST_DIGITS + 2, b'0'),
        10 => line.resize(3 * MOST_DIGITS, b'f'),
        _ => line = [b"0x", &good[..]].concat(),
    }
    line
}
