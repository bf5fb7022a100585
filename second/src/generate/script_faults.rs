//! Lines of a script that are bad: digits that are none, lines too short or
//! too long, and publications out of bounds.

use super::random::Random;
use super::scene::Scene;
use super::steps::{bytes_of, publication, Step};
use crate::frames_in::MOST_DIGITS;
use crate::frames_out::frame_line;
use crate::packages;
use crate::record::{BODY_SIZE, CLOCK_LIMIT};
use crate::script_out::{begin_bytes, publication_bytes};

/// A line that is not so many digits, or begins with another byte.
pub fn bad_line(scene: &Scene, random: &mut Random) -> Vec<u8> {
    let step = *random.pick(&[Step::Refresh, Step::Initial, Step::Show]);
    let mut line = frame_line(&bytes_of(step, scene, random));
    let place = random.place(line.len());
    match random.below(10) {
        0 => line.clear(),
        1 => line.push(b'0'),
        2 => line.push(b'\r'),
        3 => line[place] = *random.pick(b"gG xX/:@`\x00\r\xff"),
        4 => line[0] = *random.pick(b"123456789abcdefABCDEF"),
        5 => line[1] = *random.pick(b"3456789abcdefABCDEF"),
        6 => line.resize(MOST_DIGITS + 1, b'0'),
        7 => line.resize(MOST_DIGITS + 2, b'0'),
        8 => line.resize(MOST_DIGITS, b'0'),
        _ => line.insert(place, b' '),
    }
    line
}

/// The bytes of a line that are too few, too many or out of bounds.
pub fn fault_bytes(scene: &Scene, random: &mut Random) -> Vec<u8> {
    let begin = begin_bytes(random.word() as u32, random.word() as u32);
    let show = bytes_of(Step::Show, scene, random);
    match random.below(8) {
        0 => one_less(begin),
        1 => one_more(begin, random),
        2 => one_less(show),
        3 => one_more(show, random),
        4 => short_publication(scene, random),
        _ => out_of_bounds(scene, random),
    }
}

fn one_less(mut bytes: Vec<u8>) -> Vec<u8> {
    bytes.pop();
    bytes
}

fn one_more(mut bytes: Vec<u8>, random: &mut Random) -> Vec<u8> {
    bytes.push(random.byte());
    bytes
}

/// A token of which a byte is missing, or not even its length there.
fn short_publication(scene: &Scene, random: &mut Random) -> Vec<u8> {
    let mut short = publication(Step::Initial, scene, random);
    short.body.clear();
    short.token = vec![b'0'; random.place(255) + 1];
    let mut bytes = publication_bytes(&short);
    match random.one_in(2) {
        true => bytes.truncate(1 + random.place(14)),
        false => {
            bytes.pop();
        }
    }
    bytes
}

fn out_of_bounds(scene: &Scene, random: &mut Random) -> Vec<u8> {
    let step = *random.pick(&[Step::Initial, Step::Refresh, Step::Modify]);
    let mut out = publication(step, scene, random);
    match random.below(4) {
        0 => out.package = *random.pick(&[3, 4, 128, 255]),
        1 => {
            let most = packages::MOST[out.package];
            out.granted = *random.pick(&[most + 1, 7201, u32::MAX]);
        }
        2 => out.clock = *random.pick(&[CLOCK_LIMIT + 1, 1 << 63, u64::MAX]),
        _ => out.body = random.bytes(BODY_SIZE + 1),
    }
    publication_bytes(&out)
}

#[cfg(test)]
mod tests {
    use super::*;
    use crate::script_in::{read_script_line, ScriptLine};
    use crate::text::hex;

    #[test]
    fn the_lines_are_bad() {
        let mut scene = Scene::new();
        scene.run(hex(&begin_bytes(0, 0)).as_bytes());
        let mut random = Random::new(1);
        for _ in 0..400 {
            let line = bad_line(&scene, &mut random);
            assert_eq!(read_script_line(&line), ScriptLine::Bad);
            let line = hex(&fault_bytes(&scene, &mut random));
            assert_eq!(
                read_script_line(line.as_bytes()),
                ScriptLine::Bad,
                "{}",
                line
            );
        }
    }
}
