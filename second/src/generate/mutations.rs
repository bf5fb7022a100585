//! Requests whose lines are out of order or not all there, and scraps that
//! are hardly requests at all.

use super::random::Random;

/// One to three times a line doubled, swapped, taken out, cut short, joined
/// with the next, or an empty line put in; or all cut off at some place.
pub fn mutate_lines(request: &[u8], random: &mut Random) -> Vec<u8> {
    let mut lines = lines_of(request);
    for _ in 0..1 + random.below(3) {
        if !lines.is_empty() {
            mutate_one(&mut lines, random);
        }
    }
    let mut bytes = lines.concat();
    if random.one_in(5) {
        let kept = random.place(bytes.len() + 1);
        bytes.truncate(kept);
    }
    bytes
}

/// Each line with its LF, and what follows the last.
fn lines_of(request: &[u8]) -> Vec<Vec<u8>> {
    request
        .split_inclusive(|&byte| byte == b'\n')
        .map(<[u8]>::to_vec)
        .collect()
}

/// There must be a line.
fn mutate_one(lines: &mut Vec<Vec<u8>>, random: &mut Random) {
    let one = random.place(lines.len());
    let other = random.place(lines.len());
    match random.below(9) {
        0 | 1 => lines.insert(other, lines[one].clone()),
        2 | 3 => lines.swap(one, other),
        4 => {
            lines.remove(one);
        }
        5 => {
            let kept = random.place(lines[one].len() + 1);
            lines[one].truncate(kept);
        }
        6 => without_line_end(&mut lines[one]),
        7 => lines.insert(one, b"\r\n".to_vec()),
        _ => lines.insert(one, b" ".to_vec()),
    }
}

fn without_line_end(line: &mut Vec<u8>) {
    while matches!(line.last(), Some(b'\r' | b'\n')) {
        line.pop();
    }
}

/// Nothing, a line's end, the first line alone, a few of its bytes, or noise.
pub fn scrap(request: &[u8], random: &mut Random) -> Vec<u8> {
    let short = random.place(request.len().min(40) + 1);
    match random.below(6) {
        0 => Vec::new(),
        1 => random
            .pick(&["\r\n", "\r\n\r\n", "\n", " "])
            .as_bytes()
            .to_vec(),
        2 => lines_of(request).first().cloned().unwrap_or_default(),
        3 => request[..short].to_vec(),
        4 => request[request.len() - short..].to_vec(),
        _ => random.bytes(short),
    }
}

#[cfg(test)]
mod tests {
    use super::*;

    #[test]
    fn lines_put_together_are_the_request() {
        for request in ["", "a", "a\r\nb", "a\r\n\r\n", "\n\n"] {
            assert_eq!(lines_of(request.as_bytes()).concat(), request.as_bytes());
        }
    }

    #[test]
    fn anything_can_be_mutated() {
        let mut random = Random::new(1);
        for request in ["", "a", "a\r\n", "a\r\nb\r\n\r\nc"] {
            for _ in 0..200 {
                mutate_lines(request.as_bytes(), &mut random);
                scrap(request.as_bytes(), &mut random);
            }
        }
    }

    #[test]
    fn a_line_is_doubled_swapped_and_taken_out() {
        let mut random = Random::new(1);
        let found: Vec<Vec<u8>> = (0..500)
            .map(|_| mutate_lines(b"1\r\n2\r\n", &mut random))
            .collect();
        for wanted in ["2\r\n1\r\n", "1\r\n1\r\n2\r\n", "1\r\n", "1\r\n2"] {
            assert!(found.iter().any(|text| text == wanted.as_bytes()));
        }
    }
}
