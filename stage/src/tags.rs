//! $tagN in a line of a message: where it stands, and what is put there.

use crate::fault::Fault;
use crate::words::decimal;

const SIGN: &[u8] = b"$tag";

/// One $tagN: its place in the line, and its digits.
struct Mark {
    begin: usize,
    end: usize,
    digits: Vec<u8>,
}

/// The first mark at or behind a place. All digits that follow belong to it.
fn mark_from(line: &[u8], from: usize) -> Option<Mark> {
    let found = line[from..]
        .windows(SIGN.len())
        .position(|part| part == SIGN)?;
    let begin = from + found;
    let digits: Vec<u8> = line[begin + SIGN.len()..]
        .iter()
        .copied()
        .take_while(u8::is_ascii_digit)
        .collect();
    Some(Mark {
        begin,
        end: begin + SIGN.len() + digits.len(),
        digits,
    })
}

/// Each mark of a line must name a step before the step that it stands in.
pub fn check_tags(line: &[u8], line_number: usize, step: usize) -> Result<(), Fault> {
    let mut from = 0;
    while let Some(mark) = mark_from(line, from) {
        match step_of(&mark) {
            Some(named) if named > 0 && named < step => from = mark.end,
            _ => return Err(fault(&mark, line_number, step)),
        }
    }
    Ok(())
}

fn fault(mark: &Mark, line_number: usize, step: usize) -> Fault {
    let mut expected = format!("the number of a step before step {} behind $tag", step);
    if !mark.digits.is_empty() {
        expected += &format!(", not {}", String::from_utf8_lossy(&mark.digits));
    }
    Fault::new(line_number, expected)
}

fn step_of(mark: &Mark) -> Option<usize> {
    usize::try_from(decimal(&mark.digits)?).ok()
}

/// The steps that a line names.
pub fn named_steps(line: &[u8]) -> Vec<usize> {
    let mut named = Vec::new();
    let mut from = 0;
    while let Some(mark) = mark_from(line, from) {
        named.extend(step_of(&mark));
        from = mark.end;
    }
    named
}

/// The line with each mark replaced. What is put in is not looked at again.
pub fn filled(line: &[u8], tag: impl Fn(usize) -> Vec<u8>) -> Vec<u8> {
    let mut text = Vec::new();
    let mut from = 0;
    while let Some(mark) = mark_from(line, from) {
        text.extend_from_slice(&line[from..mark.begin]);
        text.extend(step_of(&mark).map(&tag).unwrap_or_default());
        from = mark.end;
    }
    text.extend_from_slice(&line[from..]);
    text
}

#[cfg(test)]
mod tests {
    use super::*;

    fn said(line: &str, step: usize) -> String {
        check_tags(line.as_bytes(), 7, step).unwrap_err().expected
    }

    #[test]
    fn marks_are_replaced_anywhere() {
        let tag = |step| format!("<{}>", step).into_bytes();
        assert_eq!(filled(b"$tag3 a$tag12b $tag01", tag), b"<3> a<12>b <1>");
        assert_eq!(filled(b"$ tag $ta", tag), b"$ tag $ta");
        assert_eq!(named_steps(b"$tag3 a$tag12b$"), [3, 12]);
    }

    #[test]
    fn earlier_steps_alone() {
        assert_eq!(check_tags(b"a $tag1 $tag4", 7, 5), Ok(()));
        let expected = "the number of a step before step 5 behind $tag";
        for (line, found) in [
            ("$tag", ""),
            ("$tag1 $tagged", ""),
            ("$tag 4", ""),
            ("$tag0", ", not 0"),
            ("$tag5", ", not 5"),
            ("$tag99999999999999999999", ", not 99999999999999999999"),
        ] {
            assert_eq!(said(line, 5), format!("{}{}", expected, found), "{}", line);
        }
    }
}
