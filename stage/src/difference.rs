//! Where two listings part: of each step the first line that differs, as each
//! program has it, and the column.

use crate::hex::bytes_of_hex;
use crate::listing::Listing;
use crate::text::{message_lines, printable};

const ANSWER: &[u8] = b"  answer ";

/// What is said of a step in which the two differ; nothing where they agree.
pub fn difference(step: usize, witness: &Listing, second: &Listing) -> Option<String> {
    let (ours, theirs) = parted(witness.said(step), second.said(step))?;
    let whole = (printable_line(ours), printable_line(theirs));
    let (place, ours, theirs) = match message_parted(ours, theirs) {
        Some((line, ours, theirs)) => (format!("line {} of the message, ", line), ours, theirs),
        None => (String::new(), whole.0, whole.1),
    };
    let column = common(ours.as_bytes(), theirs.as_bytes()) + 1;
    Some(format!(
        "{}: witness and second differ in {}column {}:\n  witness: {}\n  second:  {}\n",
        place_of(step),
        place,
        column,
        ours,
        theirs
    ))
}

/// Step 0 is the head of the listings.
pub fn place_of(step: usize) -> String {
    match step {
        0 => "before step 1".to_string(),
        _ => format!("step {}", step),
    }
}

/// The first line that differs, as each has it; one that has none has nothing.
fn parted<'a>(ours: &'a [Vec<u8>], theirs: &'a [Vec<u8>]) -> Option<(&'a [u8], &'a [u8])> {
    let lines = ours.len().max(theirs.len());
    (0..lines)
        .map(|at| (line_at(ours, at), line_at(theirs, at)))
        .find(|(ours, theirs)| ours != theirs)
}

fn line_at(lines: &[Vec<u8>], at: usize) -> &[u8] {
    lines.get(at).map_or(&[], |line| line)
}

/// How many bytes two lines have in common at their front.
fn common(ours: &[u8], theirs: &[u8]) -> usize {
    let pairs = ours.iter().zip(theirs);
    pairs.take_while(|(ours, theirs)| ours == theirs).count()
}

/// A line as it stands, without its LF. A line that has no LF, or that is not
/// there at all, says so.
fn printable_line(line: &[u8]) -> String {
    match line.strip_suffix(b"\n") {
        Some(text) => printable(text),
        None if line.is_empty() => "(no line)".to_string(),
        None => format!("{}(no line end)", printable(line)),
    }
}

/// Where both lines are answers whose texts differ: the number of the line of
/// the message, from 1, and that line as each has it.
fn message_parted(ours: &[u8], theirs: &[u8]) -> Option<(usize, String, String)> {
    let (ours, theirs) = (message_of(ours)?, message_of(theirs)?);
    let lines = ours.len().max(theirs.len());
    let text = |lines: &[String], at: usize| match lines.get(at) {
        Some(line) => line.clone(),
        None => "(no line)".to_string(),
    };
    (0..lines)
        .map(|at| (at + 1, text(&ours, at), text(&theirs, at)))
        .find(|(_, ours, theirs)| ours != theirs)
}

fn message_of(line: &[u8]) -> Option<Vec<String>> {
    let digits = line.strip_prefix(ANSWER)?.strip_suffix(b"\n")?;
    bytes_of_hex(digits).map(|message| message_lines(&message))
}

#[cfg(test)]
mod tests {
    use super::*;
    use crate::hex::hex;

    fn said(ours: &str, theirs: &str) -> Option<String> {
        let read = |text: &str| Listing::read(format!("1 a\n{}", text).as_bytes());
        difference(1, &read(ours), &read(theirs))
    }

    fn told(place: &str, ours: &str, theirs: &str) -> Option<String> {
        Some(format!(
            "step 1: witness and second differ in {}:\n  witness: {}\n  second:  {}\n",
            place, ours, theirs
        ))
    }

    #[test]
    fn the_first_line_that_differs() {
        assert_eq!(said("  b\n  c\n", "  b\n  c\n"), None);
        assert_eq!(
            said("  b\n  c\n", "  b\n  d\n"),
            told("column 3", "  c", "  d")
        );
        assert_eq!(said("  b\n", "  bcd\n"), told("column 4", "  b", "  bcd"));
    }

    #[test]
    fn lines_and_ends_that_are_missing() {
        assert_eq!(said("  b\n", ""), told("column 1", "  b", "(no line)"));
        assert_eq!(said("", "  b\n"), told("column 1", "(no line)", "  b"));
        assert_eq!(
            said("  b\n", "  b"),
            told("column 4", "  b", "  b(no line end)")
        );
    }

    #[test]
    fn messages_are_compared_as_text() {
        let answer = |text: &str| format!("  answer {}\n", hex(text.as_bytes()));
        let place = "line 2 of the message, column 2";
        assert_eq!(
            said(&answer("a\r\nbc\r\n"), &answer("a\r\nbd\r\n")),
            told(place, "bc", "bd")
        );
        let place = "line 2 of the message, column 1";
        assert_eq!(
            said(&answer("a\r\nb"), &answer("a\r\n")),
            told(place, "b", "(no line)")
        );
        assert_eq!(
            said("  answer -\n", "  answer 61\n"),
            told("column 10", "  answer -", "  answer 61")
        );
        assert_eq!(
            said("  answer 610d0a\n", "  answer 61\n"),
            told("column 12", "  answer 610d0a", "  answer 61")
        );
    }
}
