//! What the host prints: a line a request in the bench's form.

/// A line: status, tag and seconds; or a result where nothing was answered.
#[derive(Debug, PartialEq)]
pub enum Line {
    Answered(u16, Option<u32>, Option<u64>),
    None(u8),
}

/// The lines of a log. They are numbered from 1 without a gap. A line that a kill cut off is left out.
pub fn lines(text: &str) -> Result<Vec<Line>, String> {
    let whole = &text[..text.rfind('\n').map_or(0, |at| at + 1)];
    let numbered = |(k, line): (usize, &str)| line_of(line, k + 1).ok_or(format!("line {} of the log is {:?}", k + 1, line));
    whole.lines().enumerate().map(numbered).collect()
}

/// The tags of all successes.
pub fn tags(lines: &[Line]) -> Vec<u32> {
    let tag = |line: &Line| match line {
        Line::Answered(200, tag, _) => *tag,
        _ => None,
    };
    lines.iter().filter_map(tag).collect()
}

fn line_of(line: &str, number: usize) -> Option<Line> {
    let words: Vec<&str> = line.split(' ').collect();
    if words.first()? != &number.to_string() {
        return None;
    }
    match words[1..] {
        ["none", result] => Some(Line::None(result.parse().ok()?)),
        ["200", tag, seconds] if is_tag(tag) => {
            Some(Line::Answered(200, u32::from_str_radix(tag, 16).ok(), Some(seconds.parse().ok()?)))
        }
        [status @ ("423" | "503"), "-", seconds] => Some(Line::Answered(status.parse().ok()?, None, Some(seconds.parse().ok()?))),
        [status, "-", "-"] => Some(Line::Answered(status.parse().ok()?, None, None)),
        _ => None,
    }
}

/// Eight lowercase hex digits.
pub fn is_tag(word: &str) -> bool {
    word.len() == 8 && word.bytes().all(|b| b.is_ascii_digit() || (b'a'..=b'f').contains(&b))
}
