//! Whether a To value has a tag: quotes first, then the angle brackets, then
//! the parameters one by one.

use crate::text::{same_in_either_case, without_outer_blanks};
use crate::unreadable::Unreadable;

pub fn has_tag(value: &[u8]) -> Result<bool, Unreadable> {
    let outside = outside_quotes(value)?;
    let front = start_of_parameters(value, &outside)?;
    Ok(parameters(value, &outside, front)
        .into_iter()
        .any(is_named_tag))
}

/// For each byte whether it stands outside quotes. The quote marks themselves
/// count as inside; a backslash inside covers the next byte.
fn outside_quotes(value: &[u8]) -> Result<Vec<bool>, Unreadable> {
    let mut outside = Vec::with_capacity(value.len());
    let mut quoted = false;
    let mut covered = false;
    for &byte in value {
        outside.push(!quoted && byte != b'"');
        if covered {
            covered = false;
        } else if quoted && byte == b'\\' {
            covered = true;
        } else if byte == b'"' {
            quoted = !quoted;
        }
    }
    if quoted {
        Err(Unreadable::OpenQuote)
    } else {
        Ok(outside)
    }
}

fn find_outside(value: &[u8], outside: &[bool], wanted: u8, from: usize) -> Option<usize> {
    (from..value.len()).find(|&i| outside[i] && value[i] == wanted)
}

/// After the first `>` that follows the first `<`, or the front without `<`.
fn start_of_parameters(value: &[u8], outside: &[bool]) -> Result<usize, Unreadable> {
    match find_outside(value, outside, b'<', 0) {
        None => Ok(0),
        Some(open) => find_outside(value, outside, b'>', open + 1)
            .map(|close| close + 1)
            .ok_or(Unreadable::OpenAngle),
    }
}

/// The parameters without the `;` that opens each.
fn parameters<'a>(value: &'a [u8], outside: &[bool], front: usize) -> Vec<&'a [u8]> {
    let mut found = Vec::new();
    let mut opening = find_outside(value, outside, b';', front);
    while let Some(semicolon) = opening {
        let next = find_outside(value, outside, b';', semicolon + 1);
        found.push(&value[semicolon + 1..next.unwrap_or(value.len())]);
        opening = next;
    }
    found
}

fn is_named_tag(parameter: &[u8]) -> bool {
    match parameter.iter().position(|&byte| byte == b'=') {
        Some(equals) => {
            let name = without_outer_blanks(&parameter[..equals]);
            same_in_either_case(name, b"tag")
        }
        None => false,
    }
}

#[cfg(test)]
mod tests {
    use super::*;

    fn each(values: &[&str], expected: Result<bool, Unreadable>) {
        for value in values {
            assert_eq!(has_tag(value.as_bytes()), expected, "{}", value);
        }
    }

    #[test]
    fn values_with_a_tag() {
        each(
            &[
                "<ann>;tag=1",
                "<ann>;TAG=1",
                "<ann> ; \tTag\t = 1",
                "<ann>;tag=",
                "<ann>;tag==",
                "<ann>;x=1;tag=2",
                "<ann>;x=\"a;b\";tag=2",
                "ann;tag=1",
                ";tag=1",
                "<>;tag=1",
                "<a>junk>;tag=1",
                "\"A\\\"nn\" <ann>;tag=1",
                "\"\\\\\" <ann>;tag=1",
                "<a;x=1>;tag=1<",
                ">;tag=1",
                "\\\"<a>\";tag=1",
            ],
            Ok(true),
        );
    }

    #[test]
    fn values_without_a_tag() {
        each(
            &[
                "",
                "<ann>",
                "ann",
                "<ann;tag=1>",
                "\";tag=1\" <ann>",
                "\"\\\";tag=1\" ann",
                "<ann>;tag",
                "<ann>;tag;x=1",
                "<ann>;x=tag=1",
                "<ann>;xtag=1",
                "<ann>;ta g=1",
                "<ann>;\"tag\"=1",
                "<ann>;\"tag=1\"",
                "<ann>;x=\";tag=1\"",
                "a;tag=1<ann>",
                "a>;tag=1<ann>",
                "<ann\">;tag=1\">",
                "<ann>tag=1",
            ],
            Ok(false),
        );
    }

    #[test]
    fn only_the_first_angle_bracket_is_looked_for() {
        each(&["<a>;x=<b", "<a>;x=1<", "<a<b>"], Ok(false));
        each(&["<a>;x=<b;tag=1"], Ok(true));
    }

    #[test]
    fn an_unclosed_quote_is_unreadable_wherever_it_began() {
        each(
            &[
                "\"",
                "\"Ann <ann>",
                "\"Ann\\\" <ann>",
                "\"\\",
                "<ann>;x=\"1",
                "<a\"nn>",
                "<ann\"",
                "ann;tag=\"",
            ],
            Err(Unreadable::OpenQuote),
        );
    }

    #[test]
    fn an_unclosed_angle_bracket_is_unreadable() {
        each(
            &["<", "<ann", "\"x\" <ann;tag=1", ">ann<", "<ann\">\"", "<a<"],
            Err(Unreadable::OpenAngle),
        );
    }
}
