//! From steps to what is sent, one after the other. Where a message uses a tag
//! that is not known yet, the witness is run on the frames so far.

use crate::fault::{Fault, Stop};
use crate::frame::{adding, handling, reading, Sent};
use crate::listing::Listing;
use crate::scene::{Order, Step};
use crate::tags::{filled, named_steps};

/// Runs the witness.
pub type Witness<'a> = dyn Fn(&[Sent]) -> Result<Listing, String> + 'a;

pub fn cast(steps: &[Step], witness: &Witness) -> Result<Vec<Sent>, Stop> {
    let mut sent = Vec::new();
    let mut known = Listing::read(b"");
    for step in steps {
        let one = match &step.order {
            Order::Add {
                address,
                start,
                spent,
            } => adding(address, *start, *spent),
            Order::Read {
                address,
                package,
                clock,
                default,
            } => reading(address, package, *clock, default),
            Order::At { clock, text } => {
                if needed(text) > known.steps() {
                    known = asked(&sent, witness)?;
                }
                handling(*clock, &with_tags(text, step.line + 1, &known)?)
            }
        };
        sent.push(one);
    }
    Ok(sent)
}

/// The highest number of a step whose tag a message uses.
fn needed(text: &[Vec<u8>]) -> usize {
    let named = text.iter().flat_map(|line| named_steps(line));
    named.max().unwrap_or(0)
}

/// The witness's listing, which must have a line for each frame.
pub fn asked(sent: &[Sent], witness: &Witness) -> Result<Listing, Stop> {
    let listing = witness(sent).map_err(Stop::Program)?;
    if listing.steps() == sent.len() {
        return Ok(listing);
    }
    Err(Stop::Program(format!(
        "witness printed {} steps for {} frames",
        listing.steps(),
        sent.len()
    )))
}

fn with_tags(text: &[Vec<u8>], first: usize, known: &Listing) -> Result<Vec<Vec<u8>>, Fault> {
    let mut lines = Vec::new();
    for (at, line) in text.iter().enumerate() {
        let named = named_steps(line);
        if let Some(&step) = named.iter().find(|&&step| known.tag(step).is_none()) {
            let expected = "the number of a step that gave a tag behind $tag";
            let found = format!("{}, not {} ({})", expected, step, known.line(step));
            return Err(Fault::new(first + at, found));
        }
        lines.push(filled(line, |step| known.tag(step).unwrap_or_default()));
    }
    Ok(lines)
}

#[cfg(test)]
mod tests {
    use super::*;
    use crate::parse::parse;
    use std::cell::Cell;

    const FILE: &str = "add a start 0 spent 0\nat 5\nP a\nM: $tag2\n.\n";

    fn steps(file: &str) -> Vec<Step> {
        parse(file.as_bytes()).unwrap()
    }

    /// A witness that gives each odd step the tag of its number.
    fn odd(sent: &[Sent]) -> Result<Listing, String> {
        let line = |n: usize| match n % 2 {
            1 => format!("{} 200 t{} 60\n", n, n),
            _ => format!("{} 412 - -\n", n),
        };
        let text: String = (1..=sent.len()).map(line).collect();
        Ok(Listing::read(text.as_bytes()))
    }

    #[test]
    fn a_tag_is_asked_for_once() {
        let file =
            "at 1\na b\n.\nat 2\na b\n\n$tag1 $tag1\n.\nat 3\na $tag1\n.\nat 4\na $tag3\n.\n";
        let runs = Cell::new(0);
        let counted = |sent: &[Sent]| {
            runs.set(runs.get() + 1);
            odd(sent)
        };
        let sent = cast(&steps(file), &counted).ok().unwrap();
        assert!(sent[1].frame.ends_with(b"\r\n\r\nt1 t1"));
        assert_eq!(sent[3].address, b"t3");
        assert_eq!(runs.get(), 2);
    }

    #[test]
    fn without_tags_the_witness_is_not_run() {
        let never = |_: &[Sent]| -> Result<Listing, String> { panic!("run") };
        let file = "add a start 0 spent 0\nread a b at 0 default x\nat 0\n$ag1\n.\n";
        assert_eq!(cast(&steps(file), &never).ok().unwrap().len(), 3);
    }

    #[test]
    fn a_step_that_gave_no_tag() {
        let file = format!("{}{}", "at 0\n.\n", FILE);
        let fault = cast(&steps(&file), &odd).err().unwrap();
        let text = "the number of a step that gave a tag behind $tag, not 2 (2 412 - -)";
        assert_eq!(fault, Stop::Fault(Fault::new(6, text)));
    }

    #[test]
    fn a_witness_that_fails() {
        let file = format!("{}{}", "at 0\n.\n", FILE);
        let silent = |_: &[Sent]| Ok(Listing::read(b"publish bench\n"));
        let fault = cast(&steps(&file), &silent).err().unwrap();
        let text = "witness printed 0 steps for 2 frames".to_string();
        assert_eq!(fault, Stop::Program(text));
        let broken = |_: &[Sent]| Err("witness ended".to_string());
        let fault = cast(&steps(&file), &broken).err().unwrap();
        assert_eq!(fault, Stop::Program("witness ended".to_string()));
    }
}
