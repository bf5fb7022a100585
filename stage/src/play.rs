//! Plays a scene: both programs on all its frames, each step shown, and said
//! where the two differ.

use crate::cast::{asked, cast};
use crate::difference::{difference, place_of};
use crate::fault::Stop;
use crate::frame::Sent;
use crate::listing::Listing;
use crate::program::Program;
use crate::scene::Step;
use crate::show::shown;

/// The text to print, and whether the programs agreed.
pub struct Played {
    pub text: String,
    pub agreed: bool,
}

pub fn play(steps: &[Step], witness: &Program, second: &Program) -> Result<Played, Stop> {
    let ask = |sent: &[Sent]| witness.run(sent);
    let sent = cast(steps, &ask)?;
    let ours = asked(&sent, &ask)?;
    let theirs = second.run(&sent).map_err(Stop::Program)?;
    Ok(compared(&sent, &ours, &theirs))
}

/// Step 0 is the head of the listings; steps past the last are only printed by
/// a program that prints too much.
fn compared(sent: &[Sent], ours: &Listing, theirs: &Listing) -> Played {
    let mut text = String::new();
    let mut parted = Vec::new();
    for step in 0..=ours.steps().max(theirs.steps()) {
        if let Some(one) = step.checked_sub(1).and_then(|at| sent.get(at)) {
            text.push_str(&shown(step, one, ours));
        }
        if let Some(said) = difference(step, ours, theirs) {
            text.push_str(&said);
            parted.push(step);
        }
    }
    text.push_str(&verdict(&parted, sent.len()));
    Played {
        text,
        agreed: parted.is_empty(),
    }
}

fn verdict(parted: &[usize], steps: usize) -> String {
    match parted.first() {
        None if steps == 1 => "witness and second agree on 1 step\n".to_string(),
        None => format!("witness and second agree on {} steps\n", steps),
        Some(&first) => format!("witness and second differ, first: {}\n", place_of(first)),
    }
}

#[cfg(test)]
mod tests {
    use super::*;
    use crate::frame::adding;

    fn played(ours: &str, theirs: &str) -> (String, bool) {
        let sent = vec![adding(b"a", 0, 0); 2];
        let played = compared(
            &sent,
            &Listing::read(ours.as_bytes()),
            &Listing::read(theirs.as_bytes()),
        );
        (played.text, played.agreed)
    }

    const OURS: &str = "publish bench\n1 add 0\n2 add 8\n";

    #[test]
    fn they_agree() {
        let text = "1 add 0\n2 add 8\nwitness and second agree on 2 steps\n";
        assert_eq!(played(OURS, OURS), (text.to_string(), true));
    }

    #[test]
    fn each_step_that_differs_is_told() {
        let (text, agreed) = played(OURS, "publish bench\n1 add 0\n2 add 9\n");
        assert!(!agreed);
        assert!(
            text.starts_with("1 add 0\n2 add 8\nstep 2: witness and second differ in column 7:\n")
        );
        assert!(text.ends_with("\nwitness and second differ, first: step 2\n"));
    }

    #[test]
    fn the_head_and_what_is_too_much() {
        let (text, agreed) = played(OURS, "bench\n1 add 0\n2 add 8\n3 bad\n");
        assert!(!agreed);
        assert!(text.starts_with("before step 1: witness and second differ in column 1:\n"));
        assert!(text.contains("\nstep 3: witness and second differ in column 1:\n"));
    }
}
