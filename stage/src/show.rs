//! What a tester is shown of a step: the line of the listing, the message or
//! what a reading showed, and the slots of the address that the step is about.

use crate::frame::Sent;
use crate::listing::{Listing, Slot};
use crate::text::message_lines;

pub fn shown(step: usize, sent: &Sent, listing: &Listing) -> String {
    let mut text = format!("{}\n", listing.line(step));
    let message = listing.answer(step).unwrap_or_default();
    for line in message_lines(&message) {
        text.push_str(&indented(&line));
    }
    if let Some(line) = listing.shown(step) {
        text.push_str(&format!("{}\n", line));
    }
    for slot in listing.slots(step, &sent.address) {
        text.push_str(&slot_line(&slot, sent.clock));
    }
    text
}

/// An empty line stays empty, so that no blanks stand at an end.
fn indented(line: &str) -> String {
    match line.is_empty() {
        true => "\n".to_string(),
        false => format!("    {}\n", line),
    }
}

/// A step without a clock shows the end itself.
fn slot_line(slot: &Slot, clock: Option<u64>) -> String {
    let end = slot.end.parse::<u64>();
    let time = match (clock, end) {
        (Some(clock), Ok(end)) => format!("left {}", end.saturating_sub(clock)),
        _ => format!("end {}", slot.end),
    };
    format!(
        "  slot {} {} {} {} body {} number {}\n",
        slot.slot, slot.package, slot.tag, time, slot.length, slot.number
    )
}

#[cfg(test)]
mod tests {
    use super::*;

    fn sent(clock: Option<u64>) -> Sent {
        Sent {
            frame: vec![],
            address: b"ann".to_vec(),
            clock,
        }
    }

    fn listing(between: &str) -> Listing {
        let text = format!(
            "1 said\n{}  record 0 616e6e 0 1 5 01\n  slot 0 0 2 00000001 65 3 1\n",
            between
        );
        Listing::read(text.as_bytes())
    }

    #[test]
    fn the_message_and_the_slots() {
        let text = shown(1, &sent(Some(60)), &listing("  answer 410d0a0d0a\n"));
        let slot = "  slot 0 dialog 00000001 left 5 body 3 number 1\n";
        assert_eq!(text, format!("1 said\n    A\n\n{}", slot));
    }

    #[test]
    fn a_reading() {
        let text = shown(1, &sent(Some(66)), &listing("  shown front\n  answer -\n"));
        let slot = "  slot 0 dialog 00000001 left 0 body 3 number 1\n";
        assert_eq!(text, format!("1 said\n  shown front\n{}", slot));
    }

    #[test]
    fn without_a_clock() {
        let text = shown(1, &sent(None), &listing(""));
        assert_eq!(
            text,
            "1 said\n  slot 0 dialog 00000001 end 65 body 3 number 1\n"
        );
    }
}
