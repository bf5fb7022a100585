//! A witness listing, cut into what it says of each step (docs/WITNESS.md). A
//! line that begins with a digit begins a step; what stands before the first
//! is the head. Each line keeps its LF, so that nothing is lost in comparing.

use crate::hex::{bytes_of_hex, hex};

pub struct Listing {
    /// The head, then the lines of step 1, of step 2, and so on.
    groups: Vec<Vec<Vec<u8>>>,
}

/// An occupied slot, as the words of its line.
#[derive(Debug, PartialEq, Eq)]
pub struct Slot {
    pub slot: String,
    pub package: String,
    pub tag: String,
    pub end: String,
    pub length: String,
    pub number: String,
}

impl Listing {
    pub fn read(bytes: &[u8]) -> Listing {
        let mut groups = vec![Vec::new()];
        for line in bytes.split_inclusive(|&byte| byte == b'\n') {
            if line[0].is_ascii_digit() {
                groups.push(Vec::new());
            }
            groups.last_mut().unwrap().push(line.to_vec());
        }
        Listing { groups }
    }

    pub fn steps(&self) -> usize {
        self.groups.len() - 1
    }

    /// Everything that is said of a step; of step 0, the head.
    pub fn said(&self, step: usize) -> &[Vec<u8>] {
        self.groups.get(step).map_or(&[], |lines| lines)
    }

    /// The step's line of the bench's listing.
    pub fn line(&self, step: usize) -> String {
        let line = self.said(step).first();
        line.map_or_else(String::new, |line| text(line))
    }

    /// The tag that a step gave: the third of four words.
    pub fn tag(&self, step: usize) -> Option<Vec<u8>> {
        let line = self.line(step);
        match line.split(' ').collect::<Vec<_>>()[..] {
            [_, _, tag, _] if tag != "-" => Some(tag.as_bytes().to_vec()),
            _ => None,
        }
    }

    /// The message that came of a step.
    pub fn answer(&self, step: usize) -> Option<Vec<u8>> {
        let line = self
            .lines(step)
            .find(|line| line.starts_with("  answer "))?;
        bytes_of_hex(&line.as_bytes()["  answer ".len()..])
    }

    /// What a reading showed: its line, blanks in front and all.
    pub fn shown(&self, step: usize) -> Option<String> {
        self.lines(step).find(|line| line.starts_with("  shown "))
    }

    /// The occupied slots of an address after a step.
    pub fn slots(&self, step: usize, address: &[u8]) -> Vec<Slot> {
        let address = hex(address);
        let mut is_its = false;
        let mut slots = Vec::new();
        for line in self.lines(step) {
            match line.split_whitespace().collect::<Vec<_>>()[..] {
                ["record", _, held, ..] => is_its = held == address,
                ["slot", _, slot, package, tag, end, length, number] if is_its => {
                    slots.push(Slot {
                        slot: slot.to_string(),
                        package: package_name(package),
                        tag: tag.to_string(),
                        end: end.to_string(),
                        length: length.to_string(),
                        number: number.to_string(),
                    })
                }
                _ => {}
            }
        }
        slots
    }

    fn lines(&self, step: usize) -> impl Iterator<Item = String> + '_ {
        self.said(step).iter().map(|line| text(line))
    }
}

fn text(line: &[u8]) -> String {
    let line = line.strip_suffix(b"\n").unwrap_or(line);
    String::from_utf8_lossy(line).into_owned()
}

/// The packages by number, in the paper's order.
fn package_name(number: &str) -> String {
    match number {
        "0" => "presence",
        "1" => "message-summary",
        "2" => "dialog",
        other => other,
    }
    .to_string()
}

#[cfg(test)]
mod tests {
    use super::*;

    const TEXT: &str = "publish bench\n1 add 0\n  answer -\n2 200 9e3779b9 60\n  answer 410d0a\n  record 0 616e6e 00000000 1 5 01\n  slot 0 3 1 9e3779b9 65 2 1\n  part 0 0\n  record 1 626f 0 0 0 01\n  slot 1 0 0 0 0 0 0\n3 412 - -\n4 read 0\n  shown default 3\n";

    #[test]
    fn steps_and_their_words() {
        let listing = Listing::read(TEXT.as_bytes());
        assert_eq!(listing.steps(), 4);
        assert_eq!(listing.said(0), [b"publish bench\n"]);
        assert_eq!(listing.line(2), "2 200 9e3779b9 60");
        assert_eq!(listing.tag(2), Some(b"9e3779b9".to_vec()));
        assert_eq!(listing.answer(2), Some(b"A\r\n".to_vec()));
        assert_eq!(listing.shown(4), Some("  shown default 3".to_string()));
    }

    #[test]
    fn what_a_step_has_not() {
        let listing = Listing::read(TEXT.as_bytes());
        assert_eq!(
            [1, 3, 4, 5].map(|step| listing.tag(step)),
            [None, None, None, None]
        );
        assert_eq!(listing.answer(1), None);
        assert_eq!(listing.shown(3), None);
        assert_eq!(listing.line(5), "");
        assert_eq!(Listing::read(b"").steps(), 0);
    }

    #[test]
    fn the_slots_of_one_address() {
        let listing = Listing::read(TEXT.as_bytes());
        let slots = listing.slots(2, b"ann");
        assert_eq!(slots.len(), 1);
        assert_eq!(
            (&slots[0].slot[..], &slots[0].package[..]),
            ("3", "message-summary")
        );
        assert_eq!((&slots[0].end[..], &slots[0].length[..]), ("65", "2"));
        assert!(listing.slots(2, b"an").is_empty());
    }
}
