//! A request while it is being made up: its parts can still be changed, and
//! each header line is dressed in one of the ways the paper allows.

use super::random::Random;
use crate::names::Name;

pub struct DraftLine {
    /// None for a field that the paper does not read.
    pub name: Option<Name>,
    /// With its CR LF.
    pub text: Vec<u8>,
}

pub struct Draft {
    pub method: Vec<u8>,
    pub uri: Vec<u8>,
    /// From the second space to the end of the first line.
    pub version: Vec<u8>,
    pub lines: Vec<DraftLine>,
    /// The empty line.
    pub end: Vec<u8>,
    /// All that follows the empty line.
    pub rest: Vec<u8>,
    /// Whether lines are dressed at all.
    pub dressed: bool,
}

impl Draft {
    pub fn new(uri: &[u8], dressed: bool) -> Draft {
        Draft {
            method: b"PUBLISH".to_vec(),
            uri: uri.to_vec(),
            version: b" SIP/2.0\r\n".to_vec(),
            lines: Vec::new(),
            end: b"\r\n".to_vec(),
            rest: Vec::new(),
            dressed,
        }
    }

    pub fn bytes(&self) -> Vec<u8> {
        let mut bytes = self.method.clone();
        bytes.push(b' ');
        bytes.extend_from_slice(&self.uri);
        bytes.extend_from_slice(&self.version);
        for line in &self.lines {
            bytes.extend_from_slice(&line.text);
        }
        bytes.extend_from_slice(&self.end);
        bytes.extend_from_slice(&self.rest);
        bytes
    }

    pub fn has(&self, name: Name) -> bool {
        self.lines.iter().any(|line| line.name == Some(name))
    }

    pub fn append(&mut self, name: Name, value: &[u8], random: &mut Random) {
        let text = if self.dressed {
            dressed_line(name, value, random)
        } else {
            plain_line(name.full(), value)
        };
        let name = Some(name);
        self.lines.push(DraftLine { name, text });
    }

    /// Puts a line at any place among the others.
    pub fn insert_text(&mut self, name: Option<Name>, text: Vec<u8>, random: &mut Random) {
        let place = random.place(self.lines.len() + 1);
        self.lines.insert(place, DraftLine { name, text });
    }

    pub fn remove(&mut self, name: Name) {
        self.lines.retain(|line| line.name != Some(name));
    }

    /// Makes that field stand exactly once, with this value.
    pub fn set(&mut self, name: Name, value: &[u8], random: &mut Random) {
        self.remove(name);
        self.append(name, value, random);
    }
}

pub fn plain_line(name: &str, value: &[u8]) -> Vec<u8> {
    let mut text = name.as_bytes().to_vec();
    text.extend_from_slice(b": ");
    text.extend_from_slice(value);
    text.extend_from_slice(b"\r\n");
    text
}

/// Compact names, any letter case, and blanks where they may stand.
pub fn dressed_line(name: Name, value: &[u8], random: &mut Random) -> Vec<u8> {
    let spelled = match name.compact() {
        Some(compact) if random.one_in(3) => compact,
        _ => name.full(),
    };
    let mut text = any_case(spelled.as_bytes(), random);
    text.extend_from_slice(random.pick(&["", "", "", " ", "\t", " \t "]).as_bytes());
    text.push(b':');
    text.extend_from_slice(random.pick(&[" ", " ", " ", "", "\t", " \t "]).as_bytes());
    text.extend_from_slice(value);
    text.extend_from_slice(random.pick(&["", "", "", " ", "\t", " \t "]).as_bytes());
    text.extend_from_slice(b"\r\n");
    text
}

/// As it is, all capitals, all small, or mixed.
pub fn any_case(text: &[u8], random: &mut Random) -> Vec<u8> {
    match random.below(6) {
        0 => text.to_ascii_uppercase(),
        1 => text.to_ascii_lowercase(),
        2 => text
            .iter()
            .map(|byte| match random.one_in(2) {
                true => byte.to_ascii_uppercase(),
                false => byte.to_ascii_lowercase(),
            })
            .collect(),
        _ => text.to_vec(),
    }
}

#[cfg(test)]
mod tests {
    use super::*;
    use crate::request::read_request;

    #[test]
    fn dressed_lines_stay_readable() {
        for seed in 0..200 {
            let mut random = Random::new(seed);
            let mut draft = Draft::new(b"ann", true);
            for name in [Name::Via, Name::From, Name::To, Name::CallId, Name::Cseq] {
                draft.append(name, b"x y", &mut random);
            }
            draft.append(Name::SipIfMatch, b"tag", &mut random);
            let bytes = draft.bytes();
            let request = read_request(&bytes).unwrap();
            assert_eq!(request.value(Name::SipIfMatch), Some(&b"tag"[..]));
            assert_eq!(request.value(Name::To), Some(&b"x y"[..]));
        }
    }
}
