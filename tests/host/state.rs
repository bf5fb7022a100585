//! The state file, written and read by itself: a clock, a line an address, and an end.

use crate::tags;
use std::path::Path;

#[derive(Clone, Debug, PartialEq)]
pub struct Line {
    pub spent: u32,
    pub start: u32,
    pub address: String,
}

#[derive(Clone, Debug, PartialEq)]
pub struct State {
    pub clock: u64,
    pub lines: Vec<Line>,
}

impl State {
    /// A first state in which the tags of different addresses lie apart.
    pub fn apart(addresses: &[&str]) -> State {
        let line = |(k, address): (usize, &&str)| Line { spent: 0, start: tags::start(k), address: address.to_string() };
        State { clock: 0, lines: addresses.iter().enumerate().map(line).collect() }
    }

    pub fn text(&self) -> String {
        let line = |l: &Line| format!("spent {} start {} address {}\n", l.spent, l.start, l.address);
        format!("clock {}\n{}end\n", self.clock, self.lines.iter().map(line).collect::<String>())
    }

    pub fn write(&self, path: &Path) -> Result<(), String> {
        std::fs::write(path, self.text()).map_err(|e| e.to_string())
    }

    pub fn read(path: &Path) -> Result<State, String> {
        let text = std::fs::read_to_string(path).map_err(|e| format!("state: {}", e))?;
        State::parse(&text).ok_or(format!("the state file is not whole: {:?}", text))
    }

    fn parse(text: &str) -> Option<State> {
        let mut lines = text.strip_suffix("end\n")?.split_terminator('\n');
        let clock = lines.next()?.strip_prefix("clock ")?.parse().ok()?;
        let lines = lines.map(parse_line).collect::<Option<_>>()?;
        Some(State { clock, lines })
    }

    pub fn spent(&self, address: &str) -> Option<u32> {
        self.lines.iter().find(|l| l.address == address).map(|l| l.spent)
    }
}

fn parse_line(line: &str) -> Option<Line> {
    match line.split(' ').collect::<Vec<_>>()[..] {
        ["spent", spent, "start", start, "address", address] => {
            Some(Line { spent: spent.parse().ok()?, start: start.parse().ok()?, address: address.to_string() })
        }
        _ => None,
    }
}
