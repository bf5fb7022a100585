//! What keeps a scene from being played: a fault in its text, which names the
//! line and what was expected there, or a program that does not do its part.

#[derive(Clone, Debug, PartialEq, Eq)]
pub struct Fault {
    /// Counted from 1.
    pub line: usize,
    pub expected: String,
}

impl Fault {
    pub fn new(line: usize, expected: impl Into<String>) -> Fault {
        Fault {
            line,
            expected: expected.into(),
        }
    }
}

#[derive(Clone, Debug, PartialEq, Eq)]
pub enum Stop {
    Fault(Fault),
    Program(String),
}

impl From<Fault> for Stop {
    fn from(fault: Fault) -> Stop {
        Stop::Fault(fault)
    }
}
