//! The header fields that the paper reads, and how their names are written.

use crate::text::same_in_either_case;

#[derive(Clone, Copy, Debug, PartialEq, Eq)]
pub enum Name {
    Via,
    From,
    To,
    CallId,
    Cseq,
    ContentType,
    ContentLength,
    Event,
    Expires,
    SipIfMatch,
}

impl Name {
    pub fn full(self) -> &'static str {
        match self {
            Name::Via => "Via",
            Name::From => "From",
            Name::To => "To",
            Name::CallId => "Call-ID",
            Name::Cseq => "CSeq",
            Name::ContentType => "Content-Type",
            Name::ContentLength => "Content-Length",
            Name::Event => "Event",
            Name::Expires => "Expires",
            Name::SipIfMatch => "SIP-If-Match",
        }
    }

    pub fn compact(self) -> Option<&'static str> {
        match self {
            Name::Via => Some("v"),
            Name::From => Some("f"),
            Name::To => Some("t"),
            Name::CallId => Some("i"),
            Name::ContentType => Some("c"),
            Name::ContentLength => Some("l"),
            Name::Event => Some("o"),
            Name::Cseq | Name::Expires | Name::SipIfMatch => None,
        }
    }

    /// Whether a line is named so, in full or compact, in either case.
    pub fn is_written(self, name: &[u8]) -> bool {
        let matches = |text: &str| same_in_either_case(text.as_bytes(), name);
        matches(self.full()) || self.compact().map_or(false, matches)
    }
}
