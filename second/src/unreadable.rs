//! Why a request is unreadable, or gets no answer though it was read: result 6.

use crate::names::Name;

#[derive(Clone, Copy, Debug, PartialEq, Eq)]
pub enum Unreadable {
    FirstLine,
    HeaderLine,
    NoEmptyLine,
    TooManyLines,
    Absent(Name),
    Repeated(Name),
    OpenQuote,
    OpenAngle,
    Ack,
}
