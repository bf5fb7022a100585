//! Why a call did nothing: the paper's results 1 to 11.
use core::fmt;

/// Why a call did nothing. Records, store and answer buffer are as they were.
///
/// ```
/// use windgusset::{Refusal, Table};
///
/// let refusal = Table::open(&mut [], &mut []).unwrap_err();
/// assert_eq!(refusal, Refusal::WrongSizes);
/// assert_eq!(refusal.number(), 2);
/// assert_eq!(refusal.to_string(), "records 0 or above 16, or store of another size");
/// ```
#[derive(Clone, Copy, Debug, PartialEq, Eq, Hash)]
pub enum Refusal {
    /// Answer buffer below 4,608 bytes.
    BufferTooSmall,
    /// Records 0 or above 16, or store of another size.
    WrongSizes,
    /// Request above 4,096 bytes.
    RequestTooLong,
    /// Clock above 1,000,000,000,000.
    ClockAboveLimit,
    /// Some record not sound.
    NotSound,
    /// Request unreadable, above 64 header lines, or its method is ACK: it is not answered.
    Unreadable,
    /// Address not 1 to 64 bytes, each 33 to 126.
    AddressMalformed,
    /// Address there already.
    AddressThere,
    /// Every record is in use.
    NoUnusedRecord,
    /// Address or package not known.
    NotKnown,
    /// Clock below the latest success of the address.
    ClockBelowLatest,
    /// What the library never gives: a result above 11, or with result 0 a part that lies outside of what was lent. It holds the result.
    Other(u8),
}

impl Refusal {
    /// The paper's number.
    pub fn number(self) -> u8 {
        match self {
            Refusal::BufferTooSmall => 1,
            Refusal::WrongSizes => 2,
            Refusal::RequestTooLong => 3,
            Refusal::ClockAboveLimit => 4,
            Refusal::NotSound => 5,
            Refusal::Unreadable => 6,
            Refusal::AddressMalformed => 7,
            Refusal::AddressThere => 8,
            Refusal::NoUnusedRecord => 9,
            Refusal::NotKnown => 10,
            Refusal::ClockBelowLatest => 11,
            Refusal::Other(number) => number,
        }
    }

    /// What a result says: 0 that the call was done.
    pub(crate) fn check(result: u8) -> Result<(), Refusal> {
        Err(match result {
            0 => return Ok(()),
            1 => Refusal::BufferTooSmall,
            2 => Refusal::WrongSizes,
            3 => Refusal::RequestTooLong,
            4 => Refusal::ClockAboveLimit,
            5 => Refusal::NotSound,
            6 => Refusal::Unreadable,
            7 => Refusal::AddressMalformed,
            8 => Refusal::AddressThere,
            9 => Refusal::NoUnusedRecord,
            10 => Refusal::NotKnown,
            11 => Refusal::ClockBelowLatest,
            number => Refusal::Other(number),
        })
    }
}

impl fmt::Display for Refusal {
    fn fmt(&self, to: &mut fmt::Formatter<'_>) -> fmt::Result {
        to.write_str(match self {
            Refusal::BufferTooSmall => "answer buffer below 4,608 bytes",
            Refusal::WrongSizes => "records 0 or above 16, or store of another size",
            Refusal::RequestTooLong => "request above 4,096 bytes",
            Refusal::ClockAboveLimit => "clock above its limit",
            Refusal::NotSound => "some record not sound",
            Refusal::Unreadable => "request unreadable, or its method is ACK",
            Refusal::AddressMalformed => "address malformed",
            Refusal::AddressThere => "address there already",
            Refusal::NoUnusedRecord => "no unused record",
            Refusal::NotKnown => "address or package not known",
            Refusal::ClockBelowLatest => "clock below the latest success",
            Refusal::Other(number) => return write!(to, "unknown result {number}"),
        })
    }
}

#[cfg(test)]
mod tests {
    use super::Refusal;

    #[test]
    fn every_number_has_its_refusal() {
        assert_eq!(Refusal::check(0), Ok(()));
        for result in 1..=255 {
            let refusal = Refusal::check(result).unwrap_err();
            assert_eq!(refusal.number(), result);
            assert_eq!(matches!(refusal, Refusal::Other(_)), 11 < result);
        }
    }
}
