//! The frames of the three kinds of step, byte by byte, and what is known of
//! each that is sent.

use crate::hex::hex;
use crate::message::{address_of, request};

/// A step that is sent: its frame, the address it is about, and its clock.
#[derive(Clone, Debug, PartialEq, Eq)]
pub struct Sent {
    pub frame: Vec<u8>,
    pub address: Vec<u8>,
    /// An adding has none.
    pub clock: Option<u64>,
}

pub fn adding(address: &[u8], start: u32, spent: u32) -> Sent {
    let frame = [
        &[0],
        &start.to_be_bytes()[..],
        &spent.to_be_bytes(),
        address,
    ];
    Sent {
        frame: frame.concat(),
        address: address.to_vec(),
        clock: None,
    }
}

/// The lines of a message whose tags are filled in.
pub fn handling(clock: u64, lines: &[Vec<u8>]) -> Sent {
    let frame = [&[1], &clock.to_be_bytes()[..], &request(lines)];
    Sent {
        frame: frame.concat(),
        address: address_of(lines),
        clock: Some(clock),
    }
}

/// Address and package have at most 255 bytes.
pub fn reading(address: &[u8], package: &[u8], clock: u64, default: &[u8]) -> Sent {
    let mut frame = vec![2];
    frame.extend(clock.to_be_bytes());
    for part in [address, package] {
        frame.push(part.len() as u8);
        frame.extend_from_slice(part);
    }
    frame.extend_from_slice(default);
    Sent {
        frame,
        address: address.to_vec(),
        clock: Some(clock),
    }
}

/// The bench's input: one line of hexadecimal a frame.
pub fn input(sent: &[Sent]) -> String {
    sent.iter()
        .map(|one| format!("{}\n", hex(&one.frame)))
        .collect()
}

#[cfg(test)]
mod tests {
    use super::*;

    #[test]
    fn adds() {
        let sent = adding(b"bo", 1, 0xdeadbeef);
        assert_eq!(
            input(std::slice::from_ref(&sent)),
            "0000000001deadbeef626f\n"
        );
        assert_eq!((sent.address, sent.clock), (b"bo".to_vec(), None));
    }

    #[test]
    fn requests() {
        let sent = handling(100, &[b"A ann C".to_vec()]);
        assert_eq!(
            input(std::slice::from_ref(&sent)),
            "0100000000000000644120616e6e20430d0a\n"
        );
        assert_eq!((sent.address, sent.clock), (b"ann".to_vec(), Some(100)));
    }

    #[test]
    fn readings() {
        let sent = reading(b"ann", b"ab", u64::MAX, b"\xff");
        assert_eq!(
            input(std::slice::from_ref(&sent)),
            "02ffffffffffffffff03616e6e026162ff\n"
        );
        assert_eq!(
            (sent.address, sent.clock),
            (b"ann".to_vec(), Some(u64::MAX))
        );
    }
}
