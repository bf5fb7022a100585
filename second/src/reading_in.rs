//! The witness's own frame, which reads state: 02, clock (8 bytes, high first),
//! length of the address (1), address, length of the package (1), package, and
//! the default body, which is the rest.

use crate::frames_in::{frame_bytes, high_first, LEAST_BYTES};

#[derive(Clone, Debug, PartialEq, Eq)]
pub struct Reading {
    pub clock: u64,
    pub address: Vec<u8>,
    pub package: Vec<u8>,
    pub default: Vec<u8>,
}

/// The first part that a frame has not, or not whole: such a frame is bad.
#[derive(Clone, Copy, Debug, PartialEq, Eq)]
pub enum Lack {
    AddressLength,
    Address,
    PackageLength,
    Package,
}

/// None where the line is no frame or begins with another byte.
pub fn read_reading(line: &[u8]) -> Option<Result<Reading, Lack>> {
    let bytes = frame_bytes(line).filter(|bytes| bytes[0] == 2)?;
    Some(built_reading(&bytes))
}

fn built_reading(bytes: &[u8]) -> Result<Reading, Lack> {
    let rest = &bytes[LEAST_BYTES..];
    let (address, rest) = counted(rest, Lack::AddressLength, Lack::Address)?;
    let (package, default) = counted(rest, Lack::PackageLength, Lack::Package)?;
    Ok(Reading {
        clock: high_first(&bytes[1..LEAST_BYTES]),
        address: address.to_vec(),
        package: package.to_vec(),
        default: default.to_vec(),
    })
}

/// So many bytes as the first byte says, and what follows them.
fn counted(bytes: &[u8], no_length: Lack, too_few: Lack) -> Result<(&[u8], &[u8]), Lack> {
    let (&length, rest) = bytes.split_first().ok_or(no_length)?;
    let length = usize::from(length);
    if length > rest.len() {
        return Err(too_few);
    }
    Ok(rest.split_at(length))
}

#[cfg(test)]
mod tests {
    use super::*;

    #[test]
    fn a_reading_in_either_case() {
        let line = b"020102030405060708" as &[u8];
        let line = [line, b"03616E6e", b"026162", b"fF00"].concat();
        let reading = Reading {
            clock: 0x0102_0304_0506_0708,
            address: b"ann".to_vec(),
            package: b"ab".to_vec(),
            default: vec![255, 0],
        };
        assert_eq!(read_reading(&line), Some(Ok(reading)));
    }

    #[test]
    fn everything_may_be_empty() {
        let reading = Reading {
            clock: 0,
            address: vec![],
            package: vec![],
            default: vec![],
        };
        assert_eq!(read_reading(b"0200000000000000000000"), Some(Ok(reading)));
    }

    #[test]
    fn lacking_frames() {
        for (rest, lack) in [
            ("", Lack::AddressLength),
            ("01", Lack::Address),
            ("046162ff", Lack::Address),
            ("00", Lack::PackageLength),
            ("026162", Lack::PackageLength),
            ("026162ff", Lack::Package),
            ("02616203ffff", Lack::Package),
        ] {
            let line = format!("020000000000000000{}", rest);
            assert_eq!(read_reading(line.as_bytes()), Some(Err(lack)), "{}", rest);
        }
    }

    #[test]
    fn lines_that_are_no_such_frame() {
        for line in [
            "",
            "02",
            "0200000000000000",
            "02000000000000000",
            "0000000000000000000000",
            "0100000000000000000000",
            "0300000000000000000000",
            "02000000000000000000000",
            "020000000000000000000g",
        ] {
            assert_eq!(read_reading(line.as_bytes()), None, "{}", line);
        }
    }
}
