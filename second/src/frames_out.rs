//! Building bench input: the bytes of a frame, and its line of hexadecimal.

use crate::reading_in::Reading;
use crate::text::hex;

pub fn add_frame(start: u32, spent: u32, address: &[u8]) -> Vec<u8> {
    let mut frame = vec![0];
    frame.extend_from_slice(&start.to_be_bytes());
    frame.extend_from_slice(&spent.to_be_bytes());
    frame.extend_from_slice(address);
    frame
}

pub fn request_frame(clock: u64, request: &[u8]) -> Vec<u8> {
    let mut frame = vec![1];
    frame.extend_from_slice(&clock.to_be_bytes());
    frame.extend_from_slice(request);
    frame
}

/// The address and the package have at most 255 bytes each.
pub fn reading_frame(reading: &Reading) -> Vec<u8> {
    let mut frame = vec![2];
    frame.extend_from_slice(&reading.clock.to_be_bytes());
    for name in [&reading.address, &reading.package] {
        frame.push(name.len() as u8);
        frame.extend_from_slice(name);
    }
    frame.extend_from_slice(&reading.default);
    frame
}

/// A frame as lowercase digits, without the line's end.
pub fn frame_line(frame: &[u8]) -> Vec<u8> {
    hex(frame).into_bytes()
}

#[cfg(test)]
mod tests {
    use super::*;
    use crate::reading_in::read_reading;

    #[test]
    fn lengths_up_to_255_are_read_back() {
        let reading = Reading {
            clock: u64::MAX,
            address: vec![b'a'; 255],
            package: vec![b'p'; 128],
            default: vec![b'd'; 300],
        };
        let line = frame_line(&reading_frame(&reading));
        assert_eq!(read_reading(&line), Some(Ok(reading)));
    }
}
