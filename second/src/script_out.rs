//! Building a script: the bytes of each kind of line.

use crate::script_in::Publication;

pub fn begin_bytes(start: u32, spent: u32) -> Vec<u8> {
    let mut bytes = vec![0];
    bytes.extend_from_slice(&start.to_be_bytes());
    bytes.extend_from_slice(&spent.to_be_bytes());
    bytes
}

/// Of a package above 255 or a token above 255 bytes only the front is kept.
pub fn publication_bytes(publication: &Publication) -> Vec<u8> {
    let token = &publication.token[..publication.token.len().min(255)];
    let mut bytes = vec![1];
    bytes.extend_from_slice(&publication.clock.to_be_bytes());
    bytes.push(publication.package as u8);
    bytes.extend_from_slice(&publication.granted.to_be_bytes());
    bytes.push(token.len() as u8);
    bytes.extend_from_slice(token);
    bytes.extend_from_slice(&publication.body);
    bytes
}

pub fn show_bytes(clock: u64, event: u8) -> Vec<u8> {
    let mut bytes = vec![2];
    bytes.extend_from_slice(&clock.to_be_bytes());
    bytes.push(event);
    bytes
}
