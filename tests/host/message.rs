//! Requests that are built and answers that are read.

use crate::log::is_tag;
use std::sync::atomic::{AtomicU64, Ordering};

pub const BODY: &str = "<presence><tuple id=\"a\"/></presence>";
pub const OTHER_BODY: &str = "<presence><tuple id=\"a\"><note>away</note></tuple></presence>";

/// A number that no other message of this program has.
pub fn fresh() -> u64 {
    static LAST: AtomicU64 = AtomicU64::new(0);
    LAST.fetch_add(1, Ordering::Relaxed) + 1
}

/// A request and the branch that its answer has to bring back.
#[derive(Clone)]
pub struct Request {
    pub bytes: Vec<u8>,
    pub branch: String,
}

fn request(method: &str, address: &str, fields: &str, body: &str) -> Request {
    let n = fresh();
    let branch = format!(";branch=z9hG4bK{:08}\r\n", n);
    let text = format!(
        "{method} {address} SIP/2.0\r\nVia: SIP/2.0/UDP 127.0.0.1{branch}From: <{address}>;tag={n}\r\nTo: <{address}>\r\n\
         Call-ID: {n}@host-test\r\nCSeq: 1 {method}\r\n{fields}Content-Length: {length}\r\n\r\n{body}",
        length = body.len()
    );
    Request { bytes: text.into_bytes(), branch }
}

/// PUBLISH for presence; with a tag it is a refresh, a change or a removal, without one it is initial.
pub fn publish(address: &str, tag: Option<u32>, expires: u32, body: &str) -> Request {
    let matched = tag.map_or(String::new(), |tag| format!("SIP-If-Match: {:08x}\r\n", tag));
    let kind = if body.is_empty() { "" } else { "Content-Type: application/pidf+xml\r\n" };
    request("PUBLISH", address, &format!("Event: presence\r\n{}Expires: {}\r\n{}", matched, expires, kind), body)
}

/// An initial PUBLISH for no time: a success that leaves nothing live.
pub fn passing(address: &str) -> Request {
    publish(address, None, 0, BODY)
}

/// A request that is always answered with 405, and changes nothing.
pub fn probe() -> Request {
    request("OPTIONS", "sip:probe@host-test", "", "")
}

/// What an answer says.
pub struct Answer {
    pub bytes: Vec<u8>,
    pub status: u16,
}

impl Answer {
    pub fn new(bytes: Vec<u8>) -> Result<Answer, String> {
        let status = bytes.strip_prefix(b"SIP/2.0 ").and_then(|rest| std::str::from_utf8(rest.get(..3)?).ok()?.parse().ok());
        status.map(|status| Answer { bytes, status }).ok_or("an answer without a status line".to_string())
    }

    /// The value of the first field with this name, as the host spells it.
    pub fn field(&self, name: &str) -> Option<String> {
        let text = String::from_utf8_lossy(&self.bytes).into_owned();
        let value = |line: &str| line.strip_prefix(name)?.strip_prefix(": ").map(str::to_string);
        text.split("\r\n").find_map(value)
    }

    /// The tag of a success.
    pub fn tag(&self) -> Result<u32, String> {
        let word = self.field("SIP-ETag").filter(|word| self.status == 200 && is_tag(word));
        word.and_then(|word| u32::from_str_radix(&word, 16).ok()).ok_or(format!("no tag in {}", String::from_utf8_lossy(&self.bytes)))
    }
}
