//! The answer, byte by byte.

use crate::header_lines::HeaderLine;
use crate::names::Name;
use crate::packages;
use crate::refusals::Refusal;
use crate::request::Request;
use crate::success::Success;
use crate::text::eight_hex_digits;

pub const LEAST_ANSWER_BUFFER: usize = 4608;

#[derive(Clone, Copy, Debug, PartialEq, Eq)]
pub enum Answer {
    Ok(Success),
    Refused(Refusal),
}

impl Answer {
    pub fn status(&self) -> u16 {
        match self {
            Answer::Ok(_) => 200,
            Answer::Refused(refusal) => refusal.status(),
        }
    }
}

pub fn phrase(status: u16) -> &'static str {
    match status {
        200 => "OK",
        400 => "Bad Request",
        404 => "Not Found",
        405 => "Method Not Allowed",
        412 => "Conditional Request Failed",
        413 => "Request Entity Too Large",
        415 => "Unsupported Media Type",
        423 => "Interval Too Brief",
        489 => "Bad Event",
        500 => "Server Internal Error",
        _ => "Service Unavailable",
    }
}

/// Writes to the front of a buffer and counts.
struct Writer<'b> {
    buffer: &'b mut [u8],
    length: usize,
}

impl Writer<'_> {
    fn put(&mut self, bytes: &[u8]) {
        self.buffer[self.length..self.length + bytes.len()].copy_from_slice(bytes);
        self.length += bytes.len();
    }

    fn end_line(&mut self) {
        self.put(b"\r\n");
    }

    fn copy_line(&mut self, line: &HeaderLine) {
        self.put(line.line);
        self.end_line();
    }

    fn field(&mut self, name: &str, value: &[u8]) {
        self.put(name.as_bytes());
        self.put(b": ");
        self.put(value);
        self.end_line();
    }
}

/// Writes the whole message and gives its length. The least buffer has room
/// for any: it is 512 bytes above the longest request.
pub fn write_message(
    request: &Request,
    answer: &Answer,
    to_number: u32,
    buffer: &mut [u8],
) -> usize {
    let mut writer = Writer { buffer, length: 0 };
    write_status_line(&mut writer, answer.status());
    write_copied_lines(&mut writer, request, to_number);
    match answer {
        Answer::Ok(success) => write_success_fields(&mut writer, success),
        Answer::Refused(refusal) => write_refusal_field(&mut writer, refusal),
    }
    writer.field("Content-Length", b"0");
    writer.end_line();
    writer.length
}

fn write_status_line(writer: &mut Writer, status: u16) {
    writer.put(b"SIP/2.0 ");
    writer.put(status.to_string().as_bytes());
    writer.put(b" ");
    writer.put(phrase(status).as_bytes());
    writer.end_line();
}

/// All Via lines in their order, then From, To, Call-ID, CSeq.
fn write_copied_lines(writer: &mut Writer, request: &Request, to_number: u32) {
    for name in [Name::Via, Name::From, Name::To, Name::CallId, Name::Cseq] {
        for line in request.named(name) {
            if name == Name::To && !request.to_has_tag {
                write_to_with_tag(writer, line, to_number);
            } else {
                writer.copy_line(line);
            }
        }
    }
}

fn write_to_with_tag(writer: &mut Writer, line: &HeaderLine, to_number: u32) {
    writer.put(line.line);
    writer.put(b";tag=");
    writer.put(&eight_hex_digits(to_number));
    writer.end_line();
}

fn write_success_fields(writer: &mut Writer, success: &Success) {
    writer.field("SIP-ETag", &eight_hex_digits(success.tag));
    writer.field("Expires", success.granted.to_string().as_bytes());
}

fn write_refusal_field(writer: &mut Writer, refusal: &Refusal) {
    match refusal {
        Refusal::MethodNotPublish => writer.field("Allow", b"PUBLISH"),
        Refusal::EventAbsent | Refusal::PackageNotListed => {
            writer.field("Allow-Events", packages::NAMES.join(", ").as_bytes())
        }
        Refusal::IntervalTooBrief { least } => {
            writer.field("Min-Expires", least.to_string().as_bytes())
        }
        Refusal::ContentTypeAbsent { package } | Refusal::ContentTypeAnother { package } => {
            writer.field("Accept", packages::CONTENT_TYPES[*package].as_bytes())
        }
        Refusal::EightLive { retry_after } => {
            writer.field("Retry-After", retry_after.to_string().as_bytes())
        }
        _ => {}
    }
}
