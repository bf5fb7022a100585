//! Lists of values that readers get wrong: some the paper accepts, others it
//! refuses. In those for To, `@` stands for the address.

use super::random::Random;
use crate::packages;

pub const TO_WITHOUT_TAG: &[&str] = &[
    "<@>",
    "<@>",
    "@",
    "",
    "\"Ann\" <@>",
    "Ann <@>",
    "\"a;tag=1\" <@>",
    "\"\\\"<;tag=2\" <@>",
    "\"\\\\\" <@>",
    "\"<\" <@>",
    "<@;tag=3>",
    "<@>;x=1",
    "<@>;tag",
    "<@>;tag;x=1",
    "<@>;x=tag=1",
    "<@>;xtag=1",
    "<@>;tags=1",
    "<@>;ta g=1",
    "<@>;\"tag\"=1",
    "<@>;x=\";tag=5\"",
    "<@>;x=\"\\\";tag=5\"",
    "<@>;x=<b",
    "<@>tag=1",
    "a;tag=1<@>",
    "a>;tag=1<@>",
    "<@\">;tag=1\">",
    "a>b;x=1",
    "<@>;;",
    "<@>;=tag",
    "\"\"<@>;x",
];

pub const TO_WITH_TAG: &[&str] = &[
    "<@>;tag=1",
    "<@>;TAG=x",
    "<@> ; \tTag\t = 9",
    "<@>;tag=",
    "<@>;tag==",
    "<@>;tag=00000001",
    "@;tag=1",
    "@;x=1;tag=2",
    ";tag=1",
    "<>;tag=1",
    "<@>>;tag=1",
    "\"x\" <@>;a=\"b;c\";tag=q",
    "\"\\\"\" <@>;tAg=1",
    "<@;x>;tag=1<",
    "<@>;x=<b;tag=1",
    "\\\"<@>\";tag=1",
    "<@>;tag;tag=1",
    "<@>;tag=\"1\"",
];

pub const TO_OPEN_QUOTE: &[&str] = &[
    "\"",
    "\"Ann <@>",
    "\"Ann\\\" <@>",
    "\"\\",
    "<@>\"",
    "<@>;x=\"1",
    "<@>;tag=\"",
    "<@\">;tag=1",
    "\"\"\"<@>",
    "\"\\\\\\\" <@>",
];

pub const TO_OPEN_ANGLE: &[&str] = &[
    "<",
    "<@",
    "\"x\" <@;tag=1",
    ">@<",
    "<@\">\"",
    "@;tag=1<",
    "<@<",
    "\"<@>\" <",
];

pub const CSEQ: &[&str] = &[
    "1 PUBLISH",
    "0 PUBLISH",
    "2147483647 PUBLISH",
    "1\tPUBLISH",
    "1 \t  PUBLISH",
    "0000000000000000000000000000002147483647 PUBLISH",
];

pub const CSEQ_WRONG: &[&str] = &[
    "",
    "1",
    "PUBLISH",
    "1PUBLISH",
    "-1 PUBLISH",
    "+1 PUBLISH",
    "2147483648 PUBLISH",
    "4294967297 PUBLISH",
    "18446744073709551617 PUBLISH",
    "1 publish",
    "1 Publish",
    "1 PUBLISH x",
    "1 PUBLIS",
    "1 PUBLISHX",
    "1 OPTIONS",
    "0x1 PUBLISH",
    "1,PUBLISH",
    "1 2 PUBLISH",
    "1;PUBLISH",
];

pub const OTHER_METHODS: &[&str] = &[
    "OPTIONS",
    "publish",
    "Publish",
    "PUBLISHX",
    "PUBLIS",
    "INVITE",
    "ack",
    "Ack",
    "ACKX",
    "SUBSCRIBE",
    "%",
];

pub const NOT_DIGITS: &[&str] = &[
    "", "x", "60s", "-1", "+1", "6 0", "3600;x", "0x10", "1.0", "1,1", "\"1\"", "6\t0", "\u{e9}",
];

/// Each has one of the packages' least or default times in its low bits.
pub const EXPIRES_TOO_LARGE: &[&str] = &[
    "4294967296",
    "4294967356",
    "4294970896",
    "9999999999",
    "18446744073709551616",
    "18446744073709551676",
    "340282366920938463463374607431768211516",
    "00000000000000000000000000000000000004294967296",
];

pub const EVENTS_NOT_LISTED: &[&str] = &[
    "",
    ";presence",
    "Presence",
    "PRESENCE",
    "presenc",
    "presences",
    "presence.winfo",
    "presence,dialog",
    "\"presence\"",
    "dialo",
    "Dialog",
    "message-summar",
    "message-summaryx",
    "message_summary",
    "presence\u{e9}",
];

pub const NOT_ONE_TOKEN: &[&str] = &[
    "",
    "a b",
    "\"9e3779b9\"",
    "9e3779b9,3c6ef372",
    "9e3779b9 3c6ef372",
    "9e3779b9;x",
    "<9e3779b9>",
    "9e3779b9\t9",
    "a=b",
    "\u{e9}",
    "@",
    "9e3779b@",
    "[e3779b9",
    "{E3779B9",
];

pub const NEVER_A_TAG: &[&str] = &[
    "*",
    "0",
    "tag",
    "0x9e3779b9",
    "9e3779b9.",
    "9E3779B`",
    "nine-one",
];

pub const OTHER_CONTENT_TYPES: &[&str] = &[
    "",
    ";application/pidf+xml",
    "text/plain",
    "application/pidf",
    "application/pidf+xmlx",
    "application/pidf+xml,text/plain",
    "application / pidf+xml",
    "application/dialog-info",
    "application/dialog-info+xm",
    "application/simple-message-summary2",
    "application/*",
    "*/*",
];

pub const FIRST_LINES_WRONG: &[&str] = &[
    " SIP/2.0 \r\n",
    " SIP/2.1\r\n",
    " SIP/2.00\r\n",
    " SIP/2\r\n",
    "  SIP/2.0\r\n",
    " SIP/2.0\n",
    " SIP/2.0\r\r\n",
    " x SIP/2.0\r\n",
    "\tSIP/2.0\r\n",
    "\u{7f} SIP/2.0\r\n",
    "\u{e9} SIP/2.0\r\n",
    " \r\n",
    "\r\n",
    " HTTP/2.0\r\n",
];

pub const METHODS_WRONG: &[&str] = &[
    "",
    "\r\nPUBLISH",
    " PUBLISH",
    "PUB LISH",
    "PUBLISH ",
    "PUBLISH\t",
    "PUB@LISH",
    "PUBLISH:",
    "\u{e9}",
];

pub const HEADER_LINES_WRONG: &[&[u8]] = &[
    b"no colon\r\n",
    b"nocolon\r\n",
    b" Folded: x\r\n",
    b"\tfolded\r\n",
    b" \r\n",
    b": nameless\r\n",
    b"Two Words: x\r\n",
    b"Na@me: x\r\n",
    b"N\xe9: x\r\n",
    b"Name: a\rb\r\n",
    b"Name: a\nb\r\n",
    b"Name: \x7f\r\n",
    b"Name: \x00\r\n",
    b"Name: \x1b\r\n",
    b"Name: x\r\r\n",
    b"Name: x\n\r\n",
    b"\rName: x\r\n",
    b"Name\x0b: x\r\n",
];

/// Lines that the paper passes over.
pub const OTHER_LINES: &[&[u8]] = &[
    b"Max-Forwards: 70\r\n",
    b"Contact: <sip:pua@pc.example>;tag=1\r\n",
    b"Route: <sip:x>\r\n",
    b"Record-Route: <sip:y>\r\n",
    b"Subject: \x80\xff\t \"\r\n",
    b"s:\r\n",
    b"Vi: x\r\n",
    b"Viaa: x\r\n",
    b"e: gzip\r\n",
    b"SIP-ETag: 9e3779b9\r\n",
    b"SIP-Event: 9e3779b9\r\n",
    b"Min-Expires: 1\r\n",
    b"!%*_+`'~.-: ::\r\n",
    b"ContentLength: 7\r\n",
    b"m\t :\t\r\n",
];

/// An Event value that names the package.
pub fn event(package: usize, random: &mut Random) -> String {
    let more = ["", "", "", ";id=1", " ;id=1", "\tx", " dialog", ";", ";;="];
    format!("{}{}", packages::NAMES[package], random.pick(&more))
}

/// A Content-Type value that names the package's type.
pub fn content_type(package: usize, random: &mut Random) -> Vec<u8> {
    let more = ["", "", "", ";charset=UTF-8", " ;x", "\tx", " x/y", ";"];
    let mut value = super::draft::any_case(packages::CONTENT_TYPES[package].as_bytes(), random);
    value.extend_from_slice(random.pick(&more).as_bytes());
    value
}

/// An Expires value above 0 that is no refusal, or none.
pub fn expires(package: usize, random: &mut Random) -> Option<String> {
    let least = u64::from(packages::LEAST[package]);
    let most = u64::from(packages::MOST[package]);
    match random.below(12) {
        0 | 1 => None,
        2 => Some(least.to_string()),
        3 => Some((least + 1).to_string()),
        4 => Some((most - 1).to_string()),
        5 => Some(most.to_string()),
        6 => Some((most + 1).to_string()),
        7 => Some("4294967295".to_string()),
        8 => Some(format!("00000000000000000000000{}", least)),
        _ => Some((least + random.below(most - least)).to_string()),
    }
}

pub fn expires_of_zero(random: &mut Random) -> String {
    random
        .pick(&["0", "0", "0", "00", "0000000000000"])
        .to_string()
}

/// Above 0 and below the least.
pub fn expires_too_brief(package: usize, random: &mut Random) -> String {
    let least = u64::from(packages::LEAST[package]);
    match random.below(4) {
        0 => "1".to_string(),
        1 => (least - 1).to_string(),
        2 => format!("0{}", least - 1),
        _ => (1 + random.below(least - 1)).to_string(),
    }
}

/// A body that is not empty and not too large.
pub fn body(random: &mut Random) -> Vec<u8> {
    let length = match random.below(8) {
        0 => 511,
        1 => 512,
        2 | 3 => 1,
        _ => 1 + random.place(60),
    };
    match random.below(4) {
        0 => random.bytes(length),
        1 => b"\r\n".iter().copied().cycle().take(length).collect(),
        _ => vec![b'a' + random.below(26) as u8; length],
    }
}
