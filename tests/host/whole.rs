//! Whole answers byte by byte, as the paper has them, over IPv4 and over IPv6 where the machine has it.

use crate::checks::{holds, Checks, Held};
use crate::log::{is_tag, Line};
use crate::message::{self, Request, BODY};
use crate::place::{Place, HOME};
use crate::sender::Sender;
use crate::state::State;
use crate::tags;
use std::net::{IpAddr, Ipv6Addr, UdpSocket};

const ANN: &str = "sip:ann@example.com";

pub fn whole(place: &Place, checks: &mut Checks) {
    checks.note("whole answers over IPv4", answers(place, HOME));
    let six = IpAddr::V6(Ipv6Addr::LOCALHOST);
    if UdpSocket::bind((six, 0)).is_ok() {
        checks.note("whole answers over IPv6", answers(place, six));
        checks.note("a life over IPv6", life(place, six));
    } else {
        println!("this machine has no IPv6");
    }
}

/// A request with two Via lines, compact names, blanks and what else is copied as it came; To has no tag, or one of its own.
fn request(to: &str, cseq: &str, fields: &str) -> Request {
    let branch = format!(";branch=z9hG4bK{:08}\r\n", message::fresh());
    let (method, number) = (cseq.split(' ').last().unwrap_or(""), message::fresh());
    let text = format!(
        "{method} {ANN} SIP/2.0\r\nv:  SIP/2.0/UDP first{branch}From : \"A\" <{ANN}>;tag=f{number} \r\nMax-Forwards: 70\r\n\
         Via: SIP/2.0/UDP second\r\n{to}\r\ni: {number}\r\nCSEQ: {cseq}\r\n{fields}\r\n{BODY}"
    );
    Request { bytes: text.into_bytes(), branch }
}

/// The answer by the paper: status line, Via lines in their order, From, To, Call-ID, CSeq, our fields, Content-Length.
fn expected(request: &Request, status: &str, to: &str, fields: &str) -> String {
    let text = String::from_utf8_lossy(&request.bytes).into_owned();
    let line = |name: &str| text.split_inclusive("\r\n").find(|line| line.starts_with(name)).unwrap_or("").to_string();
    let copied = ["v:", "Via:", "From "].map(line).concat();
    format!("SIP/2.0 {}\r\n{}{}\r\n{}{}{}Content-Length: 0\r\n\r\n", status, copied, to, line("i:"), line("CSEQ:"), fields)
}

/// To with the number that the host added, which is eight lowercase hex digits.
fn numbered(answer: &str, to: &str) -> Result<String, String> {
    let rest = answer.split(&format!("\r\n{};tag=", to)).nth(1).unwrap_or("");
    let number = rest.split("\r\n").next().unwrap_or("");
    holds(is_tag(number), || format!("To has no number in {}", answer))?;
    Ok(format!("{};tag={}", to, number))
}

/// Requests, and by the paper the status, our fields and the line of the log for each. Success n gives the n-th tag.
fn trials(start: u32) -> Vec<(Request, &'static str, String, Line)> {
    let (first, second) = (tags::tag(start, 1), tags::tag(start, 2));
    let presence = "Event: presence;id=1\r\nc: application/PIDF+xml;charset=utf-8\r\n";
    let with = |more: &str| format!("{}{}", presence, more);
    let matching = with(&format!("SIP-If-Match: {:08x}\r\nExpires: 61\r\n", first));
    let etag = |tag: u32, seconds: u32| format!("SIP-ETag: {:08x}\r\nExpires: {}\r\n", tag, seconds);
    let ask = |cseq: &str, fields: &str| request(&format!("t: <{}>", ANN), cseq, fields);
    let ok = |tag, seconds| Line::Answered(200, Some(tag), Some(seconds));
    let brief = || Line::Answered(423, None, Some(60));
    let not = |status| Line::Answered(status, None, None);
    vec![
        (ask("1 PUBLISH", &with("Expires: 99999\r\n")), "200 OK", etag(first, 3600), ok(first, 3600)),
        (ask("2 PUBLISH", &matching), "200 OK", etag(second, 61), ok(second, 61)),
        (ask("3 PUBLISH", &matching), "412 Conditional Request Failed", String::new(), not(412)),
        (ask("4 PUBLISH", &with("Expires: 59\r\n")), "423 Interval Too Brief", "Min-Expires: 60\r\n".into(), brief()),
        (ask("5 PUBLISH", ""), "489 Bad Event", "Allow-Events: presence, message-summary, dialog\r\n".into(), not(489)),
        (ask("x PUBLISH", presence), "400 Bad Request", String::new(), not(400)),
        (ask("6 NOTIFY", presence), "405 Method Not Allowed", "Allow: PUBLISH\r\n".into(), not(405)),
    ]
}

fn answers(place: &Place, ip: IpAddr) -> Held {
    State::apart(&["x", ANN]).write(&place.state())?;
    let mut host = place.start_on(ip, &[ANN])?;
    let sender = Sender::new(host.at);
    let (mut lines, mut numbers) = (Vec::new(), Vec::new());
    for (request, status, fields, line) in trials(tags::start(1)) {
        let answer = String::from_utf8_lossy(&sender.ask(&request)?.bytes).into_owned();
        let to = numbered(&answer, &format!("t: <{}>", ANN))?;
        let expected = expected(&request, status, &to, &fields);
        holds(answer == expected, || format!("{:?} in place of {:?}", answer, expected))?;
        lines.push(line);
        numbers.push(to);
    }
    numbers.sort();
    numbers.dedup();
    holds(numbers.len() == lines.len(), || "To's numbers are not by chance".to_string())?;
    let own = format!("To: <{}> ; Tag=own", ANN);
    let request = request(&own, "7 OPTIONS", "");
    let answer = String::from_utf8_lossy(&sender.ask(&request)?.bytes).into_owned();
    holds(answer == expected(&request, "405 Method Not Allowed", &own, "Allow: PUBLISH\r\n"), || answer)?;
    lines.push(Line::Answered(405, None, None));
    sender.send(b"nothing that can be read")?;
    sender.send(&[b'x'; 5_000])?;
    sender.wants(&message::probe(), 405)?;
    lines.extend([Line::None(6), Line::None(3), Line::Answered(405, None, None)]);
    let found = host.log()?;
    holds(found == lines, || format!("{:?} in the log in place of {:?}", found, lines))?;
    host.end().map(|_| ())
}

fn life(place: &Place, ip: IpAddr) -> Held {
    let mut host = place.start_on(ip, &[ANN])?;
    let sender = Sender::new(host.at);
    let mut tag = sender.tag(&message::publish(ANN, None, 3600, BODY))?;
    for (expires, body) in [(600, ""), (900, message::OTHER_BODY), (600, ""), (0, "")] {
        let request = message::publish(ANN, Some(tag), expires, body);
        tag = sender.tag(&request)?;
        holds(sender.tag(&request)? == tag, || "it was not answered as before".to_string())?;
    }
    sender.wants(&message::publish(ANN, Some(tag), 600, ""), 412)?;
    host.end().map(|_| ())
}
