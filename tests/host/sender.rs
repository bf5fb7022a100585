//! A sender: one socket that asks a host and waits for its answer, bounded in time.

use crate::message::{Answer, Request};
use std::net::{SocketAddr, UdpSocket};
use std::time::{Duration, Instant};

/// An answer is asked for again after so long, and given up after so long.
const AGAIN: Duration = Duration::from_millis(500);
const GIVEN_UP: Duration = Duration::from_secs(15);

pub struct Sender {
    socket: UdpSocket,
    host: SocketAddr,
}

impl Sender {
    pub fn new(host: SocketAddr) -> Sender {
        let socket = UdpSocket::bind((host.ip(), 0)).expect("no socket");
        Sender { socket, host }
    }

    pub fn send(&self, bytes: &[u8]) -> Result<(), String> {
        self.socket.send_to(bytes, self.host).map(|_| ()).map_err(|e| format!("{} bytes were not sent: {}", bytes.len(), e))
    }

    /// The next datagram from the host, if one comes in time.
    pub fn next(&self, wait: Duration) -> Option<Vec<u8>> {
        let mut bytes = vec![0; 65_536];
        self.socket.set_read_timeout(Some(wait.max(Duration::from_micros(1)))).expect("no time limit");
        let (length, from) = self.socket.recv_from(&mut bytes).ok()?;
        bytes.truncate(length);
        Some(bytes).filter(|_| from == self.host)
    }

    /// The answer to this request, if it comes in time. Answers to others are passed over.
    pub fn answer(&self, request: &Request, wait: Duration) -> Option<Vec<u8>> {
        let end = Instant::now() + wait;
        while let Some(left) = end.checked_duration_since(Instant::now()) {
            let found = self.next(left).filter(|bytes| holds(bytes, request.branch.as_bytes()));
            if found.is_some() {
                return found;
            }
        }
        None
    }

    /// Asks until there is an answer, as a phone does.
    pub fn ask(&self, request: &Request) -> Result<Answer, String> {
        let end = Instant::now() + GIVEN_UP;
        while Instant::now() < end {
            self.send(&request.bytes)?;
            if let Some(bytes) = self.answer(request, AGAIN) {
                return Answer::new(bytes);
            }
        }
        Err(format!("no answer to {}", String::from_utf8_lossy(&request.bytes)))
    }

    /// Asks, and gives the tag of the success that has to come.
    pub fn tag(&self, request: &Request) -> Result<u32, String> {
        self.ask(request)?.tag()
    }

    /// Asks, and holds where the answer has this status.
    pub fn wants(&self, request: &Request, status: u16) -> Result<Answer, String> {
        let answer = self.ask(request)?;
        if answer.status == status {
            Ok(answer)
        } else {
            Err(format!("{} in place of {} for {}", answer.status, status, String::from_utf8_lossy(&request.bytes)))
        }
    }
}

fn holds(bytes: &[u8], part: &[u8]) -> bool {
    bytes.windows(part.len()).any(|window| window == part)
}
