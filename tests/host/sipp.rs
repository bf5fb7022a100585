//! Lives by sipp, which takes each SIP-ETag into the next SIP-If-Match and asks again where an answer does not come.

use crate::host::Host;
use crate::place::{self, Place, HOME};
use std::fs::File;
use std::process::{Command, Stdio};

const LIFE: &str = include_str!("life.xml");

/// Lives that are under way at a time, for each address.
const AT_ONCE: usize = 8;

/// How a run of sipp came out, by its exit status and by its own statistics.
#[derive(Debug)]
pub struct Outcome {
    pub status: Option<i32>,
    pub successful: u64,
    pub failed: u64,
    pub retransmissions: u64,
}

impl Outcome {
    /// All of so many lives passed.
    pub fn passed(&self, lives: u64) -> bool {
        self.status == Some(0) && self.successful == lives && self.failed == 0
    }
}

/// The life in which so many of a hundred answers are lost on their way.
fn scenario(lost: u32) -> String {
    match lost {
        0 => LIFE.to_string(),
        _ => LIFE.replace("<recv response=\"200\"", &format!("<recv response=\"200\" lost=\"{}\"", lost)),
    }
}

/// Runs so many lives against the host. Each of sipp's users has one life at a time, and eight of them share an address.
pub fn run(place: &Place, host: &Host, addresses: &[&str], lives: u64, lost: u32) -> Result<Outcome, String> {
    let users: String = addresses.iter().flat_map(|address| vec![format!("{}\n", address); AT_ONCE]).collect();
    write(place, "users.csv", &format!("USERS\n{}", users))?;
    write(place, "scenario.xml", &scenario(lost))?;
    let _ = std::fs::remove_file(place.file("counts.csv"));
    let printed = File::create(place.file("sipp.printed")).map_err(|e| e.to_string())?;
    let mut command = Command::new("sipp");
    command.arg(host.at.to_string()).current_dir(&place.folder).env("TERM", "dumb");
    command.args(["-i", "127.0.0.1", "-p", &place::free(HOME).port().to_string(), "-nostdin"]);
    command.args(["-sf", "scenario.xml", "-inf", "users.csv", "-users", &(addresses.len() * AT_ONCE).to_string()]);
    command.args(["-m", &lives.to_string(), "-timeout", "60s", "-timeout_error"]);
    command.args(["-T2", "1000", "-max_retrans", "15", "-max_non_invite_retrans", "15"]);
    command.args(["-trace_stat", "-stf", "counts.csv", "-trace_err", "-error_file", "sipp.errors"]);
    command.stdin(Stdio::null()).stderr(printed.try_clone().map_err(|e| e.to_string())?).stdout(printed);
    let status = command.status().map_err(|e| format!("sipp cannot be run: {}", e))?;
    let counts = std::fs::read_to_string(place.file("counts.csv")).map_err(|e| format!("sipp left no statistics: {}", e))?;
    let count = |name| count_of(&counts, name).ok_or(format!("sipp's statistics have no {}", name));
    Ok(Outcome {
        status: status.code(),
        successful: count("SuccessfulCall(C)")?,
        failed: count("FailedCall(C)")?,
        retransmissions: count("Retransmissions(C)")?,
    })
}

fn write(place: &Place, name: &str, text: &str) -> Result<(), String> {
    std::fs::write(place.file(name), text).map_err(|e| format!("{}: {}", name, e))
}

/// A column of the last line.
fn count_of(counts: &str, name: &str) -> Option<u64> {
    let at = counts.lines().next()?.split(';').position(|column| column == name)?;
    counts.lines().last()?.split(';').nth(at)?.parse().ok()
}
