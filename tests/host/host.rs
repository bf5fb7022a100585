//! One run of a host: it is waited for, ended or killed, and never left behind.

use crate::log;
use std::net::SocketAddr;
use std::os::unix::process::ExitStatusExt;
use std::path::PathBuf;
use std::process::Child;
use std::time::{Duration, Instant};

pub const SIGINT: i32 = 2;
pub const SIGTERM: i32 = 15;

/// A start or an end that takes longer than this is a failure.
const LONGEST: Duration = Duration::from_secs(10);
const PAUSE: Duration = Duration::from_micros(500);

extern "C" {
    fn kill(process: i32, signal: i32) -> i32;
}

pub struct Host {
    child: Child,
    pub at: SocketAddr,
    printed: PathBuf,
    said: PathBuf,
}

/// How a host ended: its exit status (or minus the signal), what it printed and what it said.
#[derive(Debug)]
pub struct Ended {
    pub status: i32,
    pub printed: String,
    pub said: String,
}

impl Host {
    pub fn new(child: Child, at: SocketAddr, printed: PathBuf, said: PathBuf) -> Host {
        Host { child, at, printed, said }
    }

    /// What it said to standard error.
    pub fn said(&self) -> String {
        std::fs::read_to_string(&self.said).unwrap_or_default()
    }

    pub fn printed(&self) -> String {
        std::fs::read_to_string(&self.printed).unwrap_or_default()
    }

    /// Closes the pipe that its log goes to.
    pub fn close_log(&mut self) {
        self.child.stdout = None;
    }

    pub fn log(&self) -> Result<Vec<log::Line>, String> {
        log::lines(&self.printed())
    }

    /// Waits until it listens; where it ends before that, what it said is the reason.
    pub fn listens(&mut self) -> Result<(), String> {
        let end = Instant::now() + LONGEST;
        while Instant::now() < end {
            let ended = self.has_ended();
            if self.said().contains("listening on ") {
                return Ok(());
            }
            if ended {
                return Err(format!("the host ended at its start: {}", self.said()));
            }
            std::thread::sleep(PAUSE);
        }
        Err("the host does not listen in time".to_string())
    }

    pub fn has_ended(&mut self) -> bool {
        matches!(self.child.try_wait(), Ok(Some(_)))
    }

    /// Waits until it has ended by itself.
    pub fn ends(&mut self) -> Result<Ended, String> {
        let end = Instant::now() + LONGEST;
        while Instant::now() < end {
            if let Ok(Some(status)) = self.child.try_wait() {
                let status = status.code().unwrap_or_else(|| -status.signal().unwrap_or(0));
                return Ok(Ended { status, printed: self.printed(), said: self.said() });
            }
            std::thread::sleep(PAUSE);
        }
        Err("the host does not end in time".to_string())
    }

    /// A host that has ended gets none: its number may be another program's.
    pub fn signal(&mut self, signal: i32) {
        if !self.has_ended() {
            unsafe { kill(self.child.id() as i32, signal) };
        }
    }

    pub fn end_by(&mut self, signal: i32) -> Result<Ended, String> {
        self.signal(signal);
        self.ends()
    }

    /// A clean end on SIGTERM: status 0, and nothing was said but that it listens.
    pub fn end(&mut self) -> Result<Ended, String> {
        let ended = self.end_by(SIGTERM)?;
        if ended.status == 0 && ended.said.lines().count() == 1 {
            Ok(ended)
        } else {
            Err(format!("no clean end: {:?}", ended.said + &format!(" status {}", ended.status)))
        }
    }

    /// SIGKILL, and it is gone when this comes back.
    pub fn kill(&mut self) {
        let _ = self.child.kill();
        let _ = self.child.wait();
    }
}

impl Drop for Host {
    fn drop(&mut self) {
        self.kill();
    }
}
