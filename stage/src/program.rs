//! A program that reads frames and prints a listing, run on all frames at once.

use std::ffi::OsString;
use std::io::{Read, Write};
use std::process::{Child, Command, Stdio};
use std::thread;

use crate::frame::{input, Sent};
use crate::listing::Listing;

pub struct Program {
    /// What it is called in what is said of it.
    pub name: &'static str,
    /// The program and its arguments.
    pub command: Vec<OsString>,
}

impl Program {
    /// What it prints, or why that cannot be had.
    pub fn run(&self, sent: &[Sent]) -> Result<Listing, String> {
        let mut child = self.started()?;
        let input = input(sent);
        let mut pipe = child.stdin.take().unwrap();
        // A program that ends early closes the pipe: how it ended is told below.
        let writer = thread::spawn(move || {
            let _ = pipe.write_all(input.as_bytes());
        });
        let mut output = Vec::new();
        let read = child.stdout.take().unwrap().read_to_end(&mut output);
        let _ = writer.join();
        let status = child.wait();
        let listing = Listing::read(&output);
        match (read, status) {
            (Ok(_), Ok(status)) if status.success() => Ok(listing),
            (Ok(_), Ok(status)) => Err(self.ended(&status.to_string(), &listing)),
            (Err(error), _) | (_, Err(error)) => Err(self.ended(&error.to_string(), &listing)),
        }
    }

    fn started(&self) -> Result<Child, String> {
        Command::new(&self.command[0])
            .args(&self.command[1..])
            .stdin(Stdio::piped())
            .stdout(Stdio::piped())
            .spawn()
            .map_err(|error| format!("{} cannot be started: {}", self.name, error))
    }

    fn ended(&self, how: &str, listing: &Listing) -> String {
        let after = listing.steps();
        format!(
            "{} ended with {} in or after step {}",
            self.name, how, after
        )
    }
}

#[cfg(test)]
mod tests {
    use super::*;
    use crate::frame::adding;

    fn shell(text: &str) -> Program {
        let command = ["sh", "-c", text].map(OsString::from).to_vec();
        Program {
            name: "witness",
            command,
        }
    }

    #[test]
    fn a_program_gets_the_frames() {
        let listing = shell("read frame; echo 1 $frame").run(&[adding(b"a", 0, 0)]);
        assert_eq!(listing.ok().unwrap().line(1), "1 00000000000000000061");
    }

    #[test]
    fn one_that_reads_nothing() {
        let sent = vec![adding(&[b'a'; 4000], 0, 0); 100];
        assert_eq!(shell("echo 1 a").run(&sent).ok().unwrap().steps(), 1);
    }

    #[test]
    fn programs_that_fail() {
        let failed = shell("echo 1 a; exit 3").run(&[]).err().unwrap();
        assert_eq!(
            failed,
            "witness ended with exit status: 3 in or after step 1"
        );
        let mut none = shell("");
        none.command = vec![OsString::from("/nowhere/at/all")];
        let failed = none.run(&[]).err().unwrap();
        assert!(
            failed.starts_with("witness cannot be started: "),
            "{}",
            failed
        );
    }
}
