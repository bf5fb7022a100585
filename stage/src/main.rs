//! Plays a scene, or prints its frames. Exit status: 0 where all is well, 1
//! where the two programs differ, 2 for a fault of the scene or the command
//! line, 3 where a program cannot be run or nothing can be written.

mod arguments;
mod cast;
mod difference;
mod fault;
mod frame;
mod hex;
mod lines;
mod listing;
mod message;
mod parse;
mod play;
mod program;
mod scene;
mod show;
mod tags;
mod text;
mod words;

use std::env;
use std::ffi::{OsStr, OsString};
use std::fs;
use std::io::{self, Write};
use std::process::ExitCode;

use arguments::{read_arguments, Asked, USAGE};
use cast::cast;
use fault::Stop;
use frame::input;
use parse::parse;
use play::play;

const DIFFER: u8 = 1;
const FAULT: u8 = 2;
const TROUBLE: u8 = 3;

fn main() -> ExitCode {
    let arguments: Vec<OsString> = env::args_os().skip(1).collect();
    let status = match read_arguments(&arguments) {
        Some(asked) => run(&asked),
        None => told(FAULT, USAGE),
    };
    ExitCode::from(status)
}

fn run(asked: &Asked) -> u8 {
    let file = match asked {
        Asked::Scene { file, .. } | Asked::Frames { file, .. } => file,
    };
    let name = file.to_string_lossy();
    match fs::read(file) {
        Err(error) => told(FAULT, &format!("{}: cannot be read: {}", name, error)),
        Ok(bytes) => match outcome(asked, &bytes) {
            Ok((text, status)) => printed(&text, status),
            Err(stop) => stopped(file, stop),
        },
    }
}

/// The text to print, and the exit status behind it.
fn outcome(asked: &Asked, file: &[u8]) -> Result<(String, u8), Stop> {
    let steps = parse(file)?;
    match asked {
        Asked::Frames { witness, .. } => {
            let sent = cast(&steps, &|sent| witness.run(sent))?;
            Ok((input(&sent), 0))
        }
        Asked::Scene {
            witness, second, ..
        } => {
            let played = play(&steps, witness, second)?;
            Ok((played.text, if played.agreed { 0 } else { DIFFER }))
        }
    }
}

fn stopped(file: &OsStr, stop: Stop) -> u8 {
    let name = file.to_string_lossy();
    match stop {
        Stop::Fault(fault) => told(
            FAULT,
            &format!("{}:{}: expected {}", name, fault.line, fault.expected),
        ),
        Stop::Program(what) => told(TROUBLE, &format!("stage: {}", what)),
    }
}

fn printed(text: &str, status: u8) -> u8 {
    let mut output = io::stdout();
    match output
        .write_all(text.as_bytes())
        .and_then(|()| output.flush())
    {
        Ok(()) => status,
        Err(error) if error.kind() == io::ErrorKind::BrokenPipe => TROUBLE,
        Err(error) => told(TROUBLE, &format!("stage: cannot write: {}", error)),
    }
}

/// Where standard error is closed as well, there is nobody left to tell.
fn told(status: u8, message: &str) -> u8 {
    let _ = writeln!(io::stderr(), "{}", message);
    status
}
