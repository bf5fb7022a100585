//! Reading the command line: which command, and for a generator its seed, how
//! many lines, and whether only counts are wanted.

use std::ffi::OsString;

pub enum Command {
    Help,
    Listing,
    Witness,
    Reads,
    Lives,
    Frames(Run),
    Requests(Run),
    Scripts(Run),
}

/// A run of a generator.
pub struct Run {
    pub seed: u64,
    pub lines: u64,
    pub counts: bool,
}

pub fn read_command(arguments: &[OsString]) -> Result<Command, String> {
    let (first, rest) = arguments.split_first().ok_or("no command given")?;
    match first.to_str() {
        Some("help") => alone(rest, Command::Help),
        Some("listing") => alone(rest, Command::Listing),
        Some("witness") => alone(rest, Command::Witness),
        Some("reads") => alone(rest, Command::Reads),
        Some("lives") => alone(rest, Command::Lives),
        Some("frames") => read_run("frames", rest).map(Command::Frames),
        Some("requests") => read_run("requests", rest).map(Command::Requests),
        Some("scripts") => without_counts(read_run("scripts", rest)?).map(Command::Scripts),
        _ => Err(format!("unknown command {:?}", first)),
    }
}

fn alone(rest: &[OsString], command: Command) -> Result<Command, String> {
    match rest.first() {
        None => Ok(command),
        Some(extra) => Err(format!("unexpected argument {:?}", extra)),
    }
}

fn without_counts(run: Run) -> Result<Run, String> {
    match run.counts {
        false => Ok(run),
        true => Err("scripts has no --counts".to_string()),
    }
}

fn read_run(command: &str, rest: &[OsString]) -> Result<Run, String> {
    let (mut seed, mut lines, mut counts) = (None, None, false);
    let mut left = rest.iter();
    while let Some(option) = left.next() {
        match option.to_str() {
            Some("--seed") if seed.is_none() => seed = Some(read_number("--seed", left.next())?),
            Some("--lines") if lines.is_none() => {
                lines = Some(read_number("--lines", left.next())?)
            }
            Some("--counts") if !counts => counts = true,
            Some("--seed" | "--lines" | "--counts") => {
                return Err(format!("{:?} given twice", option))
            }
            _ => return Err(format!("unknown option {:?}", option)),
        }
    }
    Ok(Run {
        seed: seed.ok_or_else(|| format!("{} needs --seed N", command))?,
        lines: lines.ok_or_else(|| format!("{} needs --lines K", command))?,
        counts,
    })
}

fn read_number(option: &str, value: Option<&OsString>) -> Result<u64, String> {
    let value = value.ok_or_else(|| format!("{} needs a number", option))?;
    value
        .to_str()
        .filter(|text| text.bytes().all(|byte| byte.is_ascii_digit()))
        .and_then(|text| text.parse().ok())
        .ok_or_else(|| format!("{} needs a number below 2^64, not {:?}", option, value))
}
