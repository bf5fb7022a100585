//! The bench listing: one line for each input line.

use std::io::{self, BufRead, Write};

use crate::bench::{Bench, Outcome};
use crate::frames_in::{next_line, read_frame};
use crate::message::Answer;
use crate::refusals::Refusal;
use crate::text::eight_hex_digits;

/// Which of the two streams failed.
#[derive(Debug)]
pub enum Trouble {
    Input(io::Error),
    Output(io::Error),
}

pub fn print_listing<R: BufRead, W: Write>(input: &mut R, output: &mut W) -> Result<(), Trouble> {
    print_with(input, output, |bench, line| {
        format!("{}\n", listed(&bench.run(&read_frame(line))))
    })
}

/// Prints a listing: for each input line its number, a space, and what is said
/// of it.
pub fn print_with<R: BufRead, W: Write>(
    input: &mut R,
    output: &mut W,
    said: fn(&mut Bench, &[u8]) -> String,
) -> Result<(), Trouble> {
    let mut bench = Bench::new();
    let mut line_number: u64 = 0;
    output
        .write_all(b"publish bench\n")
        .map_err(Trouble::Output)?;
    while let Some(line) = next_line(input).map_err(Trouble::Input)? {
        line_number += 1;
        let text = format!("{} {}", line_number, said(&mut bench, &line));
        output.write_all(text.as_bytes()).map_err(Trouble::Output)?;
    }
    Ok(())
}

/// What the listing says of one input line, after its number.
pub fn listed(outcome: &Outcome) -> String {
    match outcome {
        Outcome::Added(result) => format!("add {}", result),
        Outcome::Answered(written) => listed_answer(&written.answer),
        Outcome::None(why) => format!("none {}", why.result()),
        Outcome::Bad => "bad".to_string(),
    }
}

/// Status, tag or -, and granted time, Min-Expires, Retry-After or -.
fn listed_answer(answer: &Answer) -> String {
    let tag = match answer {
        Answer::Ok(success) => digits_of(success.tag),
        Answer::Refused(_) => "-".to_string(),
    };
    let time = match answer {
        Answer::Ok(success) => success.granted.to_string(),
        Answer::Refused(Refusal::IntervalTooBrief { least }) => least.to_string(),
        Answer::Refused(Refusal::EightLive { retry_after }) => retry_after.to_string(),
        Answer::Refused(_) => "-".to_string(),
    };
    format!("{} {} {}", answer.status(), tag, time)
}

/// Eight lowercase hexadecimal digits as text.
pub fn digits_of(number: u32) -> String {
    eight_hex_digits(number)
        .iter()
        .map(|&digit| char::from(digit))
        .collect()
}
