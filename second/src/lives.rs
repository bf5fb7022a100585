//! The lives listing: what came of each line of a script, and the record, its
//! slots and its part of the store afterwards.

use std::io::{BufRead, Write};

use crate::frames_in::next_line;
use crate::life::{Happening, Life, Lives};
use crate::listing::{digits_of, Trouble};
use crate::script_in::read_script_line;
use crate::witness::record_lines;

pub fn print_lives<R: BufRead, W: Write>(input: &mut R, output: &mut W) -> Result<(), Trouble> {
    let mut lives = Lives::default();
    let mut line_number: u64 = 0;
    while let Some(line) = next_line(input).map_err(Trouble::Input)? {
        line_number += 1;
        let happening = lives.run(&read_script_line(&line));
        let mut text = format!("{} {}\n", line_number, happening_text(&happening));
        if let (Some(life), false) = (&lives.life, happening == Happening::Bad) {
            text.push_str(&life_lines(life));
        }
        output.write_all(text.as_bytes()).map_err(Trouble::Output)?;
    }
    Ok(())
}

/// What the listing says of one line, after its number.
pub fn happening_text(happening: &Happening) -> String {
    match happening {
        Happening::Bad => "bad".to_string(),
        Happening::Begins => "begins".to_string(),
        Happening::Back => "back".to_string(),
        Happening::Unmatched => "unmatched".to_string(),
        Happening::Empty => "empty".to_string(),
        Happening::Spent => "spent".to_string(),
        Happening::Full { least } => format!("full {}", least),
        Happening::Gives { tag, slot } => format!("gives {} {}", digits_of(*tag), slot),
        Happening::Shows { slot } => format!("shows {}", slot),
    }
}

fn life_lines(life: &Life) -> String {
    let sound = u8::from(life.is_sound());
    let record = record_lines(0, life.record(), life.part());
    format!("  sound {}\n{}", sound, record)
}
