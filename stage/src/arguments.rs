//! The command line: what is asked for, of which file, and the commands of the
//! two programs, each behind a '--'.

use std::ffi::OsString;

use crate::program::Program;

pub enum Asked {
    Scene {
        file: OsString,
        witness: Program,
        second: Program,
    },
    Frames {
        file: OsString,
        witness: Program,
    },
}

pub const USAGE: &str = "\
usage: stage scene FILE -- WITNESS.. -- SECOND..
       stage frames FILE -- WITNESS..";

/// None where the command line is not so built.
pub fn read_arguments(arguments: &[OsString]) -> Option<Asked> {
    let parts: Vec<&[OsString]> = arguments.split(|word| word == "--").collect();
    if parts.iter().any(|part| part.is_empty()) {
        return None;
    }
    match parts[..] {
        [[what, file], witness, second] if what == "scene" => Some(Asked::Scene {
            file: file.clone(),
            witness: program("witness", witness),
            second: program("second", second),
        }),
        [[what, file], witness] if what == "frames" => Some(Asked::Frames {
            file: file.clone(),
            witness: program("witness", witness),
        }),
        _ => None,
    }
}

fn program(name: &'static str, command: &[OsString]) -> Program {
    Program {
        name,
        command: command.to_vec(),
    }
}

#[cfg(test)]
mod tests {
    use super::*;

    fn read(text: &str) -> Option<Asked> {
        let words: Vec<OsString> = text.split(' ').map(OsString::from).collect();
        read_arguments(&words)
    }

    #[test]
    fn both_commands() {
        match read("scene a.scene -- w --file x -- s witness") {
            Some(Asked::Scene {
                file,
                witness,
                second,
            }) => {
                assert_eq!(file, "a.scene");
                assert_eq!(witness.command, ["w", "--file", "x"]);
                assert_eq!(second.command, ["s", "witness"]);
            }
            _ => panic!("no scene"),
        }
        assert!(matches!(read("frames a -- w"), Some(Asked::Frames { .. })));
    }

    #[test]
    fn wrong_ones() {
        for text in [
            "",
            "scene a",
            "scene -- w -- s",
            "scene a b -- w -- s",
            "scene a -- w",
            "scene a -- -- s",
            "frames a -- w -- s",
            "play a -- w -- s",
        ] {
            assert!(read(text).is_none(), "{}", text);
        }
    }
}
