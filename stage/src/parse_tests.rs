//! What a scene's lines mean, and what is said of each that means nothing.

use super::*;

fn at(line: usize, clock: u64, text: &[&str]) -> Step {
    let text = text.iter().map(|line| line.as_bytes().to_vec()).collect();
    Step {
        line,
        order: Order::At { clock, text },
    }
}

fn reading(default: &str) -> Order {
    Order::Read {
        address: b"ann".to_vec(),
        package: b"dialog".to_vec(),
        clock: 0,
        default: default.as_bytes().to_vec(),
    }
}

fn faulty(file: &str) -> (usize, String) {
    let fault = parse(file.as_bytes()).unwrap_err();
    (fault.line, fault.expected)
}

#[test]
fn the_three_steps() {
    let file = "# a story\n\n \t# more\n add\tann  start 4294967295 spent 7 \r\nat 5\nA b C\n# no comment\n\nx\n.\nread ann dialog at 0 default  # x ";
    let steps = parse(file.as_bytes()).unwrap();
    let add = Order::Add {
        address: b"ann".to_vec(),
        start: u32::MAX,
        spent: 7,
    };
    assert_eq!(
        steps[0],
        Step {
            line: 4,
            order: add
        }
    );
    assert_eq!(steps[1], at(5, 5, &["A b C", "# no comment", "", "x"]));
    assert_eq!(steps[2].order, reading(" # x "));
    assert_eq!(steps.len(), 3);
}

#[test]
fn line_ends_and_empty_messages() {
    let steps = parse(b"at 18446744073709551615\r\na\r\n\r\n..\r\n.\r\nat 0\n.").unwrap();
    assert_eq!(steps[0], at(1, u64::MAX, &["a", "", ".."]));
    assert_eq!(steps[1], at(6, 0, &[]));
}

#[test]
fn defaults() {
    for (end, default) in [("", ""), (" ", ""), (" x y ", "x y "), ("\t", "")] {
        let line = format!("read ann dialog at 0 default{}", end);
        assert_eq!(parse(line.as_bytes()).unwrap()[0].order, reading(default));
    }
}

/// A line that means nothing, and what was expected.
const FAULTS: &str = "\
ad ann => add, at or read, not 'ad'
Add ann => add, at or read, not 'Add'
. => add, at or read, not '.'
add => an address behind 'add', not the line's end
add a spent 0 => 'start' behind the address, not 'spent'
add a start x => a number below 4294967296 behind 'start', not 'x'
add a start 4294967296 => a number below 4294967296 behind 'start', not '4294967296'
add a start 0 => 'spent' behind the start, not the line's end
add a start 0 spent => a number below 4294967296 behind 'spent', not the line's end
add a start 0 spent 1 # => the line's end behind the spent count, not '#'
at => a number below 18446744073709551616 behind 'at', not the line's end
at -1 => a number below 18446744073709551616 behind 'at', not '-1'
at 1 2 => the line's end behind the clock, not '2'
read => an address behind 'read', not the line's end
read a => a package behind the address, not the line's end
read a b 5 => 'at' behind the package, not '5'
read a b at x => a number below 18446744073709551616 behind 'at', not 'x'
read a b at 5 => 'default' behind the clock, not the line's end
read a b at 5 defaultx => 'default' behind the clock, not 'defaultx'";

#[test]
fn faults_of_steps() {
    for fault in FAULTS.lines() {
        let (line, expected) = fault.split_once(" => ").unwrap();
        let file = format!("# first\n{}\n", line);
        assert_eq!(faulty(&file), (2, expected.to_string()), "{}", line);
    }
}

#[test]
fn faults_of_lengths() {
    let long = "a".repeat(256);
    assert!(parse(format!("read {} b at 0 default", &long[1..]).as_bytes()).is_ok());
    let expected = "an address of at most 255 bytes, not of 256".to_string();
    assert_eq!(
        faulty(&format!("read {} b at 0 default", long)),
        (1, expected)
    );
    let expected = "a package of at most 255 bytes, not of 256".to_string();
    assert_eq!(
        faulty(&format!("read b {} at 0 default", long)),
        (1, expected)
    );
}

#[test]
fn faults_of_messages_and_files() {
    let expected = "a line with a single dot behind the message of line 2".to_string();
    assert_eq!(faulty("\nat 0\na\n. \n .\n"), (6, expected));
    let expected = "a step: a line with add, at or read".to_string();
    assert_eq!(faulty("# nothing\n"), (2, expected));
    let expected = "the number of a step before step 1 behind $tag, not 1".to_string();
    assert_eq!(faulty("at 0\na\nb $tag1\n."), (3, expected));
}
