//! The program as it is run: its commands, wrong command lines, and streams
//! that hold anything or break.

use std::io::Write;
use std::process::{Command, Output, Stdio};

fn run(arguments: &[&str], input: &[u8]) -> Output {
    let mut child = Command::new(env!("CARGO_BIN_EXE_second"))
        .args(arguments)
        .stdin(Stdio::piped())
        .stdout(Stdio::piped())
        .stderr(Stdio::piped())
        .spawn()
        .unwrap();
    let mut stdin = child.stdin.take().unwrap();
    let input = input.to_vec();
    let writer = std::thread::spawn(move || {
        let _ = stdin.write_all(&input);
    });
    let output = child.wait_with_output().unwrap();
    writer.join().unwrap();
    output
}

fn printed(output: &Output) -> &str {
    std::str::from_utf8(&output.stdout).unwrap()
}

#[test]
fn listing_witness_and_help() {
    let frames = include_bytes!("../data/eleven.hex");
    let listing = run(&["listing"], frames);
    assert!(listing.status.success());
    assert_eq!(printed(&listing), include_str!("../data/eleven.listing"));
    let witness = run(&["witness"], frames);
    assert!(witness.status.success());
    assert!(printed(&witness).starts_with("publish bench\n1 add 0\n  answer -\n  past "));
    let help = run(&["help"], b"");
    assert!(help.status.success());
    assert!(printed(&help).contains("second witness < FRAMES"));
}

#[test]
fn frames_and_counts() {
    let frames = run(&["frames", "--seed", "1", "--lines", "7"], b"");
    assert!(frames.status.success());
    assert_eq!(
        frames.stdout.iter().filter(|&&byte| byte == b'\n').count(),
        7
    );
    let other_order = run(&["frames", "--lines", "7", "--seed", "1"], b"");
    assert_eq!(frames.stdout, other_order.stdout);
    let counts = run(&["frames", "--counts", "--seed", "1", "--lines", "7"], b"");
    assert!(printed(&counts).contains("\nnone-6-ack "));
    assert!(printed(&counts).contains("\nnone-3 unreachable\n"));
}

#[test]
fn reads_and_lives() {
    let reads = run(&["reads"], b"\n0\n");
    assert!(reads.status.success());
    assert_eq!(printed(&reads), "1 unreadable\n2 bad\n");
    let lives = run(&["lives"], b"02\n000000000000000000");
    assert!(lives.status.success());
    assert!(printed(&lives).starts_with("1 bad\n2 begins\n  sound 1\n  record 0 "));
}

#[test]
fn requests_and_scripts() {
    for (generator, listing) in [("requests", "reads"), ("scripts", "lives")] {
        let made = run(&[generator, "--seed", "1", "--lines", "150"], b"");
        assert!(made.status.success());
        let again = run(&[generator, "--lines", "150", "--seed", "1"], b"");
        assert_eq!(made.stdout, again.stdout);
        let listed = run(&[listing], &made.stdout);
        assert!(listed.status.success());
        assert!(printed(&listed).contains("\n150 "));
        assert!(!printed(&listed).contains("\n151 "));
    }
    let counts = run(
        &["requests", "--counts", "--seed", "1", "--lines", "7"],
        b"",
    );
    assert!(printed(&counts).starts_with("bad "));
    assert!(printed(&counts).contains("\nmatch-unfit "));
}

/// Each is refused with one line on standard error and status 2.
fn all_are_refused(wrong: &[&[&str]]) {
    for &arguments in wrong {
        let output = run(arguments, b"");
        let message = String::from_utf8_lossy(&output.stderr).into_owned();
        assert_eq!(output.status.code(), Some(2), "{:?}", arguments);
        assert!(output.stdout.is_empty(), "{:?}", arguments);
        assert_eq!(message.lines().count(), 1, "{}", message);
        assert!(message.starts_with("second: "), "{}", message);
    }
}

#[test]
fn wrong_command_lines() {
    all_are_refused(&[
        &[],
        &[""],
        &["list"],
        &["--help"],
        &["listing", "x"],
        &["help", "x"],
        &["frames"],
        &["frames", "--seed", "1"],
        &["frames", "--lines", "1"],
        &["frames", "--seed"],
        &["frames", "--seed", "", "--lines", "1"],
        &["frames", "--seed", "+1", "--lines", "1"],
        &["frames", "--seed", "x", "--lines", "1"],
        &["frames", "--seed", "1", "--lines", "18446744073709551616"],
        &["frames", "--seed", "1", "--lines", "1", "--lines", "1"],
        &["frames", "--seed", "1", "--lines", "1", "--count"],
    ]);
}

#[test]
fn wrong_command_lines_of_the_newer_commands() {
    all_are_refused(&[
        &["reads", "x"],
        &["lives", "--seed"],
        &["read"],
        &["requests"],
        &["requests", "--lines", "1"],
        &["requests", "--seed", "1", "--lines", "-1"],
        &["requests", "--seed", "1", "--seed", "1", "--lines", "1"],
        &[
            "requests", "--seed", "1", "--lines", "1", "--counts", "--counts",
        ],
        &["scripts", "--seed", "1"],
        &["scripts", "--seed", "1", "--lines"],
        &["scripts", "--seed", "1", "--lines", "1", "x"],
        &["scripts", "--seed", "1", "--lines", "1", "--counts"],
    ]);
}

#[test]
fn any_bytes_at_all_are_lines() {
    let mut state: u32 = 1;
    let noise: Vec<u8> = (0..100_000)
        .map(|_| {
            state = state.wrapping_mul(1664525).wrapping_add(1013904223);
            (state >> 24) as u8
        })
        .collect();
    let newlines = noise.iter().filter(|&&byte| byte == b'\n').count();
    for (command, head) in [("listing", 1), ("reads", 0), ("lives", 0)] {
        let output = run(&[command], &noise);
        assert!(output.status.success());
        let lines = printed(&output).lines().count() - head;
        assert!(lines == newlines || lines == newlines + 1);
        assert!(printed(&output)
            .lines()
            .skip(head)
            .all(|line| line.ends_with(" bad") || line.ends_with(" unreadable")));
    }
}

#[test]
fn a_very_long_line_is_bad() {
    let mut input = vec![b'0'; 3_000_000];
    input.extend_from_slice(b"\n00000000000000000061\n");
    let output = run(&["listing"], &input);
    assert_eq!(printed(&output), "publish bench\n1 bad\n2 add 0\n");
    let output = run(&["reads"], &input);
    assert_eq!(printed(&output), "1 bad\n2 unreadable\n");
    let output = run(&["lives"], &input);
    assert_eq!(printed(&output), "1 bad\n2 bad\n");
}

#[test]
fn a_broken_output_pipe_ends_it_quietly() {
    let mut child = Command::new(env!("CARGO_BIN_EXE_second"))
        .args(["frames", "--seed", "1", "--lines", "100000"])
        .stdout(Stdio::piped())
        .stderr(Stdio::piped())
        .spawn()
        .unwrap();
    drop(child.stdout.take());
    let output = child.wait_with_output().unwrap();
    assert_eq!(output.status.code(), Some(1));
    assert!(output.stderr.is_empty());
}

#[cfg(unix)]
#[test]
fn an_input_that_cannot_be_read_is_said() {
    let directory = std::fs::File::open(".").unwrap();
    let output = Command::new(env!("CARGO_BIN_EXE_second"))
        .arg("listing")
        .stdin(directory)
        .output()
        .unwrap();
    assert_eq!(output.status.code(), Some(1));
    let message = String::from_utf8_lossy(&output.stderr).into_owned();
    assert!(message.starts_with("second: cannot read standard input"));
}

#[cfg(unix)]
#[test]
fn an_argument_that_is_no_text_is_said() {
    use std::os::unix::ffi::OsStrExt;
    let output = Command::new(env!("CARGO_BIN_EXE_second"))
        .arg(std::ffi::OsStr::from_bytes(b"\xff\n"))
        .output()
        .unwrap();
    assert_eq!(output.status.code(), Some(2));
    assert_eq!(String::from_utf8_lossy(&output.stderr).lines().count(), 1);
}
