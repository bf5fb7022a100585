//! The command line of the second program.

mod arguments;

use std::env;
use std::ffi::OsString;
use std::io::{self, BufRead, BufWriter, Write};
use std::process::ExitCode;

use arguments::{read_command, Command, Run};
use second::counts::print_counts;
use second::generate::print_frames;
use second::generate::requests::print_requests;
use second::generate::scripts::print_scripts;
use second::listing::{print_listing, Trouble};
use second::lives::print_lives;
use second::read_counts::print_read_counts;
use second::reads::print_reads;
use second::witness::print_witness;

const USAGE: &str = "\
The second program: the publication part, written again from the paper.

second listing < FRAMES                       print the bench listing
second witness < FRAMES                       print the witness listing
second reads < REQUESTS                       print the reads listing
second lives < SCRIPT                         print the lives listing
second frames --seed N --lines K              print K generated frames
second frames --seed N --lines K --counts     print how often those reach each row
second requests --seed N --lines K            print K generated requests
second requests --seed N --lines K --counts   print how often those reach each outcome
second scripts --seed N --lines K             print K generated lines of a script
second help                                   print this text

FRAMES, REQUESTS and SCRIPT are lines of hexadecimal: one frame, one request or
one step of a life a line. N is a number below 2^64; the same seed gives the
same lines.
Exit status: 0, or 1 where a stream fails, or 2 for a wrong command line.
";

fn main() -> ExitCode {
    let arguments: Vec<OsString> = env::args_os().skip(1).collect();
    match read_command(&arguments) {
        Ok(command) => exit_after(run(&command)),
        Err(message) => {
            complain(&format!("{}; try: second help", message));
            ExitCode::from(2)
        }
    }
}

fn run(command: &Command) -> Result<(), Trouble> {
    let mut input = io::stdin().lock();
    let mut output = BufWriter::new(io::stdout().lock());
    let done = print(command, &mut input, &mut output);
    let flushed = output.flush().map_err(Trouble::Output);
    done.and(flushed)
}

fn print<R: BufRead, W: Write>(
    command: &Command,
    input: &mut R,
    output: &mut W,
) -> Result<(), Trouble> {
    let written = match command {
        Command::Listing => return print_listing(input, output),
        Command::Witness => return print_witness(input, output),
        Command::Reads => return print_reads(input, output),
        Command::Lives => return print_lives(input, output),
        Command::Help => output.write_all(USAGE.as_bytes()),
        Command::Frames(run) => print_run(run, output, print_frames, print_counts),
        Command::Requests(run) => print_run(run, output, print_requests, print_read_counts),
        Command::Scripts(run) => print_scripts(run.seed, run.lines, output),
    };
    written.map_err(Trouble::Output)
}

type Printer<W> = fn(u64, u64, &mut W) -> io::Result<()>;

/// The lines, or only their counts.
fn print_run<W: Write>(
    run: &Run,
    output: &mut W,
    lines: Printer<W>,
    counts: Printer<W>,
) -> io::Result<()> {
    let printer = if run.counts { counts } else { lines };
    printer(run.seed, run.lines, output)
}

fn exit_after(done: Result<(), Trouble>) -> ExitCode {
    match done {
        Ok(()) => return ExitCode::SUCCESS,
        Err(Trouble::Input(error)) => complain(&format!("cannot read standard input: {}", error)),
        Err(Trouble::Output(error)) if error.kind() == io::ErrorKind::BrokenPipe => {}
        Err(Trouble::Output(error)) => complain(&format!("cannot write: {}", error)),
    }
    ExitCode::FAILURE
}

/// Where standard error is closed as well, there is nobody left to tell.
fn complain(message: &str) {
    let _ = writeln!(io::stderr(), "second: {}", message);
}
