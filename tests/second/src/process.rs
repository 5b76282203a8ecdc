//! Another program, run on bytes of this one's.

use std::io::{self, Write};
use std::process::{Child, ChildStdout, Command, ExitStatus, Output, Stdio};
use std::thread::{self, JoinHandle};

/// Runs a program on an input and reads what it prints; gives what was read, and how it ended.
pub fn run<T>(
    program: &mut Command,
    input: Vec<u8>,
    read: impl FnOnce(ChildStdout) -> T,
) -> io::Result<(T, ExitStatus)> {
    let piped = program.stdin(Stdio::piped()).stdout(Stdio::piped());
    let mut child = piped.spawn()?;
    let feeder = feed(&mut child, input);
    let read = read(child.stdout.take().expect("standard output is a pipe"));
    let _ = feeder.join();
    Ok((read, child.wait()?))
}

/// Runs a program on an input; gives all that it prints on both streams, and how it ended.
pub fn output(program: &mut Command, input: Vec<u8>) -> io::Result<Output> {
    let piped = program.stdin(Stdio::piped()).stdout(Stdio::piped());
    let mut child = piped.stderr(Stdio::piped()).spawn()?;
    let feeder = feed(&mut child, input);
    let output = child.wait_with_output();
    let _ = feeder.join();
    output
}

/// Writes the input beside the reading, so that neither program waits for the other. A program may
/// stop reading before the end of a long input; what it prints tells whether it should have.
fn feed(child: &mut Child, input: Vec<u8>) -> JoinHandle<io::Result<()>> {
    let mut standard_input = child.stdin.take().expect("standard input is a pipe");
    thread::spawn(move || standard_input.write_all(&input))
}
