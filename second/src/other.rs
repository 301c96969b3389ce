//! Running another program.

use std::io::{self, ErrorKind, Write};
use std::process::{Command, Stdio};
use std::thread;

/// What the program at a path prints for an input; it has to end without failing.
pub fn run(program: &str, input: &[u8]) -> io::Result<Vec<u8>> {
    let mut child = Command::new(program).stdin(Stdio::piped()).stdout(Stdio::piped()).spawn()?;
    let stdin = child.stdin.take();
    let write = || stdin.map_or(Ok(()), |mut stdin| ignore_early_end(stdin.write_all(input)));
    // The program may print before it has read everything, so that it is written to while it is read from.
    let output = thread::scope(|scope| {
        let written = scope.spawn(write);
        let output = child.wait_with_output()?;
        written.join().expect("the writer does not panic")?;
        io::Result::Ok(output)
    })?;
    if output.status.success() {
        Ok(output.stdout)
    } else {
        Err(io::Error::other(format!("{program}: {}", output.status)))
    }
}

/// A program may end before it has read what does not count.
fn ignore_early_end(written: io::Result<()>) -> io::Result<()> {
    match written {
        Err(error) if error.kind() == ErrorKind::BrokenPipe => Ok(()),
        other => other,
    }
}
