//! An external program that is run on whole inputs.

use std::io::{self, Read, Write};
use std::process::{Child, Command, ExitStatus, Stdio};
use std::sync::mpsc;
use std::thread;
use std::time::Duration;

/// How long one run may take.
const LONGEST: Duration = Duration::from_secs(120);

/// A command: the program's path, after the words of its wrapper.
pub struct Program {
    pub command: Vec<String>,
}

/// What a run wrote, and what else is to be said of it.
pub struct Run {
    pub output: Vec<u8>,
    pub complaint: Option<String>,
}

impl Program {
    /// Runs the program on the input and reads at most so many bytes of what it writes.
    pub fn run(&self, input: &[u8], most: usize) -> Run {
        let run = self.start().and_then(|mut child| {
            feed(&mut child, input);
            let output = read(&mut child, most);
            if !matches!(&output, Ok(output) if output.len() < most) {
                child.kill()?;
            }
            Ok((output?, child.wait()?))
        });
        match run {
            Ok((output, status)) => {
                Run { complaint: complaint(status, output.len() >= most), output }
            }
            Err(error) => Run { complaint: Some(error.to_string()), output: Vec::new() },
        }
    }

    fn start(&self) -> io::Result<Child> {
        let mut command = Command::new(&self.command[0]);
        command.args(&self.command[1..]);
        command.stdin(Stdio::piped()).stdout(Stdio::piped()).spawn()
    }
}

/// Writes the input from a thread of its own, so that the output can be read meanwhile. A program
/// that has written EF may end without reading all: that is no fault.
fn feed(child: &mut Child, input: &[u8]) {
    let stdin = child.stdin.take();
    let input = input.to_vec();
    thread::spawn(move || stdin.map(|mut stdin| stdin.write_all(&input)));
}

/// Reads the output from a thread of its own, so that a program that does not end is noticed.
fn read(child: &mut Child, most: usize) -> io::Result<Vec<u8>> {
    let stdout = child.stdout.take();
    let (sender, receiver) = mpsc::channel();
    thread::spawn(move || {
        let mut output = Vec::new();
        let read = stdout.map(|stdout| stdout.take(most as u64).read_to_end(&mut output));
        sender.send(read.unwrap_or(Ok(0)).map(|_| output))
    });
    let late = || io::Error::other(format!("no end after {} seconds", LONGEST.as_secs()));
    receiver.recv_timeout(LONGEST).unwrap_or_else(|_| Err(late()))
}

fn complaint(status: ExitStatus, too_much: bool) -> Option<String> {
    if too_much {
        Some("it writes too much".into())
    } else if status.code().is_none() {
        Some(status.to_string())
    } else {
        None
    }
}
