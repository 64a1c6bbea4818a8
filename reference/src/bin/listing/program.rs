//! The program `rays` as a process of its own.

use std::fs::File;
use std::io::{ErrorKind, Read, Write};
use std::path::Path;
use std::process::{Child, ChildStdin, Command, Output, Stdio};
use std::sync::mpsc;
use std::thread;
use std::time::Duration;

/// A run that lasts longer is ended and fails.
const LONGEST_RUN: Duration = Duration::from_secs(10);

/// No more bytes are read of what a run writes; the longest listing has 174,600.
const MOST_BYTES: u64 = 1 << 20;

/// The pause between two parts of an input, in which the program can read the first.
const PAUSE: Duration = Duration::from_millis(20);

pub struct Program {
    path: String,
}

impl Program {
    pub fn new(path: &str) -> Program {
        Program { path: path.into() }
    }

    /// What the program writes for an input that comes in these parts, or what is wrong with the run.
    pub fn listing(&self, parts: &[&[u8]]) -> Result<Vec<u8>, String> {
        let mut command = Command::new(&self.path);
        let piped = command.stdin(Stdio::piped()).stdout(Stdio::piped()).stderr(Stdio::piped());
        let child = piped.spawn().map_err(not_started)?;
        attended(child, parts)
    }

    /// What the program writes, and what it says on standard error, where standard input is a folder, which cannot be read.
    pub fn unreadable(&self, folder: &Path) -> Result<Output, String> {
        let folder = File::open(folder).map_err(not_started)?;
        Command::new(&self.path).stdin(folder).output().map_err(not_started)
    }

    /// The same where standard input is empty and standard output a device that is full.
    pub fn unwritable(&self) -> Result<Output, String> {
        let full = File::options().write(true).open("/dev/full").map_err(not_started)?;
        let mut command = Command::new(&self.path);
        let child = command.stdin(Stdio::null()).stdout(full).stderr(Stdio::piped()).spawn().map_err(not_started)?;
        child.wait_with_output().map_err(not_started)
    }
}

fn not_started(error: std::io::Error) -> String {
    format!("cannot be started: {error}")
}

/// Writes the input and reads both outputs at the same time, so that neither side waits for the other.
fn attended(mut child: Child, parts: &[&[u8]]) -> Result<Vec<u8>, String> {
    let (input, output, errors) = (child.stdin.take(), child.stdout.take(), child.stderr.take());
    let (sender, receiver) = mpsc::channel();
    thread::scope(|scope| {
        scope.spawn(|| feed(input.expect("a pipe"), parts));
        scope.spawn(move || sender.send(first_bytes(output.expect("a pipe"))));
        let errors = scope.spawn(|| first_bytes(errors.expect("a pipe")));
        let written = receiver.recv_timeout(LONGEST_RUN);
        if !matches!(&written, Ok(bytes) if (bytes.len() as u64) < MOST_BYTES) {
            child.kill().expect("a child can be ended");
        }
        let status = child.wait().expect("a child can be waited for");
        let errors = errors.join().expect("no thread failed");
        match written {
            Err(_) => Err(format!("did not end within {} seconds", LONGEST_RUN.as_secs())),
            Ok(bytes) if bytes.len() as u64 == MOST_BYTES => Err(format!("wrote {MOST_BYTES} bytes or more")),
            Ok(_) if !status.success() => Err(format!("ended with {status}")),
            Ok(_) if !errors.is_empty() => Err(format!("wrote on standard error: {}", String::from_utf8_lossy(&errors))),
            Ok(bytes) => Ok(bytes),
        }
    })
}

/// Writes the parts of an input, with a pause between them, and ends it. The program may stop reading where it pleases.
fn feed(mut input: ChildStdin, parts: &[&[u8]]) {
    for (number, part) in parts.iter().enumerate() {
        if number > 0 {
            thread::sleep(PAUSE);
        }
        match input.write_all(part) {
            Err(error) if error.kind() == ErrorKind::BrokenPipe => return,
            written => written.expect("a pipe can be written to"),
        }
    }
}

fn first_bytes(output: impl Read) -> Vec<u8> {
    let mut bytes = Vec::new();
    output.take(MOST_BYTES).read_to_end(&mut bytes).expect("a pipe can be read");
    bytes
}
