//! Runs the program under comparison on one input.

use std::io;
use std::io::Read;
use std::io::Write;
use std::process::Child;
use std::process::ChildStdin;
use std::process::ChildStdout;
use std::process::Command;
use std::process::Stdio;
use std::sync::mpsc;
use std::thread;
use std::time::Duration;

/// Pieces of this odd size make short reads from the pipe likely.
const PIECE: usize = 4097;

/// A program that takes longer is ended.
const TIME: Duration = Duration::from_secs(20);

/// What the program prints, up to `most` bytes; a program that prints more is ended.
/// If a signal ended the program, a last line says so.
pub fn output(program: &str, input: &[u8], most: usize) -> io::Result<String> {
    let mut child = Command::new(program)
        .stdin(Stdio::piped())
        .stdout(Stdio::piped())
        .spawn()
        .map_err(|error| io::Error::new(error.kind(), format!("{program}: {error}")))?;
    let stdin = child.stdin.take().expect("the input is a pipe");
    let stdout = child.stdout.take().expect("the output is a pipe");
    let mut bytes = thread::scope(|scope| {
        let (done, waiting) = mpsc::channel();
        scope.spawn(|| feed(stdin, input));
        scope.spawn(|| end_if_needed(&mut child, waiting));
        let bytes = read(stdout, most);
        // The thread that would receive this has gone if it has ended the program.
        let _ = done.send(bytes.as_ref().is_ok_and(|bytes| bytes.len() <= most));
        bytes
    })?;
    let status = child.wait()?;
    if status.code().is_none() {
        bytes.extend(format!("(ended by {status})\n").bytes());
    }
    Ok(String::from_utf8_lossy(&bytes).into_owned())
}

/// Writes the input and closes it. A program may end before it has read everything.
fn feed(mut stdin: ChildStdin, input: &[u8]) {
    for piece in input.chunks(PIECE) {
        if stdin.write_all(piece).is_err() {
            return;
        }
    }
}

/// Reads to the end, or one byte more than `most`.
fn read(stdout: ChildStdout, most: usize) -> io::Result<Vec<u8>> {
    let mut bytes = Vec::new();
    stdout.take(most as u64 + 1).read_to_end(&mut bytes)?;
    Ok(bytes)
}

/// Ends the program unless it is reported in time that its output was complete.
fn end_if_needed(child: &mut Child, waiting: mpsc::Receiver<bool>) {
    if waiting.recv_timeout(TIME) != Ok(true) {
        // It may have ended by itself meanwhile.
        let _ = child.kill();
    }
}
