//! Inputs as the programs over fixed lists read them: one behind the other, each after its length.

use crate::invalid;
use crate::records::bytes;
use std::io;
use std::io::BufRead;
use std::io::Write;

/// When lookup_vectors looks at the board.
#[derive(Clone, Copy, Debug, PartialEq)]
pub enum When {
    End,
    /// After each event, and at the end.
    Each,
}

/// The length takes so many bytes.
const WIDTH: usize = 3;

/// The bytes that such a program can hold.
pub const ROOM: usize = 1 << 20;

/// Each line of the standard input is an input in hex after `end` or `each`, for lookup_vectors, or after `plain`, for
/// ladder_vectors; the answer is what the program reads.
pub fn command() -> io::Result<()> {
    let mut out = io::stdout().lock();
    for line in io::stdin().lock().lines() {
        let line = line?;
        let wrong = || invalid(&format!("not end HEX, each HEX or plain HEX: {line}"));
        out.write_all(&listed(&line).ok_or_else(wrong)?)?;
    }
    out.flush()
}

fn listed(line: &str) -> Option<Vec<u8>> {
    let (word, hex) = line.split_once(' ')?;
    let input = bytes(hex)?;
    match word {
        "end" => Some(framed(&input, When::End)),
        "each" => Some(framed(&input, When::Each)),
        "plain" => Some(measured(&input)),
        _ => None,
    }
}

/// The first of the inputs, and those behind it.
pub fn parted(bytes: &[u8]) -> Option<(&[u8], &[u8])> {
    let (size, rest) = bytes.split_at_checked(WIDTH)?;
    let size = size
        .iter()
        .rev()
        .fold(0, |sum, byte| sum << 8 | usize::from(*byte));
    rest.split_at_checked(size)
}

/// An input of lookup_vectors: when the board is looked at, and the version byte with the body.
pub fn looked(bytes: &[u8]) -> Option<(When, &[u8])> {
    let (when, input) = bytes.split_first()?;
    match when {
        0 => Some((When::End, input)),
        1 => Some((When::Each, input)),
        _ => None,
    }
}

/// An input as lookup_vectors reads it: its length, when the board is looked at, a version byte, a body.
pub fn framed(input: &[u8], when: When) -> Vec<u8> {
    measured(&[&[when as u8], input].concat())
}

/// Bytes after their length.
pub fn measured(bytes: &[u8]) -> Vec<u8> {
    let size = bytes.len().to_le_bytes();
    [&size[..WIDTH], bytes].concat()
}
