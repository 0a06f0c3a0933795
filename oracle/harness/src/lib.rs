//! libtw2's reader, and what is compared with it.

pub mod aims;
pub mod batch;
pub mod bench;
pub mod board;
pub mod changes;
pub mod compare;
pub mod entries;
pub mod expected;
pub mod fields;
pub mod framed;
pub mod gathered;
pub mod goals;
pub mod going;
pub mod goings;
pub mod integers;
pub mod jumps;
pub mod ladder;
pub mod length;
pub mod lists;
pub mod lookups;
pub mod made;
pub mod program;
pub mod reach;
pub mod reaches;
pub mod records;
pub mod replay;
pub mod rewind;
pub mod rewinds;
pub mod run;
pub mod scripts;
pub mod shrink;
pub mod skips;
pub mod stage;
pub mod stand;
pub mod subject;
pub mod teams;
pub mod text;
pub mod ties;

use std::io;
use std::io::Read;

/// All of the standard input.
pub fn input() -> io::Result<Vec<u8>> {
    let mut bytes = Vec::new();
    io::stdin().read_to_end(&mut bytes)?;
    Ok(bytes)
}

/// An error for input that the command line or a file got wrong.
pub fn invalid(message: &str) -> io::Error {
    io::Error::new(io::ErrorKind::InvalidInput, message)
}
