//! Makes an input shorter while it keeps a property.

use std::io;
use std::time::Duration;
use std::time::Instant;

const TIME: Duration = Duration::from_secs(20);

/// In an input of at most this many bytes every stretch is tried.
const SMALL: usize = 100;

/// Removes stretches of bytes, long ones first, as long as `holds` stays true and time is left.
pub fn shrink(
    mut input: Vec<u8>,
    mut holds: impl FnMut(&[u8]) -> io::Result<bool>,
) -> io::Result<Vec<u8>> {
    let deadline = Instant::now() + TIME;
    loop {
        let before = input.len();
        let mut stretch = before / 2;
        while stretch > 0 {
            input = without_stretches(input, stretch, deadline, &mut holds)?;
            stretch = if input.len() <= SMALL {
                stretch - 1
            } else {
                stretch / 2
            };
        }
        if input.len() == before || Instant::now() > deadline {
            return Ok(input);
        }
    }
}

fn without_stretches(
    mut input: Vec<u8>,
    stretch: usize,
    deadline: Instant,
    holds: &mut impl FnMut(&[u8]) -> io::Result<bool>,
) -> io::Result<Vec<u8>> {
    let mut at = 0;
    while at + stretch <= input.len() && Instant::now() < deadline {
        let mut shorter = input.clone();
        shorter.drain(at..at + stretch);
        if holds(&shorter)? {
            input = shorter;
        } else {
            at += if input.len() <= SMALL { 1 } else { stretch };
        }
    }
    Ok(input)
}
