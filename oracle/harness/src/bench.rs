//! `oracle bench FILE ROUNDS`: the speed of libtw2's reader on one input, from memory.

use crate::invalid;
use crate::run::Pace;
use crate::run::Run;
use std::hint::black_box;
use std::io;
use std::time::Duration;
use std::time::Instant;

struct Round {
    events: u64,
    time: Duration,
}

pub fn command(file: &str, rounds: u64) -> io::Result<()> {
    let input = std::fs::read(file)?;
    let (version, body) = input
        .split_first()
        .ok_or_else(|| invalid("the file is empty"))?;
    let best = (0..rounds.max(1))
        .map(|_| round(*version, body))
        .collect::<io::Result<Vec<Round>>>()?
        .into_iter()
        .min_by_key(|round| round.time)
        .expect("there is at least one round");
    report(&best, body.len());
    Ok(())
}

fn round(version: u8, body: &[u8]) -> io::Result<Round> {
    let begin = Instant::now();
    let mut run = Run::new(version, body, Pace::Whole)
        .ok_or_else(|| invalid("the file begins with neither 01 nor 02"))?;
    let mut events = 0;
    while let Some(event) = run.read().map_err(|_| invalid("the body is refused"))? {
        black_box(&event);
        events += 1;
    }
    Ok(Round {
        events,
        time: begin.elapsed(),
    })
}

fn report(round: &Round, bytes: usize) {
    let nanoseconds = round.time.as_nanos() as f64;
    let each = nanoseconds / round.events.max(1) as f64;
    let speed = bytes as f64 * 1000.0 / nanoseconds;
    println!(
        "events {} bytes {bytes} ns/event {each:.2} MB/s {speed:.1}",
        round.events
    );
}
