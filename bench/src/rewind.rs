//! The time of one rewind, on a small body: to the oldest tick that is on the reel at its end. In one call it is how much longer reading with that
//! rewind takes than reading with one to the newest tick; under way it is the time of the calls, each begun on the same copy.

use crate::readers;
use crate::readers::Reel;
use crate::readers::UnderWay;
use oracle::invalid;
use std::hint::black_box;
use std::io;
use std::path::Path;
use std::time::Duration;
use std::time::Instant;

const ROUNDS: u32 = 3000;
/// How many events a call goes.
const EVENTS: [usize; 5] = [0, 1, 16, 64, 512];
/// The same where calls go to the end.
const TO_THE_END: usize = 16;
const GOING: u8 = 255;

/// `each` is the time of one event read, many a call, in nanoseconds.
pub fn measure(sort: &str, file: &Path, each: f64) -> io::Result<()> {
    let input = std::fs::read(file)?;
    let (version, body) = input.split_first().ok_or_else(|| invalid("an empty body"))?;
    let mut reel = Reel::new();
    readers::kept(*version, body, &mut reel)?;
    let starts = starts(&reel);
    let (Some((tick, over)), Some((newest, few))) = (starts.first(), starts.last()) else {
        return Err(invalid("no TickStart on the reel"));
    };
    if readers::rewound(*version, body, *tick, &mut reel) != 0 {
        return Err(invalid("the rewind is refused"));
    }
    let whole = best(|| readers::rewound(*version, body, *tick, &mut reel));
    let least = best(|| readers::rewound(*version, body, *newest, &mut reel));
    let rewind = whole.saturating_sub(least).as_nanos() as f64;
    println!(
        "{sort}, a rewind over {over} events, beside one over {few}: {:.1} us more; 2,000 events read, many a call: {:.1} us",
        rewind / 1000.0,
        each * 2.0
    );
    under_way(sort, *version, body, *tick)
}

fn under_way(sort: &str, version: u8, body: &[u8], tick: i32) -> io::Result<()> {
    let mut reel = Reel::new();
    let mut started = UnderWay::new();
    if readers::start(version, body, tick, &mut reel, &mut started) != 0 {
        return Err(invalid("the rewind is not started"));
    }
    let mut calls = Vec::new();
    for events in EVENTS {
        let time = best_from(&started, |rewind| {
            readers::go_on(tick, events, &reel, rewind)
        })?;
        calls.push(format!("{events}: {}", time.as_nanos()));
    }
    let whole = best_from(&started, |rewind| loop {
        let answer = readers::go_on(tick, TO_THE_END, &reel, rewind);
        if answer != GOING {
            return answer;
        }
    })?;
    println!(
        "{sort}, one call of a rewind under way, ns by its events: {}; to the end by calls of {TO_THE_END}: {:.1} us",
        calls.join(", "),
        whole.as_nanos() as f64 / 1000.0
    );
    Ok(())
}

/// The TickStart events on the reel, the oldest first: each one's tick, and how many rows are newer.
fn starts(reel: &Reel) -> Vec<(i32, usize)> {
    let [next, count] = reel.counts;
    let places = (0..count)
        .rev()
        .map(|newer| (newer, (next + 511 - newer) % 512));
    places
        .filter(|(_, place)| reel.rows[10 * place] == 1)
        .map(|(newer, place)| (reel.rows[10 * place + 1], newer))
        .collect()
}

/// The best of many rounds.
fn best(mut call: impl FnMut() -> u8) -> Duration {
    let mut least = Duration::MAX;
    for _ in 0..ROUNDS {
        let begin = Instant::now();
        black_box(call());
        least = least.min(begin.elapsed());
    }
    least
}

/// The best of many rounds, each on a copy of the same rewind. The time of the copy, and of reading the clock, is not in it.
fn best_from(started: &UnderWay, call: impl Fn(&mut UnderWay) -> u8) -> io::Result<Duration> {
    let mut least = Duration::MAX;
    let mut clock = Duration::MAX;
    for _ in 0..ROUNDS {
        let mut rewind = started.clone();
        black_box(&mut rewind);
        let begin = Instant::now();
        let ready = begin.elapsed();
        let begin = Instant::now();
        let answer = call(&mut rewind);
        least = least.min(begin.elapsed());
        clock = clock.min(ready);
        black_box(&rewind);
        if answer != 0 && answer != GOING {
            return Err(invalid("going on is refused"));
        }
    }
    Ok(least.saturating_sub(clock))
}
