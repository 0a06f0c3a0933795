//! What the program lookup_vectors must print: a body's last line and the board that libtw2's lookups then tell, with the teams
//! beside it, or the board after each event too.

use crate::board::write_client;
use crate::expected::has_large_client;
use crate::expected::LARGEST_CLIENT;
use crate::framed::looked;
use crate::framed::parted;
use crate::framed::When;
use crate::input;
use crate::invalid;
use crate::run::Answer;
use crate::run::Pace;
use crate::run::Run;
use libtw2_teehistorian::raw::Item;
use std::io;
use std::io::Write;

/// lookup_vectors asks for -2147483648, -1, 0 to 127, 128 and 2147483647, for positions, inputs and teams, and for `cids`.
pub const LOOKUPS: u64 = 3 * 132 + 1;

#[derive(Default)]
pub struct Lookups {
    pub text: String,
    pub boards: u64,
    /// The clients on them that have a team.
    pub teams: u64,
    /// Boards whose `cids()` ends at 2147483648, which libtw2 can't say.
    pub beyond: u64,
}

/// All inputs of the standard input, as lookup_vectors reads them.
pub fn command() -> io::Result<()> {
    let bytes = input()?;
    let mut rest = &bytes[..];
    let mut out = io::stdout().lock();
    while !rest.is_empty() {
        let wrong = || invalid("not inputs of lookup_vectors");
        let (framed, next) = parted(rest).ok_or_else(wrong)?;
        let (when, input) = looked(framed).ok_or_else(wrong)?;
        out.write_all(lookups(input, when).text.as_bytes())?;
        rest = next;
    }
    out.flush()
}

pub fn lookups(input: &[u8], when: When) -> Lookups {
    let mut lookups = Lookups::default();
    let run = input
        .split_first()
        .and_then(|(version, body)| Run::new(*version, body, Pace::Whole));
    match run {
        Some(run) => lookups.read(run, when),
        None => lookups.text.push_str("refused 2\n"),
    }
    lookups
}

impl Lookups {
    /// A refusal leaves libtw2's reader as it is to leave ours. In the place of `refused 10` libtw2 has stored a client
    /// above 127, which isn't looked up, and has raised `cids()` as that refusal does.
    fn read(&mut self, mut run: Run, when: When) {
        let mut tick = None;
        let last = loop {
            match run.call() {
                Answer::Event(event) if has_large_client(&event) => break "refused 10".to_string(),
                Answer::Event(event) => tick = tick_after(tick, &event),
                Answer::Finish => break "finish".to_string(),
                Answer::Refused(number) => break format!("refused {number}"),
                Answer::Stopped => unreachable!("this pace has no limit"),
            }
            if when == When::Each {
                self.add(&run, tick);
            }
        };
        self.text.push_str(&last);
        self.text.push('\n');
        self.add(&run, tick);
    }
    fn add(&mut self, run: &Run, tick: Option<i32>) {
        let end = run.reader().cids().end;
        self.boards += 1;
        self.teams += run.teams().list().len() as u64;
        self.beyond += u64::from(end < 0);
        let mut lines = Vec::new();
        write_board(&mut lines, run, tick, end).expect("a vector takes every byte");
        self.text
            .push_str(std::str::from_utf8(&lines).expect("a line is ASCII"));
    }
}

/// The tick that was started and hasn't ended. libtw2's reader keeps it to itself; its events tell it.
pub fn tick_after(tick: Option<i32>, event: &Item) -> Option<i32> {
    match event {
        Item::TickStart(started) => Some(*started),
        Item::TickEnd(_) => None,
        _ => tick,
    }
}

fn write_board(out: &mut impl Write, run: &Run, tick: Option<i32>, end: i32) -> io::Result<()> {
    match tick {
        Some(tick) => writeln!(out, "tick {tick}")?,
        None => writeln!(out, "tick -")?,
    }
    for client in 0..=LARGEST_CLIENT {
        write_client(out, run.reader(), client)?;
    }
    for (client, team) in run.teams().list() {
        writeln!(out, "team {client} {team}")?;
    }
    // The end wraps where the largest client is 2147483647.
    writeln!(out, "cids {}", end as u32)
}
