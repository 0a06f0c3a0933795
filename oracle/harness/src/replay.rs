//! `oracle replay`: what the replay program prints, by libtw2.

use crate::board::write_client;
use crate::fields::fields;
use crate::input;
use crate::invalid;
use crate::run::Answer;
use crate::run::Pace;
use crate::run::Run;
use crate::text;
use libtw2_teehistorian::raw::Item;
use libtw2_teehistorian::raw::Reader;
use std::collections::BTreeSet;
use std::io;
use std::io::Write;

/// Up to this client the board is asked for each one; above it only for those named by an event.
const DENSE: i32 = 1024;

#[derive(Default)]
pub struct Options {
    used: bool,
    board: bool,
    fields: bool,
}

impl Options {
    pub fn parse(words: &[&str]) -> io::Result<Options> {
        let mut options = Options::default();
        for word in words {
            match *word {
                "--used" => options.used = true,
                "--board" => options.board = true,
                "--fields" => options.fields = true,
                _ => return Err(invalid(&format!("replay has no option {word}"))),
            }
        }
        Ok(options)
    }
}

/// As much text as the replay program gathers before it writes.
const BUFFER: usize = 1 << 19;

pub fn command(options: &Options) -> io::Result<()> {
    let input = input()?;
    let mut out = io::BufWriter::with_capacity(BUFFER, io::stdout().lock());
    match start(&input, options) {
        Some(run) => replay(run, options, &mut out)?,
        None => writeln!(out, "refused 2")?,
    }
    out.flush()
}

fn start<'b>(input: &'b [u8], options: &Options) -> Option<Run<'b>> {
    let (version, body) = input.split_first()?;
    let pace = if options.used {
        Pace::Single
    } else {
        Pace::Whole
    };
    Run::new(*version, body, pace)
}

fn replay(mut run: Run, options: &Options, out: &mut impl Write) -> io::Result<()> {
    let mut named = BTreeSet::new();
    loop {
        let before = run.place();
        let mut fields_line = None;
        let last = match run.call() {
            Answer::Event(event) => {
                text::write_event(out, &event)?;
                if options.fields {
                    fields_line = text::record(&event).map(|r| fields(&r));
                }
                if options.board {
                    named.extend(entry(&event));
                }
                false
            }
            Answer::Finish => write!(out, "finish").map(|()| true)?,
            Answer::Refused(number) => {
                writeln!(out, "refused {number}")?;
                break;
            }
            Answer::Stopped => unreachable!("this pace has no limit"),
        };
        if options.used {
            write!(out, " used {}", run.place() - before)?;
        }
        writeln!(out)?;
        if let Some(fields) = fields_line {
            writeln!(out, "fields {fields}")?;
        }
        if last {
            break;
        }
    }
    if options.board {
        board(run.reader(), &named, out)?;
    }
    Ok(())
}

/// The client for which the event makes an entry on the board.
fn entry(event: &Item) -> Option<i32> {
    match event {
        Item::PlayerNew(i) => Some(i.cid),
        Item::Input(i) => Some(i.cid),
        _ => None,
    }
}

fn board(reader: &Reader, named: &BTreeSet<i32>, out: &mut impl Write) -> io::Result<()> {
    let end = reader.cids().end;
    let above = named.range(DENSE..).copied();
    for client in (0..DENSE).chain(above).take_while(|client| *client < end) {
        write_client(out, reader, client)?;
    }
    writeln!(out, "cids {end}")
}
