//! The oracle: libtw2's reader behind a command line.

use generator::Sort;
use oracle::bench;
use oracle::compare;
use oracle::expected;
use oracle::framed;
use oracle::goals;
use oracle::going;
use oracle::input;
use oracle::integers;
use oracle::invalid;
use oracle::jumps;
use oracle::ladder;
use oracle::lookups;
use oracle::reaches;
use oracle::records;
use oracle::replay;
use oracle::rewind;
use oracle::scripts;
use std::io;
use std::process::ExitCode;

const USAGE: &str = "usage:
  oracle replay [--used] [--board] [--fields]  < INPUT
  oracle expected                              < INPUT
  oracle ladder                                < INPUT
  oracle ladders                               < INPUTS
  oracle lookups                               < INPUTS
  oracle rewind TICK [STEP [EVENTS]]           < INPUT
  oracle rewinds                               < CASES
  oracle rewind_cases                          < LINES
  oracle going                                 < CASES
  oracle going_cases                           < LINES
  oracle reel                                  < INPUT
  oracle reach                                 < CASES
  oracle reach_cases                           < LINES
  oracle framed                                < LINES
  oracle records                               < LINES
  oracle integers                              < LINES
  oracle bench FILE ROUNDS
  oracle compare N SEED REPLAY LOOKUPS LADDER REWIND GOING
  oracle compare_reach N SEED REACH";

fn main() -> ExitCode {
    let arguments: Vec<String> = std::env::args().skip(1).collect();
    let words: Vec<&str> = arguments.iter().map(String::as_str).collect();
    match command(&words) {
        Ok(code) => code,
        Err(error) => {
            eprintln!("oracle: {error}");
            ExitCode::from(2)
        }
    }
}

fn command(words: &[&str]) -> io::Result<ExitCode> {
    match words {
        ["replay", options @ ..] => replay::command(&replay::Options::parse(options)?)?,
        ["expected"] => print!("{}", expected::expected(&input()?).text),
        ["ladder"] => print!("{}", ladder::ladder(&input()?).text),
        ["ladders"] => ladder::command()?,
        ["lookups"] => lookups::command()?,
        ["rewind", tick] => print!("{}", rewound(tick, 0, None)?),
        ["rewind", tick, step] => print!("{}", rewound(tick, number(step)?, None)?),
        ["rewind", tick, step, events] => {
            print!("{}", rewound(tick, number(step)?, Some(number(events)?))?);
        }
        ["rewinds"] => jumps::command()?,
        ["rewind_cases"] => jumps::cases()?,
        ["going"] => scripts::command()?,
        ["going_cases"] => scripts::cases()?,
        ["reel"] => print!("{}", jumps::reel(&input()?)),
        ["reach"] => goals::command()?,
        ["reach_cases"] => goals::cases()?,
        ["framed"] => framed::command()?,
        ["records"] => records::command()?,
        ["integers"] => integers::command()?,
        ["bench", file, rounds] => bench::command(file, number(rounds)?)?,
        ["compare", count, seed, replay, lookups, ladder, rewind, going] => {
            let programs = compare::Programs {
                replay,
                lookups,
                ladder,
                rewind,
                going,
            };
            return compare::command(number(count)?, number(seed)?, &sorts()?, &programs);
        }
        ["compare_reach", count, seed, reach] => {
            return reaches::command(number(count)?, number(seed)?, &sorts()?, reach);
        }
        _ => return Err(invalid(USAGE)),
    }
    Ok(ExitCode::SUCCESS)
}

/// The sorts that are compared.
fn sorts() -> io::Result<Vec<Sort>> {
    compare::sorts(&std::env::var("SORTS").unwrap_or_default())
}

/// What the program rewind prints.
fn rewound(tick: &str, step: u64, limit: Option<u64>) -> io::Result<String> {
    let tick = jumps::tick(tick).ok_or_else(|| invalid(&format!("{tick} is not a tick")))?;
    let input = input()?;
    Ok(match step {
        0 => rewind::Past::of(&input, limit).rewound(tick).text(),
        step => going::rewound(&input, tick, step, limit),
    })
}

fn number(word: &str) -> io::Result<u64> {
    word.parse()
        .map_err(|_| invalid(&format!("{word} is not a number")))
}
