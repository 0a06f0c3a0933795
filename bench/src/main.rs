//! Reading and replaying the same bodies by libtw2 and by the proved reader: bench DIR ROUNDS
//!
//! DIR holds bodies named SORT-MEGABYTES, each after its version byte; both replay programs and ladder are run on them. A small body named
//! SORT-small is rewound, at once and by so many events a call.

mod programs;
mod readers;
mod report;
mod rewind;

use readers::Reel;
use report::Report;
use std::io;
use std::path::Path;
use std::process::ExitCode;

const SORTS: [&str; 4] = ["match", "moves", "inputs", "chat"];
const MEGABYTES: [u64; 3] = [5, 20, 80];
const ORACLE: &str = concat!(env!("CARGO_MANIFEST_DIR"), "/../oracle/target/oracle");
const REPLAY: &str = concat!(env!("CARGO_MANIFEST_DIR"), "/../crates/replay/out/replay");
const LADDER: &str = concat!(env!("CARGO_MANIFEST_DIR"), "/../crates/ladder/out/ladder");

fn main() -> ExitCode {
    let arguments: Vec<String> = std::env::args().skip(1).collect();
    let words: Vec<&str> = arguments.iter().map(String::as_str).collect();
    let done = match words.as_slice() {
        ["one", program, file, rest @ ..] => programs::one(program, rest, Path::new(file)),
        [directory, rounds] => run(Path::new(directory), rounds.parse().unwrap_or(1)),
        _ => Err(oracle::invalid("usage: bench DIR ROUNDS")),
    };
    match done {
        Ok(()) => ExitCode::SUCCESS,
        Err(error) => {
            eprintln!("bench: {error}");
            ExitCode::FAILURE
        }
    }
}

fn run(directory: &Path, rounds: u32) -> io::Result<()> {
    for sort in SORTS {
        let mut reports = Vec::new();
        for megabytes in MEGABYTES {
            let file = directory.join(format!("{sort}-{megabytes}"));
            let report = measure(&file, rounds)?;
            report.print(sort, megabytes);
            reports.push(report);
        }
        report::growth(sort, &reports);
        let each = reports[1].many_each();
        rewind::measure(sort, &directory.join(format!("{sort}-small")), each)?;
    }
    Ok(())
}

fn measure(file: &Path, rounds: u32) -> io::Result<Report> {
    let input = std::fs::read(file)?;
    let (version, body) = input
        .split_first()
        .ok_or_else(|| oracle::invalid("an empty body"))?;
    let events = readers::libtw2(*version, body)?;
    let mut report = Report::new(events, body.len() as u64);
    let mut reel = Reel::new();
    for round in 0..rounds.max(1) {
        report.readers[0].time(|| readers::libtw2(*version, body))?;
        report.readers[1].time(|| readers::many(*version, body))?;
        // one event a call takes seconds
        if round < 2 {
            report.readers[2].time(|| readers::lent(*version, body))?;
            report.readers[3].time(|| readers::each(*version, body))?;
        }
        report.programs[0].run(ORACLE, &["replay"], file)?;
        report.programs[1].run(REPLAY, &[], file)?;
        report.kept.time(|| readers::kept(*version, body, &mut reel))?;
        report.list.time(|| readers::list(*version, body))?;
        report.ladder.run(LADDER, &[], file)?;
    }
    report.check()?;
    Ok(report)
}
